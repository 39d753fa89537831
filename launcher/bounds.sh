# shellcheck shell=bash
# What a program runs in that doesn't check addresses. It gets nine tenths of the machine's memory, or MPWB_MEMORY MiB: where it asks for more it says
# so and ends, before the system has to end it or another. It gets its memory in large pages where there are such, unless the caller has tunables of
# their own.

least_memory=8 # in MiB: with less the program may not even begin

bound_memory() {
    local kib="" now
    if [ -z "${MPWB_MEMORY-}" ]; then
        find_memory
    elif [[ $MPWB_MEMORY =~ ^[1-9][0-9]{0,11}$ ]] && [ "$MPWB_MEMORY" -ge "$least_memory" ]; then
        kib=$((MPWB_MEMORY * 1024))
    else
        echo "mpwb: MPWB_MEMORY has to be a number of MiB, $least_memory or more" >&2
        exit 70
    fi
    now=$(ulimit -v)
    if [ -n "$kib" ] && { [ "$now" = unlimited ] || [ "$now" -gt "$kib" ]; }; then ulimit -v "$kib"; fi
}

# nine tenths of the machine's memory, nothing where the system doesn't tell it
find_memory() {
    local name amount unit
    while read -r name amount unit; do
        if [ "$name $unit" = "MemTotal: kB" ]; then kib=$((amount * 9 / 10)) && break; fi
    done 2>/dev/null </proc/meminfo || true
}

# sets up what such a program runs in
set_up_built() {
    bound_memory
    export GLIBC_TUNABLES="${GLIBC_TUNABLES-glibc.malloc.hugetlb=1}"
}
