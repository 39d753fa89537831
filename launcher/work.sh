# shellcheck shell=bash
# Work of rt. It is done in a room of its own and by a group of processes of its own, so that all of it ends with the script.

room=""
gate=""  # the process of rt, while it runs; `begins` where its number isn't known yet
taker="" # the one that takes the program which rt makes, while it waits; `begins` as there

unfinished="" # the file that is written just now, by the name that it has until it is whole

leash=() # stands before a command that ends with whoever has started it, where the system can do that

find_leash() { if setpriv --pdeathsig KILL true 2>/dev/null; then leash=(setpriv --pdeathsig KILL); fi; }

# (an interrupt waits until it is known what has to be removed)
begin_work() {
    local is_ended=""
    if [ -n "$room" ]; then return; fi
    trap 'is_ended=yes' INT TERM HUP
    room=$(trap '' INT TERM HUP && mktemp -d 2>/dev/null) || room=""
    trap end_work EXIT
    trap 'exit 130' INT TERM HUP
    if [ -n "$is_ended" ]; then exit 130; fi
    if [ -z "$room" ]; then
        echo "mpwb: can't make a folder in ${TMPDIR:-/tmp}: the variable TMPDIR has to name a folder that takes files" >&2
        exit 3
    fi
    touch "$room/began"
}

# (an interrupt while it ends would leave what it hasn't ended and removed yet)
end_work() {
    trap '' INT TERM HUP
    if [ -n "$taker" ]; then end_process "$(number_of "$taker")"; fi
    if [ -n "$gate" ]; then end_group "$(number_of "$gate")"; fi
    rm -rf "$room" "$program.$$" "$checked.$$" ${unfinished:+"$unfinished"}
}

# the number of a process; of one that begins that of the last one, which it is or will be
number_of() { if [ "$1" = begins ]; then echo "${!:-}"; else echo "$1"; fi; }

# Ends a process that has nothing to remove. (One that has just begun would take another signal as the script does, and remove the room. One that has
# ended, as by the same Ctrl-C, isn't waited for: in a trap that may never return.)
end_process() {
    kill -KILL "$1" 2>/dev/null || return 0
    wait "$1" 2>/dev/null || true
}

# Ends a group of processes, once it is one. It first removes what it made; if that takes longer than two seconds it is killed.
end_group() {
    local tenths is_told=""
    for ((tenths = 0; tenths < 20; tenths++)); do
        if [ -z "$is_told" ] && kill -- "-$1" 2>/dev/null; then
            is_told=yes
        elif ! kill -0 "$1" 2>/dev/null && ! kill -0 -- "-$1" 2>/dev/null; then
            return 0
        fi
        sleep 0.1
    done
    kill -KILL -- "$1" "-$1" 2>/dev/null || true
}

# has a command write a file, which takes the place of an older one once it is whole
put_file() {
    local file=$1
    if [[ $file == -* ]]; then file=./$file; fi
    unfinished=$file.$$
    if ! { "${@:2}" >"$unfinished" && mv -fT "$unfinished" "$file"; } 2>/dev/null; then
        rm -f "$unfinished" 2>/dev/null || true
        echo "mpwb: can't write $1" >&2
        exit 3
    fi
    unfinished=""
}

# puts a program in its place, which may be that of one that runs; it is as old as what it was made from
put_program() {
    cp "$1" "$2.$$" && chmod a+rx "$2.$$" && touch -r "$room/began" "$2.$$" && mv "$2.$$" "$2"
}
