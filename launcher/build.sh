# shellcheck shell=bash
# ./mpwb build. The crates that the program needs are proved by `rt ci` in a copy that has them alone, without their must-fail edits: as many side
# by side as there are processors and memory, those first on which the longest chain of crates stands (lanes.py). An rt that keeps what it has proved
# for later calls, as that of rattle-kit-13f, goes on where an earlier build was ended; that of rattle-kit-13b begins anew.

log=$folder/build.log

copy_crates() {
    local crate
    mkdir -p "$room/top/.git" "$folder" # (.git: it is the top of a repository)
    tar -C "$top" -c --anchored --no-wildcards-match-slash --exclude='crates/*/'{out,must-fail} HANDLES "${crates[@]/#/crates/}" |
        tar -C "$room/top" -x
    for crate in "${crates[@]}"; do grep "^${crate}[: ]" "$top/crates.txt"; done >"$room/top/crates.txt"
}

# the crates that are done, of those that the program needs
count_done() { grep -cE '^rt: [a-z_]+ (proved|is kept)' "$log" || true; }

# the crates whose checks run now
name_checked() { ps -s "$gate" -o args= 2>/dev/null | sed -n 's/.*rattle .*--crate-name \([^ ]*\).*/\1/p' | sort -u | tr '\n' ' '; }

time_taken() { echo "$((SECONDS / 60)) min $((SECONDS % 60)) s"; }

tell_failure() {
    say_last "the program was not built: $1"
    tail -n 20 "$log" >&2
    echo "mpwb: the whole log is in $log" >&2
    exit 70
}

# rt ci, by lanes.py if nobody has said how many crates are proved side by side
prove() {
    if [ -z "${RT_JOBS:-}" ] && command -v python3 >/dev/null; then
        exec setsid python3 -B "$top/launcher/lanes.py" "$(type -P rt)"
    else
        exec setsid rt ci
    fi
}

build() {
    local now said=""
    begin_work
    copy_crates
    : >"$log"
    gate=begins
    (cd "$room/top" && prove) </dev/null >"$log" 2>&1 &
    gate=$!
    while kill -0 "$gate" 2>/dev/null; do
        now="$((${#crates[@]} - $(count_done))) of ${#crates[@]} crates left, proving $(name_checked)"
        if has_screen 2 || [ "$now" != "$said" ]; then say "$(time_taken), $now"; fi
        said=$now
        if grep -q 'NOT PROVED$' "$log"; then tell_failure "$(grep 'NOT PROVED$' "$log")"; fi
        sleep 1
    done
    wait "$gate" || tell_failure "$(tail -n 1 "$log")"
    gate=""
    put_program "$room/top/crates/mpwb/out/mpwb" "$program"
    drop_checked
    say_last "proved and built in $(time_taken)"
}
