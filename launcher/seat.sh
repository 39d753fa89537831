# shellcheck shell=bash
# A seat of a live desk. Whoever takes it holds its lock, and then opens `.out` to read and `.in` to write, in the order in which the desk does: so no
# line is taken before its writer can be answered.

seat=""    # the path of the seat's pipes without their ends
watcher="" # the process that waits for the end of the desk

fail_seat() {
    echo "mpwb: $1" >&2
    exit 3
}

# whether a desk runs at a folder: then it holds the folder's lock
is_served() {
    local status=0
    if [ -d "$1" ]; then flock -n -s -E 9 "$1" true 2>/dev/null || status=$?; fi
    [ "$status" = 9 ]
}

need_desk() {
    if is_served "$1"; then return; fi
    if [ -d "$1" ] && { [ ! -r "$1" ] || [ ! -x "$1" ]; }; then fail_seat "$1 isn't shared with you"; fi
    fail_seat "no desk at $1"
}

# whether somebody sits there without the lock, or is gone and the desk hasn't left the seat yet: just then the desk reads there
is_read() { dd if=/dev/null of="$seat.in" oflag=nonblock conv=nocreat,notrunc 2>/dev/null; }

most_looks=50 # at a seat that nobody holds the lock of, and that isn't free yet

lock_seat() {
    local looks
    if ! { exec 8<"$seat.lock"; } 2>/dev/null; then fail_seat "can't open $seat.lock"; fi
    if ! flock -n 8; then fail_seat "$1 is taken"; fi
    for ((looks = 0; looks < most_looks; looks++)); do
        if ! is_read; then return; fi
        sleep 0.02
    done
    fail_seat "$1 is taken"
}

# takes a seat of a folder: lines are written to 6 then, and answers read from 5
take_seat() {
    local end
    seat=$1/$2
    need_desk "$1"
    for end in in out; do if [ ! -p "$seat.$end" ]; then fail_seat "can't open $seat.$end"; fi; done
    lock_seat "$2"
    find_leash
    until open_seat "$1"; do need_desk "$1"; done
    trap : PIPE # (whoever writes is told that nobody reads)
}

# Opens `.out`, and `.in` as soon as the desk does. It fails where the desk has put another pipe into the place of `.out` meanwhile. Then nobody reads
# `.in`, nor where the desk is killed just now: after a while that is opened beside it, so that this doesn't wait any more.
open_seat() {
    # shellcheck disable=SC2016
    watch_by bash -c 'flock -s -w 2 "$1" true; exec 4<>"$0.in"; sleep 1' "$seat" "$1"
    # (it is opened to write too, for a moment: so this doesn't wait)
    if ! { exec 7<>"$seat.out" && exec 5</dev/fd/7; } 2>/dev/null; then fail_seat "can't open $seat.out"; fi
    exec 7>&-
    if ! { exec 6>"$seat.in"; } 2>/dev/null; then fail_seat "can't open $seat.in"; fi
    end_watch
    [ "$seat.out" -ef /dev/fd/5 ]
}

# has a command wait beside the script
watch_by() {
    "${leash[@]}" "$@" </dev/null 2>/dev/null 5<&- 6>&- 8<&- &
    watcher=$!
    disown "$watcher"
    trap end_beside EXIT
}

# ends what runs beside the script
end_beside() {
    end_watch
    if [ -n "$room" ]; then end_work; fi
}

end_watch() {
    if [ -n "$watcher" ]; then kill -KILL "$watcher" 2>/dev/null || true; fi
    watcher=""
}

# Behind each line stand two questions, whose answers end the answer to the line: within an answer the first of them is never followed by the second.
ask_seat() { { printf '%s\nwave .\nversion\n' "$1" >&6; } 2>/dev/null; }

heard="" # whether `hear` wrote an answer or a refusal, nothing where the seat was left before its end

# writes an answer up to its end (a refusal is the one line of its answer)
hear() {
    local status=0
    sed -n '
        1 { /^refused [0-9]* [A-Z]/ h; /^unread [0-9]* [A-Z]/ h }
        /^refused 3 NoSuchWire$/ { N; /\nversion [0-9]*$/ { 2 q 10; x; /./ q 11; q 10 }; P; D }
        p' <&5 6>&- 8<&- || status=$?
    case $status in 10) heard=answer ;; 11) heard=refusal ;; *) heard="" ;; esac
    [ -n "$heard" ]
}

# tells that the desk is gone, or, where it runs on, that it has left the seat
fail_left() {
    if flock -s -w "$seconds_for_a_lock" "$1" true 2>/dev/null; then fail_seat "the desk at $1 is gone"; fi
    fail_seat "the desk has left $2 before the answer was complete"
}

# --- ./mpwb ask FOLDER SEAT LINE

start_ask() {
    if [[ ${1-} == -* ]]; then set -- "./$1" "${@:2}"; fi # (no command takes FOLDER for an option)
    local line=${*:3}
    if [ $# -lt 3 ] || [[ $line == *$'\n'* ]]; then refuse "./mpwb ask FOLDER SEAT LINE, for example ./mpwb ask meeting viewer-1 text"; fi
    take_seat "$1" "$2"
    { ask_seat "$line" && hear; } || fail_left "$1" "$2"
    if [ "$heard" = refusal ]; then exit 1; fi
}
