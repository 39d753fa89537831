# shellcheck shell=bash
# ./mpwb join FOLDER SEAT. What is typed goes to the seat, and what the seat answers is shown, until the end of input or of the desk.

typing="" # the process that passes on what is typed

start_join() {
    if [[ ${1-} == -* ]]; then set -- "./$1" "${@:2}"; fi # (no command takes FOLDER for an option)
    if [ $# != 2 ]; then refuse "./mpwb join FOLDER SEAT, for example ./mpwb join meeting designer-1"; fi
    take_seat "$1" "$2"
    exec 3<&0
    trap 'exit 130' INT TERM HUP
    if [ -t 3 ] && [ -t 1 ]; then talk "$1" "$2"; else pass_on "$1" "$2"; fi
}

# Lines go to the seat as they come, and answers are written as they come. Behind the last line stand two questions whose answers follow each other
# nowhere else: that to `wave .` is the whole answer to a line, and so followed by itself, or it is followed by that to `version`.
pass_on() {
    local status=0
    # shellcheck disable=SC2016
    LC_ALL=C "${leash[@]}" bash -c '"$@"; printf "\nwave .\nwork\n"' - "${leash[@]}" stdbuf -oL sed 's/$/\nwave .\nversion/' <&3 >&6 8<&- &
    typing=$!
    disown "$typing"
    # (what runs beside the script isn't interrupted with it, and would go on to read what is typed)
    trap 'kill -KILL "$typing" 2>/dev/null || true' EXIT
    exec 3<&- 6>&-
    LC_ALL=C stdbuf -oL sed -n '
        /^refused 3 NoSuchWire$/ { N; /\nversion [0-9]*$/ d; /\nrefused 23 NoWork$/ q 10; P; D }
        p' <&5 8<&- || status=$?
    if [ "$status" != 10 ]; then fail_left "$1" "$2"; fi
}

# at a terminal the seat's name stands before each line, once the line before it is answered
talk() {
    local at=$1 name=$2 line="" is_last=""
    trap 'echo; fail_left "$at" "$name"' USR1
    trap 'echo; exit 130' INT
    # shellcheck disable=SC2016
    watch_by flock -s "$at" bash -c 'kill -s USR1 "$0"' $$
    echo "mpwb: $name is yours until Ctrl-D; ./mpwb play --help lists what to type"
    while [ -z "$is_last" ]; do
        printf '%s> ' "$name"
        if ! IFS= read -r line <&3; then is_last=yes; fi
        if [ -n "$is_last" ] && [ -z "$line" ]; then break; fi
        { ask_seat "$line" && hear; } || fail_left "$at" "$name"
    done
    echo
    end_watch
}
