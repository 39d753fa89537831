# shellcheck shell=bash
# A run by rt, for a kit that makes the program elsewhere. rt runs it in a folder of its own, on what standard input gives without a pause. So the
# input is taken here first, and a FILE is named by its whole path.

seconds_of_a_run=60 # what such a run may take

read_words() {
    local word values=0 others
    words=("$1")
    input=yes
    others=$(words_before_file "$1")
    for word in "${@:2}"; do
        if [[ $word == -* ]]; then
            values=$(values_of "$word")
        elif [ "$values" -gt 0 ]; then
            values=$((values - 1))
        else
            if [ "$others" -gt 0 ]; then
                others=$((others - 1))
            else
                # beside a FILE play reads a script
                if [ "$1" != play ]; then input=""; fi
                if [[ $word != /* ]]; then word=$PWD/$word; fi
            fi
        fi
        case $word in -h | --help | -V | --version) input="" ;; esac
        words+=("$word")
    done
}

run_by_rt() {
    local status=0
    if [ "${1-}" = desk ] && [ -n "$(value_of --at "$@")" ]; then
        echo "mpwb: with this kit only the proved program can serve a live desk: run ./mpwb build first" >&2
        exit 70
    fi
    case ${1-} in
    '' | -* | help | explain) words=("$@") input="" ;;
    *) read_words "$@" ;;
    esac
    echo "mpwb: this kit can't keep the program, so it is built again, in about two minutes" >&2
    tell_checked
    if [ -n "$input" ] && ! cat >"$room/in" 2>/dev/null; then
        echo "mpwb: read failed" >&2
        exit 3
    fi
    try_words rt --seconds "$seconds_of_a_run" -- "${words[@]}" || status=$?
    tell_rt_run
    exit "$status"
}

# shows what a run by rt wrote, or why there is no answer
tell_rt_run() {
    if ended_by_rt; then
        cat "$room/out"
        grep -Ev '^(interpreter|checked|races|rt): |^run=ended ' "$room/log" >&2 || true
    elif grep -q '^checked: no-answer' "$room/log"; then
        echo "mpwb: this run takes too long or writes too much for a program without proofs: run ./mpwb build first" >&2
        exit 70
    else
        tell_no_program
    fi
}

ended_by_rt() { tail -n 1 "$room/log" | grep -q '^run=ended '; }

tell_no_program() {
    cat "$room/log" >&2
    echo "mpwb: rt try gave no answer" >&2
    exit 70
}
