# shellcheck shell=bash
# At a terminal a run of more than two seconds says how far it is, in one line of standard error that is taken away before the answer: how many units
# of the netlist's time are over, and how often wires have changed. The program writes that into a file with no name. Before it does, the line has only
# how long the run takes. If the answer goes to a file, the line says how much of it is written, and of a dump up to which time.

quiet_seconds=2
teller="" # the process that says it

# whether a run with these words says it: somebody looks on, and doesn't type the netlist
is_told() {
    if ! has_screen 2; then return 1; fi
    case ${1-} in waves | report | dump | show | why | path | waits | measure | check | steady | graph | verilog) ;; *) return 1 ;; esac
    [ ! -t 0 ] || [ -n "$(file_of "$@")" ]
}

# Runs a program with these words, and ends as it ends; what it says on standard error comes behind the answer. (FILE may be /dev/fd/6, so what is
# opened here gets a number that nobody has.)
run_told() {
    local status=0 said before answer terminal progress=""
    exec {answer}>&1 {terminal}>&2
    before=$(bytes_written)
    open_progress
    tell_progress "$2" &
    teller=$!
    said=$(run_below "$@" 2>&1) || status=$?
    end_telling
    if [ -n "$said" ]; then echo "$said" >&2; fi
    exit "$status"
}

run_below() {
    if [ ! -t "$answer" ] && [ -z "$is_counted" ]; then exec "$@" >&"$answer" {answer}>&- {terminal}>&-; fi
    set +e
    "$@" {answer}>&- {terminal}>&- | pass_answer >&"$answer"
    exit "${PIPESTATUS[0]}"
}

# passes the answer on, once the line is away
pass_answer() {
    local first
    if LC_ALL=C IFS= read -r -d '' -N 1 first; then
        end_telling
        printf '%s' "$first"
        cat
    fi
}

# opens the file into which the program writes how far it is, and removes its name
open_progress() {
    local file
    if file=$(mktemp 2>/dev/null); then
        exec {progress}<>"$file"
        rm -f "$file"
        export MPWB_PROGRESS=/dev/fd/$progress
    fi
}

tell_progress() {
    local nothing
    exec {nothing}<> <(:)
    wait_for "$quiet_seconds"
    while kill -0 "$$" 2>/dev/null; do
        say "$(tell_run "$1")"
        wait_for 1
    done
}

# what is said of the run: how much of its answer is in a file, or else how far it is, or else for how long it runs
tell_run() {
    local written units
    written=$(tell_written "$1")
    units=$(tell_units)
    if [ -z "$written" ] && [ -n "$units" ]; then echo "$units, $SECONDS seconds"; else echo "$1 has run for $SECONDS seconds$written"; fi
}

# the last line of the program, if it is whole, with a comma before each three digits
tell_units() { tail -n 1 "/dev/fd/$progress" 2>/dev/null | sed -nE '/ changes$/!d; :again; s/([0-9])([0-9]{3})([ ,])/\1,\2\3/; t again; p'; }

# how many bytes the file has that the answer goes to, nothing where it is no file
bytes_written() { if [ -f "/dev/fd/$answer" ]; then stat -L -c %s "/dev/fd/$answer"; fi; }

# what is said of an answer of which a part is written
tell_written() {
    local bytes time=""
    bytes=$(bytes_written)
    if [ "${bytes:-0}" -le "${before:-0}" ]; then return; fi
    if [ "$1" = dump ]; then time=$(last_time_written); fi
    if [ -n "$time" ]; then echo ", and has written up to time $time"; else echo ", and has written $((bytes - before)) bytes"; fi
}

# the last time of a dump that is being written, of whole lines alone
last_time_written() { tail -c 4096 "/dev/fd/$answer" 2>/dev/null | sed -n '1d; $d; s/^#\([0-9][0-9]*\)$/\1/p' | tail -n 1; }

wait_for() { read -r -t "$1" -u "$nothing" || true; }

# Ends what says it, and takes its line away. Where that is done already, it does nothing. Only the script can wait for the end. A process below the
# script looks until the number is gone: if the answer came earlier, the script would end it once more, and take a line away behind the answer.
end_telling() {
    if ! kill "$teller" 2>/dev/null; then return; fi
    wait "$teller" 2>/dev/null || while kill -0 "$teller" 2>/dev/null; do sleep 0.01; done
    if [ "$SECONDS" -ge "$quiet_seconds" ]; then printf '\r\033[K' >&"$terminal"; fi
}
