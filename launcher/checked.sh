# shellcheck shell=bash
# The program that is checked at run time. `rt try` makes it: by a folder of links to the kit, in which it is optimised and put where it is wanted
# (kit.sh). If that folder is of no use, with another kit, `rt try` makes it in a folder of TMPDIR, runs it and removes it. So rt is told to run it on
# a named pipe: there it waits until it is taken from its folder.

status_of_check=70 # that of a run in which a check fails

is_told="" # whether an earlier run has told it

tell_checked() {
    if [ -n "$is_told" ]; then return; fi
    echo "mpwb: this program is checked at run time and not proved; ./mpwb build proves and builds it, in about an hour" >&2
}

take_program() {
    pass_turn
    until find_program >"$room/netlist"; do sleep 0.1; done
}

find_program() {
    local found
    found=$(find "$room/tmp" -type f -name program -perm -u=x -print -quit)
    [ -n "$found" ] && { ln "$found" "$room/program" || cp "$found" "$room/program"; } 2>/dev/null
}

# runs `try` of this rt with these words, on what `in` of the room has
try_words() {
    local status=0
    gate=begins
    (pass_turn && cd "$top/crates/mpwb" && exec setsid "$1" try "${@:2}") <"$room/in" >"$room/out" 2>"$room/log" &
    gate=$!
    wait "$gate" || status=$?
    gate=""
    return "$status"
}

try_program() { TMPDIR=$room/tmp try_words "$1" -- waves "$room/netlist" || true; }

# whether rt has run the program all the same, or refused a source at a line of it
has_answer() { [ -e "$room/log" ] && { ended_by_rt || grep -qE '^[^ :]+:[0-9]+:[0-9]+: error' "$room/log"; }; }

make_checked() {
    begin_work
    echo "mpwb: a program without proofs is built first, in about two minutes" >&2
    mkdir "$room/tmp"
    mkfifo "$room/netlist"
    : >"$room/in"
    taker=begins
    take_program &
    taker=$!
    if link_kit; then try_program "$room/kit/bin/rt"; fi
    if ! [ -x "$room/program" ] && ! has_answer; then try_program rt; fi
    end_process "$taker"
    taker=""
    # (where it can't be kept, it serves this run alone)
    if [ -x "$room/program" ]; then { mkdir -p "$folder" && put_program "$room/program" "$checked"; } 2>/dev/null || true; fi
}

# sets up what the checked program runs in
set_up_checked() {
    tell_checked
    if ! checks_addresses "$chosen"; then set_up_built; fi
    export ASAN_OPTIONS="abort_on_error=0:exitcode=$status_of_check:allocator_may_return_null=1"
}

# the program has the input, the output and the terminal of the script, and ends with it
run_checked() {
    local status=0
    set_up_checked
    find_leash
    trap - INT TERM HUP
    "${leash[@]}" "$chosen" "$@" || status=$?
    tell_failed_check "$status"
    exit "$status"
}

# ends the script where the status of a run says that a check failed
tell_failed_check() {
    case $1 in
    "$status_of_check" | 13[2-69])
        echo "mpwb: a check failed at run time: the program has a fault, and its answer isn't complete" >&2
        exit 70
        ;;
    esac
}

# --- the turn to make it, which is a lock of the launcher's folder: so it ends with this process, however that ends

turn=""

# Takes the turn, and waits for it while another process has it. (A system without such locks gives it to everybody.)
take_turn() {
    local status said=""
    { exec {turn}<"$top/launcher"; } 2>/dev/null || return 0
    while status=0 && { flock -n "$turn" 2>/dev/null || status=$?; } && [ "$status" = 1 ]; do
        if [ -z "$said" ]; then echo "mpwb: another ./mpwb builds the program without proofs; this one waits for it" >&2; fi
        said=yes
        sleep 0.2
    done
}

# (what has begun below this process has to do so too, or it would hold the turn longer)
pass_turn() {
    if [ -n "$turn" ]; then exec {turn}<&-; fi
    turn=""
}
