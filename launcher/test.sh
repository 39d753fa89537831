# shellcheck shell=bash
# ./mpwb test. The quick test: the programs of examples/ that take a minute or so together, over the program that is there.

quick_tests=(talk documents compare python script calls)

start_test() {
    if [ $# != 0 ]; then refuse "./mpwb test takes no arguments but --help"; fi
    need_sources test
    read_crates
    choose_program
    if ! [ -x "$chosen" ]; then
        echo "mpwb: with this kit only the proved program can be tested: run ./mpwb build first" >&2
        exit 70
    fi
    if [ "$chosen" != "$program" ]; then tell_checked; fi
    test_by "$chosen"
}

# (where a program isn't kept, its folder is removed in the end)
test_by() {
    local words=(python3 -B "$top/launcher/quick_test.py" "$top/examples" "$1" "${quick_tests[@]}") status=0
    if [ -z "$room" ]; then exec "${words[@]}"; fi
    "${words[@]}" || status=$?
    exit "$status"
}
