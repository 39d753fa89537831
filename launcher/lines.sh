# shellcheck shell=bash
# At a terminal a check of many lines says behind them how many there are, and that --brief groups them.

most_lines=50

is_counted="" # whether the lines of a check are counted on their way to the terminal

# whether somebody looks on at a check with these words, which isn't brief
counts_lines() {
    if [ "${1-}" != check ] || [ -n "$is_counted" ] || [ ! -t 1 ] || [ ! -t 2 ]; then return 1; fi
    ! is_given --brief "$@" && ! is_given --help "$@" && ! is_given -h "$@"
}

# runs the program with these words, counts the lines that it writes, and ends as it ended
run_counting() {
    is_counted=yes
    choose_program # (what makes one ends with this process, and not with one below it)
    set +e
    (run "$@") | pass_lines
    exit "${PIPESTATUS[0]}"
}

pass_lines() {
    LC_ALL=C awk -v most="$most_lines" '
        { print }
        END { if (NR > most) { fflush(); print "mpwb: " NR " lines; check --brief groups them" | "cat >&2" } }'
}
