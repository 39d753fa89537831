# shellcheck shell=bash
# `show` at a terminal is given as many columns as have room there, and --ascii where the locale isn't UTF-8.

least_columns=10 # also in a terminal that is narrower
most_columns=10000
most_looked_at=4194304 # of so many bytes of a netlist the names are looked at

show() {
    local width screen words=()
    exec {screen}>&1
    width=$(terminal_width "$screen")
    exec {screen}>&-
    if [ -z "$width" ] || is_given --svg "$@" || is_given --json "$@" || is_given --help "$@" || is_given -h "$@"; then run show "$@"; fi
    if ! is_utf8 && ! is_given --ascii "$@"; then words=(--ascii); fi
    if is_given --columns "$@"; then run show "${words[@]}" "$@"; fi
    fit "$width" "${words[@]}" "$@"
}

# the width of the terminal that is open as a number, nothing where it is none
terminal_width() {
    if [ -t "$1" ]; then stty size <&"$1" 2>/dev/null | awk '$2 > 0 { print $2 }'; fi
}

is_utf8() {
    local locale=${LC_ALL:-${LC_CTYPE:-${LANG-}}}
    [[ ${locale,,} =~ utf-?8 ]]
}

# Shows the picture in a width. How wide it is for a number of columns depends on its names, which the netlist has, and on what is found, which the
# picture alone tells.
fit() {
    local width=$1 input=/dev/null file
    shift
    file=$(file_of show "$@")
    if [ -n "$file" ] && [ "$file" != - ] && [ ! -f "$file" ]; then run show "$@"; fi # (a pipe can't be read twice)
    choose_program
    begin_work
    if [ -z "$file" ] || [ "$file" = - ]; then
        input=$room/given file=$room/given
        cat >"$input" 2>/dev/null || fail_device read
    fi
    fit_columns "$width" $((width - 2 - $(longest_name "$file" "$@"))) "$room/picture" run_show "$@"
    cat "$room/picture" || fail_device write
}

run_show() {
    (run show "$@") <"$input" || exit
    is_told=yes
}

# Has a command draw a picture into a file, for which it is given so many columns at most. Where the picture is wider than it may be, it is drawn once
# more.
fit_columns() {
    local width=$1 columns=$2 file=$3 over
    while :; do
        columns=$((columns < least_columns ? least_columns : columns > most_columns ? most_columns : columns))
        "$4" --columns "$columns" "${@:5}" >"$file"
        over=$(($(picture_width "$file") - width))
        if [ "$over" -le 0 ] || [ "$columns" = "$least_columns" ]; then break; fi
        columns=$((columns - over))
    done
}

# how wide the times and the first wire of a picture are (other bytes than the first one of a character don't count)
picture_width() {
    LC_ALL=C awk '
        NR > 2 { exit }
        { gsub(/[\200-\277]/, ""); if (length($0) > most) most = length($0) }
        END { print most + 0 }' "$1"
}

# the length of the longest name among the wires that are shown
longest_name() {
    local file=$1 word before="" most=0
    shift
    for word in "$@"; do
        if [ "$before" != --wire ] && [[ $word != --wire=* ]]; then before=$word && continue; fi
        word=${word#--wire=} before=""
        most=$((${#word} > most ? ${#word} : most))
    done
    if [ "$most" = 0 ]; then
        most=$(head -c "$most_looked_at" -- "$file" 2>/dev/null |
            awk '$1 == "wire" && length($2) > most { most = length($2) } END { print most + 0 }')
    fi
    echo "$most"
}
