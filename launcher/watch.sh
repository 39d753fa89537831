# shellcheck shell=bash
# ./mpwb watch FOLDER SEAT [QUESTION ..]. A viewer's seat asks for the version some times a second, and shows the answer to a question anew where it
# has changed, or has a page show it (live_page.sh).

seconds_between_looks=0.2 # with a page, half of that: the page waits too
most_tries=10 # to have an answer of one version, while others edit
all_times="0 18446744073709551615"

start_watch() {
    case ${1-} in
    --page) take_page "${2-}" && shift $(($# < 2 ? $# : 2)) ;;
    --page=*) take_page "${1#*=}" && shift ;;
    esac
    if [[ ${1-} == -* ]]; then set -- "./$1" "${@:2}"; fi # (no command takes FOLDER for an option)
    local question=${*:3}
    if [ $# -lt 2 ] || [[ $2 != viewer-* || $question == *$'\n'* ]]; then
        refuse "./mpwb watch FOLDER SEAT [QUESTION ..] with a viewer's seat, for example ./mpwb watch meeting viewer-1"
    fi
    if [ -n "$page" ] && [ $# -gt 2 ]; then refuse "with --page no question is asked"; fi
    need_desk "$1"
    if [ -n "$page" ]; then choose_program && question=text; fi
    take_seat "$1" "$2"
    begin_work
    exec 4>&1
    trap 'end_screen; end_page; end_beside' EXIT
    trap 'if [ -t 4 ]; then echo >&4; fi; exit 0' INT
    keep_watch "$1" "$2" "$question"
}

keep_watch() {
    local at=$1 name=$2 question=$3 version="" shown=""
    while :; do
        tell_version
        if [ "$version" != "$shown" ]; then
            look
            if [ -n "$page" ]; then draw_page; fi
            draw 2>/dev/null || fail_device write
            shown=$version
        fi
        if [ -n "$page" ]; then sleep 0.1; else sleep "$seconds_between_looks"; fi
    done
}

# asks for the version
tell_version() {
    local told=""
    { { printf 'version\n' >&6; } 2>/dev/null && IFS= read -r told <&5; } || fail_left "$at" "$name"
    if [[ $told == version\ * ]]; then version=${told#version }; fi
}

# puts what is seen of a version into a file, and into another the edits that made it of the version that was shown
look() {
    local before tries
    for ((tries = 0; tries < most_tries; tries++)); do
        before=$version
        hear_seen
        tell_version
        if [ "$version" = "$before" ]; then break; fi
    done
    version=$before
    if [ -n "$page" ]; then answer_texts "$room/seen"; fi
    : >"$room/edits"
    if [ -z "$shown$page" ]; then return; fi
    hear_answer "edits $((shown + 1))" >"$room/told"
    awk -v last="$version" '$1 <= last' "$room/told" >"$room/edits"
}

# asks the question, and where there is none for a picture as wide as the terminal
hear_seen() {
    local width="" plain=()
    if [ -z "$question" ]; then width=$(terminal_width 4); fi
    if [ -z "$width" ]; then
        hear_answer "${question:-show $all_times}" >"$room/seen"
    else
        if ! is_utf8; then plain=(--ascii); fi
        fit_columns "$width" $((width - 2)) "$room/seen" hear_picture "${plain[@]}"
    fi
}

hear_picture() { hear_answer "show $all_times $*"; }

hear_answer() { { ask_seat "$1" && hear; } || fail_left "$at" "$name"; }

# --- what is shown

edits_at_terminal=5 # so many of the last ones are shown in place

draw() {
    if [ -n "$page" ]; then
        tell_drawn
        return
    fi
    if ! has_screen 4; then
        echo "version $version" && cat "$room/seen" "$room/edits"
        return
    fi
    # (a line that is too long is cut, and not broken)
    printf '\033[H\033[J\033[?7lversion %s (Ctrl-C leaves %s)\n' "$version" "$name"
    fit_rows "$(stty size <&4 | awk '{ print $1 }')"
    end_screen
}

# what is seen, and the last edits below it, in so many rows
fit_rows() {
    awk -v rows="$1" -v most="$edits_at_terminal" '
        FILENAME ~ /edits$/ { edits[++made] = $0; next }
        { seen[++lines] = $0 }
        END {
            first = made > most ? made - most + 1 : 1
            free = rows > 0 ? rows - 2 - (made - first + 1) : lines
            last = lines > free ? free - 1 : lines
            for (at = 1; at <= last; at++) print seen[at]
            if (last < lines) print ".. and " lines - last " lines more"
            for (at = first; at <= made; at++) print edits[at]
        }' "$room/seen" "$room/edits"
}

end_screen() { if has_screen 4; then printf '\033[?7h'; fi; }
