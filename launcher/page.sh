# shellcheck shell=bash
# ./mpwb page. The page is the viewer, and in it what the program writes of a netlist, just as it was written.

viewer=$top/viewer
scripts=(waves causes period compare view painter marks page input) # those of the viewer, each behind those that it uses
texts=(netlist waves places period)                                 # what a page draws from

# between two answers stands that to a line which isn't read: no line of an answer is the same
divider=---
divided="unread 2 UnknownStatement"

start_page() {
    local file name usage="./mpwb page [FILE] > page.html"
    case ${1-} in --) shift ;; -?*) refuse "$usage" ;; esac
    if [ $# -gt 1 ]; then refuse "$usage"; fi
    file=${1--}
    choose_program
    begin_work
    name=$(basename -- "$file")
    if [ "$file" = - ]; then
        file=$room/given name="standard input"
        if ! cat >"$file" 2>/dev/null; then fail_device read; fi
    fi
    answer_texts "$file"
    write_page "$name" "$room/answers" "${scripts[@]}" 2>/dev/null || fail_device write
}

# has the program write the texts of a netlist
answer_texts() { (printf '%s\n' text "$divider" waves "$divider" check "$divider" steady | run play -- "$1") >"$room/answers" || exit; }

# a page with a title and the texts of a file, by these scripts of the viewer
write_page() {
    local script
    printf '<!DOCTYPE html>\n<html lang="en">\n<meta charset="utf-8">\n<meta name="viewport" content="width=device-width">\n' &&
        printf '<title>%s</title>\n<style>\n' "$(sed 's/&/\&amp;/g; s/</\&lt;/g' <<<"$1")" &&
        cat "$viewer/style.css" && echo '</style>' && cat "$viewer/page.html" && write_texts "$2" || return 1
    for script in "${@:3}"; do
        echo '<script>' && cat "$viewer/$script.js" && echo '</script>' || return 1
    done
}

# the texts, each in an element of its own
write_texts() {
    awk -v divided="$divided" -v texts="${texts[*]}" '
        function begin(id) { printf "<script type=\"text/plain\" id=\"%s-text\" title=\"%s\">", id, id in titles ? titles[id] : id }
        BEGIN { titles["places"] = "check"; titles["period"] = "steady"; split(texts, ids); begin(ids[++part]) }
        $0 == divided { print "</script>"; begin(ids[++part]); next }
        { print }
        END { print "</script>" }' "$1"
}
