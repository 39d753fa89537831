# shellcheck shell=bash
# ./mpwb watch --page FILE.html FOLDER SEAT. FILE.html is the viewer without a netlist. Beside it stand FILE.data.js with a version of the netlist, and
# FILE.version.js with the number of that version, which the page loads again and again. Each file is written whole and then put in its place, so a
# page never reads a part of one.

page=""         # FILE.html, nothing where no page is written
page_version="" # the version whose data are written, nothing as long as there are none
run_number=""   # tells the versions of this run from those of another

take_page() {
    page=$1
    if [[ ${page##*/} != ?*.html || $page == *$'\n'* ]]; then refuse "--page FILE takes the name of a file that ends in .html"; fi
    run_number=$(date +%s)-$$
}

# shows what was looked at last by the page (which comes last, when it has something to show)
draw_page() {
    cat "$room/edits" >>"$room/all"
    put_file "${page%.html}.data.js" write_data
    page_version=$version
    put_file "${page%.html}.version.js" write_number false
    if [ -n "$shown" ]; then return; fi
    write_no_texts >"$room/none"
    put_file "$page" write_page "$(name_of_desk)" "$room/none" "${scripts[@]}" live
}

name_of_desk() { basename -- "$(cd -P -- "$at" && pwd)"; }

# what a page draws before there is a version: no wire
write_no_texts() {
    local text
    echo "horizon 1"
    for text in "${texts[@]:1}"; do echo "$divided"; done
}

# a version of the netlist, with all edits that led to it
write_data() { { cat "$room/answers" && echo "$divided" && cat "$room/all"; } | write_strings; }

# the texts as strings of a script
write_strings() {
    LC_ALL=C awk -v divided="$divided" -v texts="${texts[*]} edits" -v run="$run_number" -v version="$version" '
        function quoted(text) {
            if (text !~ /[\\"<\001-\037\177]/) return text
            gsub(/[\\"]/, "\\\\&", text)
            gsub(/</, "\\x3c", text)
            gsub(/[\001-\037\177]/, " ", text)
            return text
        }
        BEGIN {
            split(texts, ids)
            ORS = "\\n"
            printf "live.take({\n  run: \"%s\",\n  version: %d,\n  %s: \"", run, version, ids[++part]
        }
        $0 == divided { printf "\",\n  %s: \"", ids[++part]; next }
        { print quoted($0) }
        END { printf "\",\n});\n" }'
}

# the number of the version, and whether no other one comes
write_number() { printf 'live.tell({ run: "%s", version: %d, isOver: %s });\n' "$run_number" "$page_version" "$1"; }

# tells of a version that the page has
tell_drawn() {
    local width told="version $version in ${page##*/} (Ctrl-C leaves $name)"
    width=$(terminal_width 4)
    if has_screen 4; then printf '\r\033[K%s' "${told:0:$((${width:-80} - 1))}"; else echo "version $version"; fi
}

# a page is told that nobody writes it any more
end_page() {
    trap '' INT TERM HUP
    if [ -n "$page_version" ]; then (put_file "${page%.html}.version.js" write_number true) 2>/dev/null || true; fi
}
