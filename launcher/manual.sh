# shellcheck shell=bash
# The man page of a day, made of what `write_help` has written to a folder.

write_man_page() {
    local command about
    printf '.TH MPWB 1 %s Nesthrim\n.SH NAME\nmpwb \\- a workbench for micropipelines\n' "$2"
    printf '.SH SYNOPSIS\n.B mpwb\nCOMMAND\n[OPTIONS]\n[FILE]\n.SH DESCRIPTION\n'
    sed -n 1p "$1/all" | in_roff text
    printf '.SH COMMANDS\n'
    while read -r command about; do
        printf '.SS "%s"\n' "$(usage_in "$1" "$command" | sed 's/-/\\-/g')"
        if [ "$command" = help ]; then echo "$about"; else in_roff text <"$1/$command"; fi
    done <"$1/commands"
    printf '.SH "KINDS OF MODULE"\n'
    sed -n '/^Kinds of module/,/^$/p' "$1/waves" | in_roff list
    printf '.SH "EXIT STATUS"\n'
    sed -n '/^Exit status, and/,$p' "$1/waves" | in_roff list
}

usage_in() {
    if [ "$2" = help ]; then echo "mpwb help [COMMAND]"; else sed -n 's/^Usage: \(\.\/\)\{0,1\}//p' "$1/$2"; fi
}

# Help as the text of a man page: paragraphs are filled, and lines with blanks in front stay as they are. As a `text` it has a list of arguments and
# options, and ends before what all commands have in common; as a `list` its heading goes. No line of text has more than 80 characters.
in_roff() {
    awk -v form="$1" '
        function plain(line) { gsub(/\\/, "\\e", line); gsub(/-/, "\\-", line); sub(/^[.\x27]/, "\\\\&&", line); return line }
        function keep(on) { if (on != kept) print on ? (after ? ".PP\n.nf" : ".nf") : ".fi"; if (on) { parted = 0; after = 1 } kept = on }
        function put(line,   count, words, at, next_line) {
            count = split(line, words, " "); line = words[1]
            for (at = 2; at <= count; at++) {
                next_line = line " " words[at]
                if (length(plain(next_line)) > 80) { print plain(line); line = words[at] } else line = next_line
            }
            print plain(line)
        }
        form == "list" && NR == 1 { next }
        form == "text" && (/^Kinds of module/ || /^Exit status, and/) { exit }
        /^Usage: / { next }
        /^(Arguments|Options):$/ { keep(0); listed = 1; next }
        listed && /^ ? ? ? ? ? ?[^ ]/ && /^ / { sub(/^ +/, ""); print ".TP\n\\fB" plain($0) "\\fR"; next }
        /^ *$/ { if (kept) blank = 1; else if (!listed) parted = after; next }
        /^[^ ]/ { listed = 0 }
        listed { put($0); next }
        /^ / { keep(1); if (blank) print ""; blank = 0; print plain($0); next }
        { keep(0); if (parted || blank) print ".PP"; parted = blank = 0; after = 1; put($0) }
        END { keep(0) }'
}
