# shellcheck shell=bash
# ./mpwb install. The man page and the completions are made of what --help of the program and of the script says, so they have what is installed.

start_install() {
    local prefix=${1-/usr/local}
    if [ $# -gt 1 ] || [[ $prefix == -* || -z $prefix ]]; then refuse "./mpwb install [PREFIX]"; fi
    need_built
    umask 022 # (all users may run what is installed)
    begin_work
    gather "$room/files" "$(date -r "$program" +%F)" || fail_device write
    put_files "$room/files" "$prefix"
    echo "mpwb: installed in $prefix"
}

need_built() {
    if is_current "$program"; then return; fi
    if ! has_sources; then tell_no_kit; fi
    echo "mpwb: the program isn't built: run ./mpwb build first" >&2
    exit 70
}

# all files that are installed, in a folder that stands for PREFIX, with a man page of this day
gather() {
    local lib=$1/lib/nesthrim share=$1/share
    export LC_ALL=C # (words are sorted the same way everywhere)
    mkdir -p "$lib/bin" "$lib/python" "$1/bin" "$room/help" &&
        mkdir -p "$share"/{man/man1,bash-completion/completions,zsh/site-functions,fish/vendor_completions.d} &&
        cp "$program" "$lib/bin/mpwb" &&
        cp -R "$top/mpwb" "$top/launcher" "$top/viewer" "$top/LICENSE-APACHE" "$top/LICENSE-MIT" "$lib" &&
        cp -R "$top/python/nesthrim" "$lib/python" &&
        find "$lib/python" -name __pycache__ -prune -exec rm -r {} + &&
        ln -s ../lib/nesthrim/mpwb "$1/bin/mpwb" &&
        write_help "$room/help" &&
        write_man_page "$room/help" "$2" >"$share/man/man1/mpwb.1" &&
        complete_in_bash "$room/help" >"$share/bash-completion/completions/mpwb" &&
        complete_in_zsh "$room/help" >"$share/zsh/site-functions/_mpwb" &&
        complete_in_fish "$room/help" >"$share/fish/vendor_completions.d/mpwb.fish" &&
        chmod -R u=rwX,go=rX,ug-s "$1"
}

# (a file takes the place of an older one at once, which may be that of a program that runs)
put_files() {
    local from=$1 to=$2 file
    while IFS= read -r -d '' file; do
        unfinished=$to/$file.$$
        if ! { mkdir -p "$(dirname "$to/$file")" && cp -P "$from/$file" "$unfinished" && mv -T "$unfinished" "$to/$file"; } 2>/dev/null; then
            echo "mpwb: can't write $to/$file" >&2
            exit 3
        fi
    done < <(cd "$from" && find . \( -type f -o -type l \) -printf '%P\0')
}

# what --help says: of each command in a file of its name, of all in `all`; the names of commands, with what each does, in `commands`; what
# `explain` explains in `words`
write_help() {
    local command
    (run --help) >"$1/all"
    { commands_in "$1/all" && tell_words | commands_in /dev/stdin; } >"$1/commands"
    while read -r command _; do
        if is_own "$command"; then "tell_$command"; elif [ "$command" != help ]; then (answer "$command" --help); fi >"$1/$command"
    done <"$1/commands"
    (run explain) | awk '{ for (at = 2; at <= NF; at++) print $at }' | sort -u >"$1/words"
}

# the names of commands and what they do, as a help lists them
commands_in() { sed -n 's/^  \([a-z][a-z]*\)  *\([A-Z].*\)$/\1 \2/p' "$1"; }

# the options of a command, each in a line with the values that it takes, as WIRE,TIME or as -, and what it is
options_in() {
    awk '
        function done() { if (option != "") print option, values == "" ? "-" : values, text; option = "" }
        /^  +(-h, )?--[a-z]/ {
            done()
            sub(/^ +(-h, )?/, "")
            option = $1; values = ""; text = ""
            for (at = 2; at <= NF; at++) values = values (at == 2 ? "" : ",") substr($at, 2, length($at) - 2)
            next
        }
        option != "" && text == "" { sub(/^ +/, ""); text = $0; next }
        /^[^ ]/ { done() }
        END { done() }' "$1"
}
