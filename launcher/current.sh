# shellcheck shell=bash
# Whether a program is current: it is there, and no source is newer. To find the sources, some thousand files, takes longer than most answers. So
# where no source is newer their names are written down, with those of their folders. As long as none of these has changed since then, nor a folder
# above them, no file was added, removed or moved, and it is enough to look at what has a name.

names=$folder/sources # each with a NUL behind it, as seen from $top

crates=()           # those that the program needs, lowest first
declare -A below=() # the crates of this repository that a crate stands on

read_crates() {
    local name libraries library
    if [ ${#crates[@]} != 0 ] || [ ! -e "$top/crates.txt" ]; then return; fi
    while IFS=: read -r name libraries; do
        name=${name%%[[:space:]]*}
        case $name in '' | '#'*) continue ;; esac
        below[$name]=""
        for library in $libraries; do
            if [ -d "$top/crates/$library" ]; then below[$name]+=" $library"; fi
        done
    done <"$top/crates.txt"
    add_crate mpwb
}

add_crate() {
    local library
    case " ${crates[*]-} " in *" $1 "*) return ;; esac
    for library in ${below[$1]}; do add_crate "$library"; done
    crates+=("$1")
}

# whether a program is there, and no source is newer
is_current() {
    [ -x "$1" ] || return 1
    [ ! -e "$top/crates.txt" ] || is_current_by_names "$1" || is_current_by_folders "$1"
}

is_current_by_names() {
    local place newer
    for place in "$top/crates" "$top"/crates/*; do if [[ $place -nt $names ]]; then return 1; fi; done
    newer=$(cd "$top" && find -files0-from "$names" -maxdepth 0 \( -cnewer "$names" -o -newer "$1" \) -print -quit 2>/dev/null) && [ -z "$newer" ]
}

is_current_by_folders() {
    local crate part places=(crates.txt)
    read_crates
    for crate in "${crates[@]}"; do
        for part in src specs proofs; do if [ -e "$top/crates/$crate/$part" ]; then places+=("crates/$crate/$part"); fi; done
    done
    [ -z "$(cd "$top" && find "${places[@]}" -newer "$1" -print -quit 2>/dev/null)" ] || return 1
    if find -files0-from /dev/null 2>/dev/null; then write_names "${places[@]}"; fi # (an older find takes no names)
}

# (they are as old as what was looked at; where they can't be written, the sources are found anew the next time)
write_names() {
    local new=$names.$$ began=$names.began.$$
    { : >"$began" && (cd "$top" && find "$@" -print0) >"$new" && touch -r "$began" "$new" && mv "$new" "$names"; } 2>/dev/null || true
    rm -f "$new" "$began" 2>/dev/null || true
}

drop_checked() { if [ -e "$checked" ]; then rm -f "$checked"; fi; }
