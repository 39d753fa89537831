# shellcheck shell=bash
# At a terminal `check` shows the word at fault where a command's FILE isn't read.

is_showing="" # whether a command runs for which it will be shown

# whether somebody looks on, and the netlist of a command with these words is in a file that can be read once more
shows_fault() {
    local file
    if [ -n "$is_showing" ] || [ ! -t 2 ]; then return 1; fi
    case ${1-} in waves | report | dump | show | why | path | waits | measure | steady | graph | verilog | play | desk) ;; *) return 1 ;; esac
    file=$(file_of "$@")
    [ "$file" != - ] && [ -f "$file" ]
}

# runs the program with these words, shows the line of FILE that isn't read, and ends as the program ended
run_showing() {
    local status=0
    is_showing=yes
    choose_program # (what makes one ends with this process, and not with one below it)
    (run "$@") || status=$?
    if [ "$status" = 1 ]; then show_fault "$(file_of "$@")" >&2; fi
    exit "$status"
}

# what `check` says of a text that isn't read, behind the line that was told already. It never checks one that is read: no run has 0 threads.
show_fault() {
    (run check --workers 0 -- "$1" 2>&1 >/dev/null || true) | awk 'NR == 1 && !/^mpwb: line / { exit } NR > 1'
}
