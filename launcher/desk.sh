# shellcheck shell=bash
# ./mpwb desk FILE --at FOLDER. Each seat has named pipes: lines go to the desk by one, and answers come by another. The script stands between the
# terminal and the program: it holds the lock of FOLDER with it, and an interrupt is the end of the program's input. FILE may be /dev/fd/3, so what is
# opened here gets a number that nobody has.

# --- the files of FOLDER

share_mask=027 # the users of FOLDER's group may come with --share
own_mask=077

# the mode of a folder, of pipes or of files, whatever the umask
mode_of() {
    case $1$shared in
    folder) echo 700 ;; pipes | files) echo 600 ;;
    folderyes) echo 770 ;; pipesyes) echo 660 ;; filesyes) echo 640 ;;
    esac
}

# names what each seat needs, for so many designers or viewers; the program tells of a number that is out of its range
name_seats() {
    local kind=$1 count=$2 most=$3 number name
    if [[ ! $count =~ ^[0-9]{1,2}$ ]] || [ "$count" -gt "$most" ]; then return; fi
    for ((number = 1; number <= count; number++)); do
        name=$kind-$number
        pipes+=("$desk_at/$name.in" "$desk_at/$name.out")
        spares+=("$desk_at/.desk/$name.spare")
        files+=("$desk_at/$name.lock")
    done
}

make_empty() { if [ ! -e "$1" ]; then (umask "$own_mask" && : >>"$1") 2>/dev/null || true; fi; }

# Makes the files of a live desk in a folder, where they aren't there. Where this fails, the program tells what it can't open. Those who come to a seat
# read from two pipes by turns: the second one is made anew, since a desk that was killed may have left it in the place of the first.
make_files() {
    local designers viewers path pipes=() spares=() files=("$desk_at/edits") missing=()
    designers=$(value_of --designers "$@")
    viewers=$(value_of --viewers "$@")
    name_seats designer "${designers:-2}" 8
    name_seats viewer "${viewers:-2}" 24
    for path in "${pipes[@]}"; do if [ ! -e "$path" ]; then missing+=("$path"); fi; done
    {
        mkdir -p -m 700 "$desk_at/.desk"
        rm -f "${spares[@]}"
        mkfifo -m "$(mode_of pipes)" "${missing[@]}" "${spares[@]}"
    } 2>/dev/null || true
    for path in "${files[@]}"; do make_empty "$path"; done
    set_modes
}

# (they may be those of an earlier desk)
set_modes() {
    local path
    for path in "$desk_at"/netlist.net{,.new}; do if [ -e "$path" ]; then files+=("$path"); fi; done
    {
        chmod 700 "$desk_at/.desk"
        chmod "$(mode_of pipes)" "${pipes[@]}"
        chmod "$(mode_of files)" "${files[@]}"
    } 2>/dev/null || true
}

fail_desk() {
    echo "mpwb: $1" >&2
    exit 3
}

# refuses what stands in the place of a file of the desk and is something else, such as a link to a file elsewhere
check_places() {
    local path
    for path in "$desk_at"/{edits,netlist.net,netlist.net.new,{designer,viewer}-*.lock}; do
        if [ -L "$path" ] || { [ -e "$path" ] && [ ! -f "$path" ]; }; then fail_desk "$path has to be a file, and no link to one"; fi
    done
    for path in "$desk_at"/{designer,viewer}-*.{in,out}; do
        if [ -L "$path" ]; then fail_desk "$path has to be a named pipe, and no link to one"; fi
    done
    path=$desk_at/.desk
    if [ -L "$path" ] || { [ -e "$path" ] && [ ! -d "$path" ]; }; then fail_desk "$path has to be a folder, and no link to one"; fi
}

# makes FOLDER; one that is there already keeps its mode, and has to let the group in where that may come
make_folder() {
    mkdir -p -m "$(mode_of folder)" "$desk_at" 2>/dev/null || true
    if [ -n "$shared" ] && [ -d "$desk_at" ] && ((8#$(stat -L -c %a "$desk_at") & 8#050 ^ 8#050)); then
        fail_desk "the group of $desk_at can't come in: run chmod g+rx $desk_at first"
    fi
}

# holds the lock of the folder, which the program holds too: so it is held as long as the program runs
lock_folder() {
    if flock -w "$seconds_for_a_lock" "$lock"; then return; fi
    fail_desk "there is a desk at $desk_at"
}

seconds_for_a_lock=0.5 # whoever looks for a desk has the lock for a moment

# --- the journal

# whether the journal has a whole line
has_edits() { [ "$(head -n 1 "$desk_at/edits" 2>/dev/null | wc -l)" = 1 ]; }

# Refuses a journal of another netlist. Beside one that has no line yet stands the sum of FILE's bytes, with which it is compared later. (Where FILE
# can't be read, the program tells that.)
check_sum() {
    local sum kept=$desk_at/.desk/sum
    if [ ! -f "$1" ] || ! sum=$(cksum 2>/dev/null <"$1"); then return; fi
    if ! has_edits; then
        (umask "$own_mask" && rm -f "$kept" && echo "$sum" >"$kept.new" && mv "$kept.new" "$kept") 2>/dev/null || true
    elif [ -s "$kept" ] && [ "$(cat "$kept")" != "$sum" ]; then
        fail_desk "the edits of $desk_at/edits were made on another netlist than $2: name that one, or another folder; to make them on $2 all the same, remove $kept"
    fi
}

# Cuts off what stands behind the last whole line of the edits, and says what that may have been.
cut_edits() {
    local edits=$desk_at/edits what
    if [ ! -s "$edits" ] || [ "$(tail -c 1 "$edits" | wc -l)" = 1 ]; then return; fi
    if [ "$(tail -c 1 "$edits" | tr -d '\0' | wc -c)" = 0 ]; then
        what="$edits ends in NUL bytes, as after a power cut, and is cut off behind its last whole line: accepted edits may be lost"
    else
        what="the last line of $edits has no line feed and is cut off: nobody was told that it was accepted"
    fi
    if truncate -s "-$(tail -n 1 "$edits" | wc -c)" "$edits" 2>/dev/null; then echo "mpwb: $what" >&2; fi
}

# the program in the place of this process, which no interrupt of a terminal reaches
become_program() {
    trap '' INT TERM HUP QUIT
    exec {given}<&- {lines}<&-
    umask "$([ -n "$shared" ] && echo "$share_mask" || echo "$own_mask")"
    if [ "$chosen" = "$program" ]; then set_up_built; else set_up_checked; fi
    exec "${leash[@]}" "$chosen" "$@"
}

status_of_kill=137

desk=""   # the process of the program
feeder="" # the one that gives it the lines of standard input
ended=""  # whether its input was ended by an interrupt
woken=""  # whether an interrupt has come since the script began to wait

# (a terminal that is closed may say so more than once)
end_input() {
    woken=yes
    if [ -n "$desk" ] && ! is_folder_there; then
        echo "mpwb: $desk_at is gone, so the desk ends at once" >&2 2>/dev/null || true
        end_at_once 3
    fi
    if [ -z "$ended" ]; then
        ended=yes
        echo "mpwb: the desk ends when everybody has left; another interrupt ends it at once" >&2 2>/dev/null || true
        stop_feeding
    fi
}

# whether the folder is where it was: without it the program can't open the pipes at which it waits for somebody, and would wait for ever
is_folder_there() { [ "$desk_at" -ef "/dev/fd/$lock" ] && [ -d "$desk_at/.desk" ]; }

stop_feeding() { if [ -n "$feeder" ]; then kill -KILL "$feeder" 2>/dev/null || true; fi; }

# ends the script with a status, and the program without what that writes at its end
end_at_once() {
    stop_feeding
    kill -KILL "$desk" 2>/dev/null || true
    wait "$desk" 2>/dev/null || true
    exit "$1"
}

interrupt() {
    if [ -z "$ended" ] || [ -z "$desk" ]; then
        end_input
    else
        if [ -t 2 ]; then echo >&2; fi
        end_at_once 130
    fi
}

# runs the desk up to its end, with the lines of standard input
serve_desk() {
    local status given lines journal
    journal=$(journal_there)
    find_leash
    trap end_input HUP
    trap interrupt INT TERM
    { exec {given}<&0; } 2>/dev/null || exec {given}</dev/null
    # (an interrupt of the terminal reaches the script alone, so that it has told of the end before the program comes to it)
    exec {lines}< <(trap '' INT && exec "${leash[@]}" cat <&"$given" {lock}<&-)
    feeder=$!
    if [ -n "$ended" ]; then stop_feeding; fi
    become_program "$@" <&"$lines" &
    desk=$!
    exec {given}<&- {lines}<&-
    while :; do
        woken="" status=0
        wait "$desk" 2>/dev/null || status=$?
        if [ -z "$woken" ]; then break; fi
    done
    stop_feeding
    if [ "$chosen" != "$program" ]; then tell_failed_check "$status"; fi
    if [ "$status" = "$status_of_kill" ]; then tell_kill; fi
    exit "$status"
}

# which file the journal is, nothing where there is none
journal_there() { stat -c %d:%i "$desk_at/edits" 2>/dev/null || true; }

# Tells that the program was killed. It accepts no edit that isn't in the file that it has opened, so the edits are kept where that is still there.
tell_kill() {
    if [ -n "$journal" ] && [ "$(journal_there)" = "$journal" ]; then
        echo "mpwb: the desk was killed; its accepted edits are kept in $desk_at" >&2
    else
        echo "mpwb: the desk was killed, and $desk_at/edits is gone or isn't the file that it wrote" >&2
    fi
}

# tells whoever begins a desk at a terminal how others come to it, and how it ends
tell_seats() {
    if [ ! -t 0 ] || [ ! -t 2 ]; then return; fi
    echo "mpwb: to take a seat, run ./mpwb join $desk_at designer-1" >&2
    echo "mpwb: type seats to list the seats; Ctrl-C ends the desk" >&2
}

# FILE that is a pipe can be read once, so a copy of it stands in its place in the words
read_once() {
    local at
    begin_work
    copy=$room/given
    cat <"$file" >"$copy" 2>/dev/null || fail_desk "read failed"
    for ((at = 1; at < ${#words[@]}; at++)); do if [ "${words[at]}" = "$file" ]; then words[at]=$copy; fi; done
}

# a live desk at a folder
start_desk() {
    local desk_at lock file copy="" words=("$@")
    desk_at=$(value_of --at "$@")
    case $desk_at in -*) desk_at=./$desk_at ;; esac
    make_folder
    if ! { exec {lock}<"$desk_at"; } 2>/dev/null; then run "$@"; fi
    lock_folder
    check_places
    make_files "$@"
    file=$(file_of "$@")
    if [ "$file" = - ]; then file=""; fi # (which is no file of that name)
    if [ -r "$file" ] && [ ! -f "$file" ] && [ ! -d "$file" ]; then read_once; fi
    check_sum "${copy:-$file}" "$file"
    choose_program
    if [ "$chosen" = rt ]; then run_by_rt "$@"; fi
    tell_seats
    cut_edits
    serve_desk "${words[@]}"
}

# --- ./mpwb desk

shared="" # whether the users of FOLDER's group may come: the word --share is the script's, and the program doesn't know it

start_any_desk() {
    local word words=() options=yes
    for word in "$@"; do
        if [ -n "$options" ] && [ "$word" = --share ]; then shared=yes; else words+=("$word"); fi
        if [ "$word" = -- ]; then options=""; fi
    done
    if is_given --help "${words[@]}" || is_given -h "${words[@]}"; then
        tell_desk "${words[@]}"
    elif [ -n "$(value_of --at "${words[@]}")" ]; then
        start_desk "${words[@]}"
    else
        if [ -n "$shared" ]; then refuse "--share goes with --at FOLDER"; fi
        run "${words[@]}"
    fi
}

# what the program says of desk, and of the word of the script
tell_desk() {
    choose_program
    (run "$@") | awk '
        /^  -h, --help/ && /more with/ { print "      --share          Let the users of the folder\x27s group come too, with --at" }
        /^  -h, --help/ && !/more with/ { print "      --share\n          Let the users of the folder\x27s group come too, with --at (script ./mpwb)\n" }
        { print }'
}
