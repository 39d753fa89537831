# shellcheck shell=bash
# ./mpwb stress and ./mpwb races. The Python package answers them, and asks the program.

package=$top/python

start_races() { ask_package races "$@"; }

start_stress() { ask_package stress "$@"; }

need_python() {
    if python3 -c 'import sys; sys.exit(sys.version_info < (3, 9))' 2>/dev/null; then return; fi
    echo "mpwb: $1 needs Python 3.9 or later, as the command python3; the other commands don't" >&2
    exit 70
}

# runs the package on the proved program, or through the script on another one
ask_package() {
    local status=0
    need_python "$1"
    read_crates
    choose_program
    export PYTHONPATH="$package${PYTHONPATH:+:$PYTHONPATH}" PYTHONDONTWRITEBYTECODE=1
    if [ "$chosen" = "$program" ]; then
        set_up_built
        MPWB=$program exec python3 -m nesthrim.stress "$@"
    fi
    trap - TERM HUP
    trap : INT
    MPWB=$top/mpwb python3 -m nesthrim.stress "$@" || status=$?
    exit "$status"
}
