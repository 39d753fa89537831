"""The proved program of a script `./mpwb`, and what it runs in.

The script looks at each call whether a source is newer than the program. The package looks once a second at most, and calls the program itself, in what
the script sets up for it: a bound on memory, and memory in large pages.
"""

from __future__ import annotations

import os
import re
import resource
import time
from typing import Dict, Iterator, List, Mapping, Optional, Sequence, Set, Tuple

# the commands that the script passes on to the program as they are, where nobody is at a terminal
_COMMANDS = frozenset(["waves", "report", "check", "dump", "show", "why", "path", "waits", "measure", "graph", "verilog", "play", "explain"])

# for how many seconds what was found of a script holds
_SECONDS = 1.0

_LEAST_MEMORY = 8
_MEMORY = re.compile(r"[1-9][0-9]{0,11}", re.ASCII)
_TOTAL = re.compile(r"^MemTotal: *([0-9]+) kB$", re.MULTILINE)
_TUNABLES = "glibc.malloc.hugetlb=1"

# of each script when it was looked at, and its program if that is current
_found: Dict[str, Tuple[float, Optional[str]]] = {}


def command_line(script: str, words: Sequence[str], environment: Mapping[str, str]) -> Optional[Tuple[List[str], Dict[str, str]]]:
    """A command line that has the proved program of a script answer, and its environment. `None` where the script itself has to answer."""
    if not words or words[0] not in _COMMANDS:
        return None
    program = _current(script)
    bound = _bound(environment.get("MPWB_MEMORY", ""))
    if program is None or bound is None:
        return None
    limits = ["/bin/sh", "-c", 'ulimit -v "$0" && exec "$@"', str(bound)] if _is_lower(bound) else []
    return [*limits, program, *words], {"GLIBC_TUNABLES": _TUNABLES, **environment}


def _current(script: str) -> Optional[str]:
    """The proved program of a script, if no source is newer."""
    now = time.monotonic()
    looked, program = _found.get(script, (now - _SECONDS, None))
    if now - looked >= _SECONDS:
        program = _look(os.path.dirname(os.path.realpath(script)))
        _found[script] = time.monotonic(), program
    return program


def _look(top: str) -> Optional[str]:
    is_checkout = os.path.exists(os.path.join(top, "crates.txt"))
    program = os.path.join(top, "crates", "mpwb", "out", "mpwb") if is_checkout else os.path.join(top, "bin", "mpwb")
    if not (os.path.isdir(os.path.join(top, "launcher")) and os.path.isfile(program) and os.access(program, os.X_OK)):
        return None
    try:
        built = os.stat(program).st_mtime_ns
        return None if is_checkout and any(time > built for time in _times(top)) else program
    except OSError:
        return None


def _times(top: str) -> Iterator[int]:
    """When each source of the program was written, and each folder of sources."""
    yield os.stat(os.path.join(top, "crates.txt")).st_mtime_ns
    for crate in _crates(top):
        for sort in ("src", "specs", "proofs"):
            path = os.path.join(top, "crates", crate, sort)
            if os.path.isdir(path):
                yield os.stat(path).st_mtime_ns
                yield from _times_below(path)


def _times_below(folder: str) -> Iterator[int]:
    with os.scandir(folder) as entries:
        for entry in entries:
            yield entry.stat(follow_symlinks=False).st_mtime_ns
            if entry.is_dir(follow_symlinks=False):
                yield from _times_below(entry.path)


def _crates(top: str) -> Set[str]:
    """The crates that the program needs."""
    below: Dict[str, List[str]] = {}
    with open(os.path.join(top, "crates.txt"), encoding="utf-8") as file:
        for line in file:
            name, _, libraries = line.partition("#")[0].partition(":")
            below[name.strip()] = libraries.split()
    found: Set[str] = set()
    left = ["mpwb"]
    while left:
        name = left.pop()
        if name not in found:
            found.add(name)
            left += below.get(name, [])
    return found


def _bound(memory: str) -> Optional[int]:
    """How many KiB the program may take: as many MiB as `memory` says, or else nine tenths of the machine's memory. `None` if that isn't known."""
    if memory:
        is_number = _MEMORY.fullmatch(memory) and int(memory) >= _LEAST_MEMORY
        return int(memory) * 1024 if is_number else None
    try:
        with open("/proc/meminfo", encoding="ascii") as file:
            found = _TOTAL.search(file.read())
    except OSError:
        return None
    return int(found[1]) * 9 // 10 if found else None


def _is_lower(bound: int) -> bool:
    """Whether a bound is lower than the one that holds."""
    now = resource.getrlimit(resource.RLIMIT_AS)[0]
    return now == resource.RLIM_INFINITY or now // 1024 > bound
