"""What a page has to hold and to answer: the program's own texts, and the causes that `why` tells. Both are taken from a netlist's file."""
import glob
import os
import re
import shutil
import subprocess

TOP = os.path.dirname(os.path.dirname(os.path.abspath(__file__)))
PROGRAM = f"{TOP}/crates/mpwb/out/mpwb"
SECONDS = 120
MOST_STEPS = 1_048_576
STEPS = 2  # of a chain that begins at any change
MOST_BYTES = 8_000  # longer texts of netlists and of waves are passed over
MOST_UNITS = 100_000  # and so are longer horizons


def installed(folder, program=PROGRAM):
    """A copy of the script as it is installed, over the compiled program: it never has another one made."""
    os.makedirs(f"{folder}/bin")
    shutil.copy(f"{TOP}/mpwb", folder)
    for part in ("launcher", "viewer"):
        shutil.copytree(f"{TOP}/{part}", f"{folder}/{part}")
    os.symlink(program, f"{folder}/bin/mpwb")
    return f"{folder}/mpwb"


def run(words, given=""):
    return subprocess.run(words, input=given, capture_output=True, text=True, timeout=SECONDS, check=False)


def written(words, given=""):
    """What a run writes, which has to end well; `check` may find something."""
    found = run(words, given)
    if found.returncode not in (0, 5):
        raise AssertionError(f"{words}: {found.stderr}")
    return found.stdout


def netlists(folder):
    """The files of the examples' netlists and of the short ones of rows that are read, each with its name and each text once."""
    known = set()
    for pattern in ("examples/*.net", "examples/*.play", "examples/*.desk", "rows/*/*.in"):
        for file in sorted(glob.glob(pattern, root_dir=TOP)):
            if os.path.getsize(f"{TOP}/{file}") > MOST_BYTES:
                continue
            with open(f"{TOP}/{file}", "rb") as text:
                netlist = front(text.read())
            name = os.path.splitext(file)[0]
            path = f"{folder}/{os.path.basename(name)}.net"
            with open(path, "wb") as out:
                out.write(netlist)
            if netlist not in known and is_short(path, netlist):
                known.add(netlist)
                yield name, path


def front(text):
    """The netlist in front of a script."""
    return re.split(rb"(?m)^\s*---\s*$", text)[0]


def is_short(path, netlist):
    """Whether a netlist is read, and has few units and changes."""
    horizon = re.search(rb"(?m)^\s*horizon\s+(\d+)", netlist)
    if not horizon or int(horizon[1]) > MOST_UNITS:
        return False
    found = subprocess.run([PROGRAM, "waves", path], capture_output=True, check=False)
    return found.returncode == 0 and len(found.stdout) <= MOST_BYTES


def texts_of(page):
    """The three texts in a page, as they stand there."""
    return re.findall(r'<script type="text/plain" id="\w+-text" title="\w+">(.*?)</script>', page, re.S)


def texts_wanted(path):
    return [written([PROGRAM, "play", path], "text\n"), written([PROGRAM, "waves", path]), written([PROGRAM, "check", path]), written([PROGRAM, "steady", path])]


def waves(text):
    """Of each wire by name its level at time 0, and its changes as pairs of a time and a level, all as texts and numbers of `waves`."""
    found = {}
    for line in text.splitlines():
        name, begin, *changes = line.split(" ")
        found[name] = (begin, [(int(time), level) for time, _, level in (change.partition("=") for change in changes)])
    return found


def level(wave, time):
    begin, changes = wave
    return next((level for at, level in reversed(changes) if at <= time), begin)


def questions(text):
    """The wires, times and steps to ask `why` for: a few steps at each change and at the unit before it, and all at time 0 and at the end."""
    for name, (_, changes) in waves(text).items():
        times = {time - before for time, _ in changes for before in (0, 1)}
        yield from ((name, time, STEPS) for time in sorted(times))
        yield from ((name, time, MOST_STEPS) for time in (0, MOST_STEPS))


def reasons(path, asked):
    """What `why` answers each question, as lists of lines."""
    script = "".join(f"why {name} {time} {steps}\nversion\n" for name, time, steps in asked)
    return [part.splitlines() for part in written([PROGRAM, "play", path], script).split("version 0\n")[:-1]]
