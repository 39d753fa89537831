"""What the program writes of how far a run is."""
import os
import re
import subprocess
import tempfile

from netlists import control_pipeline, data_pipeline, oscillators, rings
from seat_checks import SECONDS, expect

LINE = re.compile(r"(\d+) of (\d+) units, (\d+) changes\n")
# partitions that hear of each other and ones that don't, with and without data and stimuli
NETLISTS = {
    "rings": rings(8, 5, 1, 1_000),
    "oscillators and a stimulus": oscillators(64, 4_096, 2) + "wire s 1 0\nstim s 5=1 9=0 4000=1\n",
    "a control pipeline": control_pipeline(64, 2_000),
    "a data pipeline": data_pipeline(24, 3_000),
    "few units": "horizon 20\nwire a 1 0\nwire b 1 0\nmodule m BUF : a > b/1\nstim a 3=1 7=0 19=1\n",
    "one unit": "horizon 1\nwire a 1 0\n",
}


def written_by(program, netlist, *options):
    """The waves of a netlist, and what is written on the way: times, horizons and counts of changes."""
    with tempfile.NamedTemporaryFile("r", encoding="ascii") as file:
        env = {**os.environ, "MPWB_PROGRESS": file.name}
        run = subprocess.run([program, "waves", *options], input=netlist, env=env, capture_output=True, text=True, timeout=SECONDS, check=True)
        lines = file.readlines()
    expect("the form of lines", [], [line for line in lines if not LINE.fullmatch(line)])
    return run.stdout, [tuple(map(int, LINE.fullmatch(line).groups())) for line in lines]


def check_lines(program, name, netlist):
    """On one thread each line has the changes up to its time. On several threads each line has no more than there are, and the last one has all."""
    waves, lines = written_by(program, netlist, "--workers", "1")
    changes = [int(time) for time in re.findall(r" (\d+)=\d+", waves)]
    horizon = int(re.search(r"^horizon (\d+)", netlist, re.M).group(1))
    stretch = horizon // 64 + 1
    ends = [min(time, horizon) for time in range(1 + stretch, horizon + stretch, stretch)]
    expect(f"{name} on one thread", [(end, horizon, sum(time < end for time in changes)) for end in ends], lines)
    for workers in ("2", "4"):
        answer, shared = written_by(program, netlist, "--workers", workers, "--least", "1")
        expect(f"the waves of {name} on {workers} threads", waves, answer)
        expect(f"the end of {name} on {workers} threads", lines[-1:], sorted(shared)[-1:])
        expect(f"the changes of {name} on {workers} threads", True, all(count <= len(changes) for _, _, count in shared))
        expect(f"whether {workers} threads write of {name}", horizon > 64, len(shared) > 64)


def check_all(program):
    for name, netlist in NETLISTS.items():
        check_lines(program, name, netlist)


def slow_netlist(readers=4_000, horizon=262_144):
    """A netlist that takes some seconds and little memory: C-elements that look at each change of one wire, and wait for another that never comes."""
    lines = ["format 2", f"horizon {horizon}", "wire c 1 0", "wire rest 1 0", "module o NOT : c > c/1"]
    for reader in range(readers):
        lines += [f"wire q{reader} 1 0", f"module m{reader} C 0 0 0 : c rest > q{reader}/1"]
    return "\n".join(lines) + "\n"
