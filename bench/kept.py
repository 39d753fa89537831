"""What a desk has kept that was killed while designers edited: each edit that somebody was told is accepted, and the desk that is begun again."""
import contextlib
import os
import signal
import threading

from desk_script import BEGUN, KILLED, NETLIST, ScriptDesk, read, run
from live import Left, Seat, Unanswered, at_once
from seat_checks import SECONDS, Wrong, expect, same_edit


def line_of(seat, number):
    """An edit of a designer: some are refused."""
    return [f"delay c{seat} 0 {number % 9}", f"wire n{seat}.{number} 1 0", f"batch delay c1 0 {number + 1} ; delay c2 0 {seat}"][number % 3]


class Killer:
    """Kills a process once so many lines of two designers were answered."""

    def __init__(self, process, count):
        self.process = process
        self.left = count
        self.all_there = threading.Barrier(2)
        self.lock = threading.Lock()

    def count(self):
        with self.lock:
            self.left -= 1
            if self.left == 0:
                os.kill(self.process, signal.SIGKILL)


def edit(at, number, count, killer):
    """What a designer was told of so many edits, up to the end of the desk: the accepted ones with their numbers, and the line that wasn't answered.
    The first edit is made when all designers are there."""
    accepted, line = {}, None
    with Seat(at, f"designer-{number}", SECONDS) as seat:
        seat.ask("version")
        killer.all_there.wait(SECONDS)
        with contextlib.suppress(Left, Unanswered, BrokenPipeError):
            for k in range(count):
                line = line_of(number, k)
                reply = seat.ask(line)[0].split()
                if reply[0] == "accepted":
                    accepted[int(reply[1])] = line
                line = None
                killer.count()
    return accepted, line


def killed(at, count, answered):
    """A desk that is killed once so many of the edits of two designers were answered. Returns how many edits it has kept."""
    told = {}
    with ScriptDesk(at) as desk:
        killer = Killer(desk.program(), answered)

        def sit(number):
            told[number] = edit(at, number, count, killer)

        at_once([lambda number=number: sit(number) for number in (1, 2)])
        expect("a desk that was killed", (KILLED.format(at), 137), desk.terminal.end())
    kept = read(f"{at}/edits").splitlines(keepends=True)
    check_kept(kept, told)
    return len(kept)


def check_kept(kept, told):
    """Whether the edits that designers were told of stand in their places, and all others are lines that weren't answered."""
    lost = [line for _, line in told.values() if line]
    accepted = [pair for made, _ in told.values() for pair in made.items()]
    places = dict(accepted)
    expect("places that two designers were told", len(accepted), len(places))
    for place, line in places.items():
        if place > len(kept) or not kept[place - 1].endswith("\n") or not same_edit(line, kept[place - 1]):
            raise Wrong(f"{line} was accepted as {place}, and kept are {kept[place - 1 : place]}")
    for place in set(range(1, len(kept) + 1)) - set(places):
        made = [line for line in lost if same_edit(line, kept[place - 1])]
        if not made:
            raise Wrong(f"nobody made edit {place}, {kept[place - 1]}")
        lost.remove(made[0])


def begun_again(at, edits, netlist=NETLIST):
    """A desk that is begun again answers from the edits that were kept, and goes on behind them."""
    kept = read(f"{at}/edits")
    with ScriptDesk(at, netlist, begun=BEGUN.format(edits, at) if edits else "") as desk:
        expect("the version", (0, f"version {edits}\n", ""), run("ask", at, "viewer-1", "version"))
        played = run("play", netlist, given=f"{kept}waves\n")[1].splitlines(keepends=True)
        expect("the edits in play", [f"accepted {k + 1}\n" for k in range(edits)], played[:edits])
        expect("the waves", (0, "".join(played[edits:]), ""), run("ask", at, "viewer-1", "waves"))
        expect("the next edit", (0, f"accepted {edits + 1}\n", ""), run("ask", at, "designer-1", "delay c1 0 7"))
        told = "".join(f"{k + 1} {line}" for k, line in enumerate(kept.splitlines(keepends=True)))
        expect("who made them", (0, f"{told}{edits + 1} delay c1 0 7 # designer-1\n", ""), run("ask", at, "viewer-1", "edits 1"))
        desk.terminal.end_input()
        expect("the end", 0, desk.terminal.end()[1])
    lines = read(f"{at}/edits").splitlines(keepends=True)
    expect("the edits behind", (kept, ["delay", "c1", "0", "7"]), ("".join(lines[:edits]), lines[edits].split("#")[0].split()))
