#!/usr/bin/env python3
"""Why a wire has its level, and where the time of that went, computed once more in Python. Netlists are as in `reference.py`; the modules'
names are `module_names`.

    bench/questions.py why WIRE TIME [STEPS] < NETLIST
    bench/questions.py path WIRE TIME [FROM] < NETLIST
"""
import sys
from collections import Counter

import reader
import reference


class Causes:
    """The causes of changes of a netlist. A change is the number of a wire and a time."""

    def __init__(self, netlist):
        self.netlist = netlist
        self.levels = reference.evaluated(netlist)[0]
        # of each wire that is driven: the module, its output and that one's delay
        self.ports = {
            wire: (number, port, delay)
            for number, found in enumerate(netlist.modules)
            if found
            for port, (wire, delay) in enumerate(found[3])
            if wire is not None
        }

    def last_change(self, wire, time):
        """The last change of a wire at or before a time, or None."""
        line = self.levels[wire]
        last = min(time, self.netlist.horizon - 1)
        return next(((wire, at) for at in range(last, 0, -1) if line[at] != line[at - 1]), None)

    def heard(self, wire, delay, time):
        """The level that an input hears at a time."""
        return self.levels[wire][time - delay] if time >= delay else self.netlist.wires[wire][2]

    def events(self, number, time):
        """What the inputs of a module hear at a time that they didn't hear before: each as a change and the input's delay."""
        inputs = self.netlist.modules[number][2]
        return [((wire, time - delay), delay) for wire, delay in inputs if self.heard(wire, delay, time) != self.heard(wire, delay, time - 1)]

    def cause(self, change):
        """The module that a change comes from, with its delay, and the events that it answers; None and none for a stimulus, none for a start."""
        wire, time = change
        if wire in self.netlist.stimuli:
            return None, []
        number, _, delay = self.ports[wire]
        return (number, delay), [] if time == delay else self.events(number, time - delay)

    def chain(self, wire, time):
        """Each change of a chain, the last first, with its cause."""
        change = self.last_change(wire, time)
        while change:
            driver, events = self.cause(change)
            yield change, driver, events
            change = events[0][0] if events else None

    def told(self, change):
        wire, time = change
        return f"{self.netlist.wires[wire][0]} {time}={self.levels[wire][time]}"

    def reason(self, driver, events):
        """What stands behind a change."""
        if driver is None:
            return "stim"
        number, delay = driver
        answered = " ".join(self.told(change) + (f"/{late}" if late else "") for change, late in events)
        return f"{self.netlist.module_names[number]} {self.netlist.modules[number][0]}/{delay} < {answered or 'start'}"


def why(netlist, wire, time, steps=20):
    """What `why` writes for a wire by number."""
    causes = Causes(netlist)
    lines = [f"{causes.told(change)} < {causes.reason(driver, events)}\n" for change, driver, events in causes.chain(wire, time)]
    return "".join(lines[:steps]) or f"{netlist.wires[wire][0]} 0={netlist.wires[wire][2]} declared\n"


def path(netlist, wire, time, since=0):
    """What `path` writes for a wire by number, above a time."""
    since = min(since, netlist.horizon - 1)
    units, steps = Counter(), Counter()
    begin = since
    for (_, at), driver, events in Causes(netlist).chain(wire, time):
        before = events[0][0][1] if events else 0
        begin = before if driver else at
        if driver and at > since:
            units[driver[0]] += at - max(before, since)
            steps[driver[0]] += 1
    order = sorted(steps, key=lambda number: (-units[number], number))
    lines = [f"{netlist.module_names[number]} {units[number]} {steps[number]}\n" for number in order]
    return "".join(lines + [f"- {since} {since - begin}\n"] * (begin < since))


def main():
    question, wire, *numbers = sys.argv[1:]
    netlist = reader.netlist(sys.stdin.read())
    sys.stdout.write({"why": why, "path": path}[question](netlist, netlist.wire(wire), *map(int, numbers)))


if __name__ == "__main__":
    main()
