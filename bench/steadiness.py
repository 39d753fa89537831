#!/usr/bin/env python3
"""Whether a netlist repeats for ever, computed once more in Python, from its levels and states at each time. Netlists are as in `reference.py`; the
modules' names are `module_names`.

    bench/steadiness.py < NETLIST
"""
import sys
from collections import Counter

import questions
import reader
import reference


class WireSet:
    """Wires of a netlist by number, and when they repeat."""

    def __init__(self, run, wires):
        self.run, self.wires = run, sorted(wires)
        ports = [run.ports[wire] for wire in self.wires if wire in run.ports]
        self.delay = max((delay for _, _, delay in ports), default=0)
        self.input_delay = max((late for wire in self.wires for _, late in run.inputs(wire)), default=0)
        self.last_set = max((run.last_event(wire) for wire in self.wires if wire in run.netlist.stimuli), default=0)
        self.last_change = max((run.last_event(wire) for wire in self.wires), default=0)
        self.is_over = self.last_change + self.delay + self.input_delay <= run.end
        self.told = max(run.end - self.delay, 0)
        self.heard = max(self.told - self.input_delay, 0)
        self.longest = max(self.heard - self.last_set, 0)
        self.modules = {ports[0] for ports in (run.ports[wire] for wire in self.wires if wire in run.ports) if not run.passes_on(*ports[:2])}

    def repeats(self, units):
        """Whether the wires repeat after so many units: their levels from the first time that is still heard on, and the states of their modules."""
        times = range(self.heard - units, self.run.end - units + 1)
        levels, states = self.run.levels, self.run.states
        return all(levels[wire][time] == levels[wire][time + units] for wire in self.wires for time in times) and all(
            states[module][self.told - units] == states[module][self.told] for module in self.modules
        )

    def period(self):
        return next((units for units in range(1, self.longest + 1) if self.repeats(units)), None)

    def start(self, units):
        """The first time from which on all levels are those of so many units later."""
        times = range(self.run.end - units, -1, -1)
        unlike = (time for time in times if any(self.run.levels[wire][time] != self.run.levels[wire][time + units] for wire in self.wires))
        return next(unlike, -1) + 1

    def events(self, wire, units):
        line = self.run.levels[wire]
        return sum(line[time] != line[time - 1] for time in range(self.run.end - units + 1, self.run.end + 1))


class Run:
    """A netlist that ran."""

    def __init__(self, netlist):
        self.netlist, self.end = netlist, netlist.horizon - 1
        self.causes = questions.Causes(netlist)
        self.levels, self.states, _ = reference.evaluated(netlist)
        self.ports = self.causes.ports
        self.all = [number for number, wire in enumerate(netlist.wires) if wire]

    def passes_on(self, number, port):
        """Whether an output passes one input on."""
        return self.netlist.modules[number][0] == "REG" and port > 0

    def inputs(self, wire):
        """The inputs on which a wire depends, each as a wire and a delay."""
        if wire not in self.ports:
            return []
        number, port, _ = self.ports[wire]
        inputs = self.netlist.modules[number][2]
        return [inputs[port]] if self.passes_on(number, port) else inputs

    def last_event(self, wire):
        line = self.levels[wire]
        return max((time for time in range(1, len(line)) if line[time] != line[time - 1]), default=0)

    def control(self):
        """The wires of width 1, and all on which they depend."""
        found = {wire for wire in self.all if self.netlist.wires[wire][1] == 1}
        while True:
            more = {read for wire in found for read, _ in self.inputs(wire)} - found
            if not more:
                return found
            found |= more

    def cycle(self, wires, units):
        """The changes of the critical cycle, each with the units of its step and its module."""
        with_events = [wire for wire in wires.wires if wires.events(wire, units)]
        wire = next((wire for wire in with_events if self.netlist.wires[wire][1] == 1), with_events[0])
        change, way = (wire, self.last_event(wire)), []
        while change not in [place for place, _, _ in way]:
            (module, _), events = self.causes.cause(change)
            (read, time), _ = events[0]
            way.append((change, change[1] - time, module))
            change = read, time + (self.end - time) // units * units
        return way[[place for place, _, _ in way].index(change) :]

    def repeating(self, word, wires, units):
        """What is written of wires that repeat."""
        name = lambda wire: self.netlist.wires[wire][0]
        lines = [f"{word}repeats from {wires.start(units)} every {units}"]
        lines += [f"wire {name(wire)} {wires.events(wire, units)}" for wire in wires.wires if wires.events(wire, units)]
        cycle = self.cycle(wires, units)
        (first, time), _, _ = cycle[0]
        lines.append(f"cycle {sum(units for _, units, _ in cycle)} from {name(first)} {time}")
        took, steps = Counter(), Counter(module for _, _, module in cycle)
        for _, step, module in cycle:
            took[module] += step
        order = sorted(took, key=lambda module: (-took[module], module))
        return lines + [f"module {self.netlist.module_names[module]} {took[module]} {steps[module]}" for module in order]

    def answer(self):
        """The lines that `mpwb steady` writes."""
        wires = WireSet(self, self.all)
        if wires.is_over:
            return [f"nothing changes after {wires.last_change}"]
        units = wires.period()
        if units:
            return self.repeating("", wires, units)
        if self.control():
            wires = WireSet(self, self.control())
            if wires.is_over:
                return [f"control stands still after {wires.last_change}"]
            units = wires.period()
            if units:
                return self.repeating("control ", wires, units)
        stimuli = f"stimuli until {wires.last_set}, " if wires.last_set else ""
        return [f"doesn't repeat before {self.netlist.horizon}: {stimuli}no period of up to {wires.longest}"]


def steady(netlist):
    """What `mpwb steady` writes."""
    return "".join(f"{line}\n" for line in Run(netlist).answer())


if __name__ == "__main__":
    sys.stdout.write(steady(reader.netlist(sys.stdin.read())))
