"""Whether a netlist works, computed once more in Python: late data by all that leads to a change, deadlocks by the greatest set of dead ports, and
notes. Netlists are as in `reference.py`; the modules' names are `module_names`."""
import formats
import reference
from questions import Causes

# the kinds whose outputs depend on what their inputs did before
WITH_MEMORY = {"C", "TOGGLE", "SELECT", "CALL", "ARBITER", "REG"}


def events(line):
    """The times of the events of a level."""
    return [time for time in range(1, len(line)) if line[time] != line[time - 1]]


class Check:
    """A netlist with its levels."""

    def __init__(self, netlist):
        self.netlist = netlist
        self.levels, self.states, self.at_modules = reference.evaluated(netlist)
        self.causes = Causes(netlist)
        self.ports = self.causes.ports
        self.end = netlist.horizon - 1

    # ---- late data

    def sources(self, change):
        """The changes that a change comes from."""
        wire, time = change
        if wire not in self.ports or wire in self.netlist.stimuli:
            return []
        number, _, delay = self.ports[wire]
        if time == delay:
            return []
        kind, _, inputs, _ = self.netlist.modules[number]
        if kind not in WITH_MEMORY:
            return [found for found, _ in self.causes.events(number, time - delay)]
        last = [(read, time - delay - late) for read, late in inputs]
        return [found for found in (self.causes.last_change(read, upto) for read, upto in last if upto >= 1) if found]

    def leads(self, change):
        """All changes that lead to a change."""
        found, left = {change}, [change]
        while left:
            for source in self.sources(left.pop()):
                if source not in found:
                    found.add(source)
                    left.append(source)
        return found

    def late(self):
        """The time, the number of the bundle and the units of each change of data that is late."""
        for number, bundle in enumerate(self.netlist.bundles):
            if not bundle:
                continue
            _, request, _, data, _ = bundle
            for time in events(self.levels[data]):
                before = [event for event in events(self.levels[request]) if event < time]
                if before and not any(self.excuses(change, request, before[-1]) for change in self.leads((data, time))):
                    yield time, number, time - before[-1]

    def excuses(self, change, request, asked):
        wire, time = change
        return (wire, time) == (request, asked) or (wire in self.netlist.stimuli and time > asked)

    # ---- dead ports

    def heard(self, wire, late):
        """What an input hears at each time."""
        line = self.levels[wire]
        return [line[time - late] if time >= late else self.netlist.wires[wire][2] for time in range(len(line))]

    def holding_sets(self, number, port):
        """The sets of inputs of which each holds an output."""
        kind, params, _, _ = self.netlist.modules[number]
        levels, outputs, served, waits = self.states[number][self.end]
        if kind == "MUX":
            return [[levels[2], 2]]
        if kind in ("XOR", "SUM", "AND", "OR", "SUB", "LESS", "JOIN"):
            return [[0, 1]]
        if kind == "C":
            return [[place] for place in (0, 1) if levels[place] ^ params[1 + place] == outputs[0]]
        if kind == "CALL":
            return self.call_sets(port, served)
        if kind == "ARBITER":
            return ([[2 + served]] if served is not None else []) + ([[port]] if waits != port else [])
        if kind == "REG" and port == 0:
            data, capture, release = levels
            return ([[1, 2]] if capture != release else []) + ([[0]] if data == outputs[0] else [])
        return [[port]] if kind == "REG" else [[0]]

    @staticmethod
    def call_sets(port, served):
        if port == 0:
            return ([[2]] if served is not None else []) + [[0, 1]]
        client = port - 1
        if served is None:
            return [[client], [2]]
        return [[2]] if served == client else [[2], [client]]

    def is_quiet(self, number, port):
        """Whether what a port gives has been the same for its whole delay."""
        wire, delay = self.netlist.modules[number][3][port]
        if wire is None or delay > self.end:
            return False
        given = [state[1][port] for state in self.states[number]]
        return len(set(given[self.end - delay :])) == 1

    def is_still(self, read, dead):
        """Whether an input never has an event again, if no dead port ever has one."""
        wire, late = read
        if any(event > self.end - late for event in events(self.levels[wire])):
            return False
        return self.ports[wire][:2] in dead if wire in self.ports else wire not in self.netlist.stimuli

    def held_by(self, number, port, dead):
        """The sets that hold a port, of inputs that are still."""
        inputs = self.netlist.modules[number][2]
        return [found for found in self.holding_sets(number, port) if all(self.is_still(inputs[place], dead) for place in found)]

    @staticmethod
    def greatest(members, is_kept):
        """The greatest set of which each member is kept."""
        while True:
            kept = {port for port in members if is_kept(port, members)}
            if kept == members:
                return members
            members = kept

    def dead(self):
        """The ports whose wires never change again."""
        quiet = {(number, port) for number, port, _ in self.ports.values() if self.is_quiet(number, port)}
        return self.greatest(quiet, lambda port, dead: bool(self.held_by(*port, dead)))

    # ---- deadlocks

    def awaited(self, number, port, dead):
        """The wires that a dead port may wait for."""
        kind, _, inputs, _ = self.netlist.modules[number]
        sets = self.held_by(number, port, dead)
        if kind == "REG" and port == 0:
            capture, release = self.states[number][self.end][0][1:]
            if capture != release:
                sets = [found for found in sets if found == [1, 2]]
            elif not all(self.is_still(read, dead) for read in inputs):
                sets = []
        return [inputs[place][0] for found in sets for place in found]

    def deadlocks(self):
        """The ports of each cycle, each with the wire that it waits for, from the least port on."""
        dead = self.dead()
        awaited = {port: [wire for wire in self.awaited(*port, dead) if wire in self.ports] for port in dead}
        waiting = self.greatest(dead, lambda port, among: any(self.ports[wire][:2] in among for wire in awaited[port]))
        waits = {port: next(wire for wire in awaited[port] if self.ports[wire][:2] in waiting) for port in waiting}
        after = {port: self.ports[wire][:2] for port, wire in waits.items()}
        for first in sorted(after):
            cycle, port = [], first
            while port not in cycle:
                cycle.append(port)
                port = after[port]
            if port == first and min(cycle) == first:
                yield [(number, waits[number, port]) for number, port in cycle]

    # ---- notes

    def notes(self):
        """What is to be noted of each wire."""
        read = {wire for found in self.netlist.modules if found for wire, _ in found[2]}
        read |= {wire for bundle in self.netlist.bundles if bundle for wire in bundle[1:4]}
        for number, wire in enumerate(self.netlist.wires):
            if wire and number in self.ports:
                delay = self.ports[number][2]
                if delay <= self.end and self.levels[number][delay] != wire[2]:
                    yield f"{wire[0]} is declared {wire[2]} and becomes {self.levels[number][delay]} at {delay}"
            elif wire and number in self.netlist.stimuli:
                if number not in read:
                    yield f"{wire[0]} has a stimulus, and nothing reads it"
            elif wire:
                yield f"{wire[0]} is read, and nothing drives it" if number in read else f"{wire[0]} is unused"

    # ---- bundles that nobody ended

    def is_over(self):
        """Whether the last change has come through every port before the end."""
        last = max((time for line in self.levels if line for time in events(line)), default=0)
        delays, late = [0], [0]
        for kind, _, inputs, outputs in filter(None, self.netlist.modules):
            for port, (wire, delay) in enumerate(outputs):
                if wire is not None:
                    delays.append(delay)
                    late += [inputs[port][1]] if kind == "REG" and port else [read[1] for read in inputs]
        return last + max(delays) + max(late) <= self.end

    def busy(self):
        """The bundles that nobody ended, each with the time of its last request."""
        if self.is_over():
            for name, request, acknowledge, _, _ in filter(None, self.netlist.bundles):
                if self.levels[request][-1] != self.levels[acknowledge][-1]:
                    yield f"{name} is busy since {max(events(self.levels[request]), default=0)}"

    # ---- what is selected

    def selects(self, begin, end, names):
        """A selection: whether a time is one of the range, and whether a module or bundle of this name is asked for."""
        last = self.end + 1 if end is None else min(end, self.end + 1)
        return lambda time: min(begin, self.end) <= time < last, lambda name: not names or name in names

    def problems(self, begin=0, end=None, names=()):
        """The lines of findings and late data that are selected, each as a list of its words."""
        has_time, has_name = self.selects(begin, end, names)
        lines = formats.report(self.netlist, self.levels, self.at_modules).splitlines()
        lines += [f"{time} bundle {self.netlist.bundles[number][0]} late {units}" for time, number, units in sorted(self.late())]
        words = [line.split() for line in lines]
        return [found for found in words if has_time(int(found[0])) and has_name(found[2])]

    def locked(self, names=()):
        """The lines of the deadlocks in which a module with one of these names stands, or of all."""
        for waits in self.deadlocks():
            since = max(max(events(self.levels[wire]), default=0) for _, wire in waits)
            told = [(self.netlist.module_names[number], self.netlist.wires[wire][0]) for number, wire in waits]
            if not names or any(module in names for module, _ in told):
                yield f"{since} deadlock " + ", ".join(f"{module} waits for {wire}" for module, wire in told)

    def noted(self, names=()):
        """The lines of the notes: with names those of bundles alone that have one of them."""
        if not names:
            yield from (f"note wire {note}" for note in self.notes())
        yield from (f"note bundle {note}" for note in self.busy() if not names or note.split()[0] in names)


def brief(problems):
    """A line for all of one module or bundle and one code, by the time of the first one."""
    groups = {}
    for time, *what in problems:
        groups.setdefault(tuple(what[:3]), []).append((int(time), *map(int, what[3:])))
    for (kind, name, code), found in sorted(groups.items(), key=lambda group: group[1][0][0]):
        if len(found) == 1:
            yield f"{kind} {name} {code} 1 time, at {found[0][0]}" + "".join(f", by {units}" for units in found[0][1:])
        else:
            worst = f", worst {max(units for _, units in found)}" if code == "late" else ""
            yield f"{kind} {name} {code} {len(found)} times, first {found[0][0]}, last {found[-1][0]}{worst}"


def check(netlist, begin=0, end=None, names=(), is_brief=False):
    """What `check` writes, and the status with which it ends."""
    of = Check(netlist)
    problems, locked = of.problems(begin, end, names), list(of.locked(names))
    lines = list(brief(problems)) if is_brief else [" ".join(found) for found in problems]
    return "".join(f"{line}\n" for line in [*lines, *locked, *of.noted(names)]), 5 if problems or locked else 0


def report(netlist, begin=0, end=None, names=()):
    """What `report` writes."""
    return "".join(" ".join(found) + "\n" for found in Check(netlist).problems(begin, end, names) if found[3] != "late")
