"""Data that change in several steps, whose order isn't said: a function whose inputs change together, and what is made of it.

Which levels the data have on the way depends on the order, and nobody may look at them before they stand. So each change of an input of such a module
is followed by itself: it may make one change of the output, at its own time. The last of them has to come before a request, the first one behind an
acknowledge, and so has each. A change that doesn't show since another comes at the same time costs nothing.

A register makes several changes of its output if several changes of its data come in one opening. Where there are more than a few, those that come
while it is held are taken as one, at its opening, and then they have to come before that. So the changes in a loop of registers don't grow in number.
"""

from __future__ import annotations

import heapq
from typing import Dict, List, NamedTuple, Set, Tuple

from ..modules import Module
from .graph import NONE, Cause, Unfoldable
from .unfold import SETTLED, Causes, Changes, Run

# what hands data on, change by change
_JOINS = ("SUM", "AND", "OR", "SUB", "LESS", "MUX", "JOIN")
_PASSES = ("BUF", "NOT", "ADDC", "XORC", "BIT", *_JOINS)

# so many changes that come in one window of a register while it is held are followed each by itself, so many in a window in all, and so many in a run
FEW, MANY, MOST_EVENTS = 2, 32, 400_000


class Settles(NamedTuple):
    """A change of a register's data that has to come before its opening: the register, both events and the places of the inputs' delays."""

    register: str
    early: Cause
    late: Cause


def settling_wires(run: Run) -> Set[str]:
    """The wires that may change in several steps. `Unfoldable` if one of them is read as a control wire."""
    found = {wire for module, port, wire, _ in run.outputs() if _begins(run, module, port)}
    readers = _readers(run)
    left = list(found)
    while left:
        for module, port in readers.get(left.pop(), ()):
            output = _passed_to(module, port)
            if output and output not in found:
                found.add(output)
                left.append(output)
    for bundle in run.netlist.known_bundles.values():
        if bundle.req in found or bundle.ack in found:
            raise Unfoldable(bundle.name, "has events made of data that change in several steps")
    return found


def _readers(run: Run) -> Dict[str, List[Tuple[Module, int]]]:
    readers: Dict[str, List[Tuple[Module, int]]] = {}
    for module in run.netlist.known_modules.values():
        for port, (wire, _) in enumerate(module.inputs):
            readers.setdefault(wire, []).append((module, port))
    return readers


def _passed_to(module: Module, port: int) -> str:
    """The wire to which a module hands on steps of an input, if there is one. `Unfoldable` if they would be events."""
    if module.kind in _PASSES or (module.kind == "REG" and port == 0):
        return module.outputs[0][0] or ""
    if module.kind == "SELECT" and port == 1:
        return ""
    raise Unfoldable(module.name, "is steered by data that change in several steps")


def _begins(run: Run, module: Module, port: int) -> bool:
    """Whether an output changes in several steps though no input does."""
    if module.kind in _JOINS:
        return sum(1 for wire, _ in module.inputs if run.times[wire]) > 1
    return module.kind == "REG" and port == 0 and _has_full_window(run, module)


def _has_full_window(run: Run, module: Module) -> bool:
    """Whether several changes of a register's data come between two captures; its first level counts as one if the first opening shows it."""
    phases = run.phases(module)
    seen = {0} if _shows_first(run, module) else set()
    for time, _ in run.input(module, 0).each():
        window, _ = phases.window(time)
        if window in seen:
            return True
        seen.add(window)
    return False


def _shows_first(run: Run, module: Module) -> bool:
    phases = run.phases(module)
    return not phases.open_first and bool(phases.phases) and module.params[0] != run.levels[module.inputs[0][0]].initial


class Settling:
    """Adds the changes of settling wires to those of a run, by time, with the orders that they rely on."""

    def __init__(self, run: Run, changes: Changes, wires: Set[str], horizon: int) -> None:
        self.run, self.changes, self.wires, self.horizon = run, changes, wires, horizon
        self.settles: List[Settles] = []
        self._readers = _readers(run)
        self._queue: List[Tuple[int, int, int, int]] = []
        self._lanes: Dict[Tuple[int, int], int] = {}
        self._made: Dict[Tuple[str, Causes], int] = {}
        self._windows: Dict[Tuple[str, int], List[int]] = {}
        self._begin()
        while self._queue:
            _, wire, _, event = heapq.heappop(self._queue)
            self._pass(changes.wires[wire], event)

    def _begin(self) -> None:
        fed = {wire for name in self.wires for wire in self._data_of(name)} - self.wires
        for name in sorted(fed):
            first = self.run.first[name]
            for number in range(first, first + len(self.run.times[name])):
                heapq.heappush(self._queue, (self.changes.time[number], self.changes.wire[number], 0, number))
        for module, port, wire, delay in self.run.outputs():
            if wire not in self.wires:
                continue
            if self.run.times[wire][:1] == (delay,):
                self._add(module, wire, delay, SETTLED)
            if module.kind == "REG" and _shows_first(self.run, module):
                opens = self.run.phases(module).phases[0]
                self._add(module, wire, opens.time + delay, ((opens.event, opens.place),))

    def _data_of(self, wire: str) -> List[str]:
        """The data from which a settling wire is made."""
        for module, port, output, _ in self.run.outputs():
            if output == wire:
                return [name for name, _ in (module.inputs[:1] if module.kind == "REG" else module.inputs)]
        return []

    def _pass(self, wire: str, event: int) -> None:
        for module, port in self._readers.get(wire, ()):
            output = module.outputs[0][0]
            if output not in self.wires or (module.kind == "REG" and port > 0):
                continue
            place = self.run.places.get((module.name, port, True), NONE)
            time = self.changes.time[event] + module.inputs[port][1] * self.run.units
            if module.kind == "REG":
                self._store(module, output, time, (event, place))
            else:
                self._add(module, output, time + self._delay(module), ((event, place),))

    def _delay(self, module: Module) -> int:
        return module.outputs[0][1] * self.run.units

    def _store(self, module: Module, output: str, time: int, cause: Cause) -> None:
        number, window = self.run.phases(module).window(time)
        opens = window.opens
        if number < 0:  # (open from the begin on)
            self._add(module, output, time + self._delay(module), (cause,))
        if opens is None:
            return
        opening = (opens.event, opens.place)
        made = self._windows.setdefault((module.name, number), [])
        if time <= opens.time and len(made) >= FEW:
            self._add(module, output, opens.time + self._delay(module), (opening,))
            self.settles.append(Settles(module.name, cause, opening))
            return
        if len(made) >= MANY:
            raise Unfoldable(module.name, "takes more changes of its data in one opening than are followed")
        made.append(self._add(module, output, max(time, opens.time) + self._delay(module), (cause, opening)))

    def _add(self, module: Module, wire: str, time: int, causes: Causes) -> int:
        known = self._made.get((wire, causes))
        if known is not None or time >= self.horizon:
            return known or 0
        if len(self.changes.time) > MOST_EVENTS:
            raise Unfoldable(module.name, "changes too often")
        number = self.changes.number[wire]
        lane = self._lanes.get((number, time), 0)
        self._lanes[number, time] = lane + 1
        event = self.changes.add(time, number, causes, self.run.place(module, 0), lane)
        self._made[wire, causes] = event
        heapq.heappush(self._queue, (time, number, lane, event))
        return event
