"""A run unfolded to its graph: which events cause an event, by the kind of the module that drives its wire.

One cause: each function of its inputs, TOGGLE, SELECT, CALL, and `cd` and `pd` of a REG. Two: C, the last event of each input; `q` of a REG, the change
of the data and the event that opened it; ARBITER, the request and the done that freed it. Data that may change in any order are in `settling`.
"""

from __future__ import annotations

from bisect import bisect_left, bisect_right
from typing import TYPE_CHECKING, Callable, Collection, Dict, Iterator, List, Mapping, Optional, Sequence, Tuple

from ..modules import Module
from .graph import NONE, Cause, Graph, Unfoldable
from .registers import Phase, Phases

if TYPE_CHECKING:
    from ..answers.waves import Waves
    from ..netlist import Netlist

Causes = Tuple[Cause, ...]
Finder = Callable[[int], Causes]

# the cause of a change as the run settles: the origin
SETTLED: Causes = ((0, NONE),)

_SAME_COUNT = ("BUF", "NOT", "ADDC", "XORC")


class Input:
    """The events of a wire as an input of a module sees them, `delay` later; the wire's events are numbered from `first` on."""

    def __init__(self, times: Sequence[int], first: int, place: int, delay: int) -> None:
        self.times, self.first, self.place, self.delay = times, first, place, delay

    def at(self, time: int) -> Causes:
        """The event that reaches the input at a time, or none."""
        number = bisect_left(self.times, time - self.delay)
        if number < len(self.times) and self.times[number] == time - self.delay:
            return ((self.first + number, self.place),)
        return ()

    def last(self, time: int) -> Causes:
        """The last event that has reached the input up to a time, or none."""
        number = bisect_right(self.times, time - self.delay) - 1
        return ((self.first + number, self.place),) if number >= 0 else ()

    def each(self) -> Iterator[Tuple[int, Cause]]:
        """Each event's time at the input, with the event as a cause."""
        for number, time in enumerate(self.times, self.first):
            yield time + self.delay, (number, self.place)


class Run:
    """The nominal run of a netlist: the times of its wires' changes, numbered from 1 on, wire by wire.

    `places` has the place of each delay that varies, by module, port and whether it is an input's; `units` are those of one unit of the netlist.
    """

    def __init__(self, netlist: Netlist, waves: Waves, places: Mapping[Tuple[str, int, bool], int], units: int) -> None:
        self.netlist, self.places, self.units = netlist, places, units
        self.levels = {name: waves[name] for name in netlist.known_wires}
        self.times: Dict[str, Tuple[int, ...]] = {name: wave.times for name, wave in self.levels.items()}
        self.first: Dict[str, int] = {}
        self._phases: Dict[str, Phases] = {}
        self.number(())

    def number(self, without: Collection[str]) -> None:
        """Numbers the events again, without those of some wires."""
        self._phases = {}
        self.count = 1
        for name, times in self.times.items():
            self.first[name] = self.count
            self.count += 0 if name in without else len(times)

    def input(self, module: Module, port: int) -> Input:
        """An input of a module."""
        wire, delay = module.inputs[port]
        return Input(self.times[wire], self.first[wire], self.places.get((module.name, port, True), NONE), delay * self.units)

    def place(self, module: Module, port: int) -> int:
        """The place of an output's delay."""
        return self.places[module.name, port, False]

    def phases(self, module: Module) -> Phases:
        """When a register opens and closes."""
        if module.name not in self._phases:
            events = [Phase(time, *cause, port) for port in (1, 2) for time, cause in self.input(module, port).each()]
            events.sort(key=lambda phase: phase.time)
            same = self.levels[module.inputs[1][0]].initial == self.levels[module.inputs[2][0]].initial
            self._phases[module.name] = Phases(same, events)
        return self._phases[module.name]

    def outputs(self) -> Iterator[Tuple[Module, int, str, int]]:
        """Each module's output that drives a wire, with the wire and the delay in finer units."""
        for module in self.netlist.known_modules.values():
            for port, (wire, delay) in enumerate(module.outputs):
                if wire is not None:
                    yield module, port, wire, delay * self.units

    def causes_at(self, module: Module, port: int, wire: str, delay: int) -> List[Causes]:
        """The causes of each event of an output's wire."""
        times = self.times[wire]
        settled = 1 if times and times[0] == delay else 0
        if module.kind in _SAME_COUNT or (module.kind == "REG" and port > 0):
            source = self.input(module, port if module.kind == "REG" else 0)
            found: List[Causes] = [((number, source.place),) for number in range(source.first, source.first + len(times) - settled)]
        else:
            find = _FINDERS[module.kind](self, module, port)
            found = [find(time - delay) for time in times[settled:]]
        if not all(found):
            raise Unfoldable(module.name, "changes without a cause")
        return [SETTLED] * settled + found


def _one_of(*ports: int) -> Callable[[Run, Module, int], Finder]:
    """The event of one of these inputs at the time."""

    def finder(run: Run, module: Module, port: int) -> Finder:
        inputs = [run.input(module, each) for each in ports if each < len(module.inputs)]
        return lambda time: next((causes for causes in (each.at(time) for each in inputs) if causes), ())

    return finder


def _call(run: Run, module: Module, port: int) -> Finder:
    return _one_of(0, 1)(run, module, port) if port == 0 else _one_of(2)(run, module, port)


def _rendezvous(run: Run, module: Module, port: int) -> Finder:
    first, second = run.input(module, 0), run.input(module, 1)
    return lambda time: first.last(time) + second.last(time)


def _grant(run: Run, module: Module, port: int) -> Finder:
    request, done = run.input(module, port), [run.input(module, each) for each in (2, 3)]

    def find(time: int) -> Causes:
        dones = [(each.times[cause[0] - each.first] + each.delay, cause) for each in done for cause in each.last(time)]
        return request.last(time) + ((max(dones)[1],) if dones else ())

    return find


def _stored(run: Run, module: Module, port: int) -> Finder:
    data, phases = run.input(module, 0), run.phases(module)

    def find(time: int) -> Causes:
        _, window = phases.window(time)
        change = data.last(time)
        if change and window.closed and data.times[change[0][0] - data.first] + data.delay < window.closed.time:
            change = ()
        return change + (((window.opens.event, window.opens.place),) if window.opens else ())

    return find


_FINDERS: Dict[str, Callable[[Run, Module, int], Finder]] = {
    "XOR": _one_of(0, 1),
    "SUM": _one_of(0, 1),
    "BIT": _one_of(0),
    "AND": _one_of(0, 1),
    "OR": _one_of(0, 1),
    "SUB": _one_of(0, 1),
    "LESS": _one_of(0, 1),
    "MUX": _one_of(0, 1, 2),
    "JOIN": _one_of(0, 1),
    "TOGGLE": _one_of(0),
    "SELECT": _one_of(0),
    "CALL": _call,
    "C": _rendezvous,
    "ARBITER": _grant,
    "REG": _stored,
}


class Changes:
    """The events before they are in order: the times, the wires, the causes, the places of delays and the lanes, each by its number so far."""

    def __init__(self, run: Run) -> None:
        self.wires = list(run.netlist.known_wires)
        self.number = {name: number for number, name in enumerate(self.wires)}
        self.time, self.wire, self.delay, self.lane = [0], [-1], [NONE], [0]
        self.causes: List[Causes] = [()]
        self.root = [True]

    def add(self, time: int, wire: int, causes: Causes, delay: int, lane: int = 0) -> int:
        """Adds an event; its number."""
        self.time.append(time)
        self.wire.append(wire)
        self.causes.append(causes)
        self.delay.append(delay)
        self.lane.append(lane)
        self.root.append(False)
        return len(self.time) - 1

    def fill(self, wire: str, times: Sequence[int], causes: Optional[Sequence[Causes]], delay: int) -> None:
        """Adds all events of a wire; those of a stimulus have no causes yet."""
        count = len(times)
        self.time += times
        self.wire += [self.number[wire]] * count
        self.causes += causes if causes is not None else [()] * count
        self.delay += [delay] * count
        self.lane += [0] * count
        self.root += [causes is None] * count

    def order(self) -> List[int]:
        """The number of each event in the order of time."""
        by_time = sorted(range(len(self.time)), key=lambda event: (self.time[event], self.wire[event], self.lane[event]))
        numbers = [0] * len(by_time)
        for number, event in enumerate(by_time):
            numbers[event] = number
        return numbers


def graph_of(changes: Changes, numbers: Sequence[int], delays: Sequence[int]) -> Graph:
    """The graph of events, each with its number, and with these nominal delays by place: `NONE` and those that vary."""
    events = [0] * len(numbers)
    for event, number in enumerate(numbers):
        events[number] = event
    causes = [tuple([(numbers[cause], place) for cause, place in changes.causes[event]]) for event in events]
    wire = [changes.wire[event] for event in events]
    of: Dict[str, List[int]] = {name: [] for name in changes.wires}
    for number, place in enumerate(wire):
        if place >= 0:
            of[changes.wires[place]].append(number)
    time = [changes.time[event] for event in events]
    root = [changes.root[event] for event in events]
    delay, lane = [changes.delay[event] for event in events], [changes.lane[event] for event in events]
    graph = Graph(changes.wires, wire, lane, time, causes, delay, root, of, list(delays), len(delays) - 1)
    _chain_stimuli(graph)
    return graph


def _chain_stimuli(graph: Graph) -> None:
    """Gives each event of a stimulus the one before it as its cause, and the gap between them as its delay; it is none if both come at once."""
    before = 0
    for event, root in enumerate(graph.root):
        if not root or event == 0:
            continue
        gap = graph.time[event] - graph.time[before]
        graph.causes[event] = ((before, NONE),)
        if gap:
            graph.delay[event] = len(graph.nominal)
            graph.nominal.append(gap)
        before = event
