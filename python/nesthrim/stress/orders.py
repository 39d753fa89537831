"""Which events have to stay in which order, so that the graph of the nominal run is the run for other delays too, and `check` finds nothing.

Each order says that the event `early` reaches its module before the event `late`: by more than `slack`, which is the setup of a bundle, or -1 where
both may come at once. The rule of an order has the name of what `check` finds if it is broken, where there is such a finding:

- bundle: `setup`, `data-while-busy`, `request-while-busy`, `ack-while-idle`;
- REG: `capture-while-held` and `pass-while-open` for its phases; `data-before-capture` for a change that comes before the capture of the data before
  it, and `data-after-capture` for one that comes behind its own; `data-after-opening` for data that are taken as settled when it opens;
- C: `withdrawn`, an input has its next event before the other one has come;
- XOR: `merge-collision`; SELECT: `select-unstable`; CALL: `call-overlap`, `done-without-call`;
- ARBITER: `request-order`, which of two requests is the first, and `repeat-request`, `done-without-grant`.
"""

from __future__ import annotations

from bisect import bisect_left
from typing import Callable, Dict, List, NamedTuple, Sequence, Tuple

from ..modules import Module
from ..wires import Bundle
from .graph import NONE, Graph, Unfoldable
from .registers import Phase, Phases

# a name and a rule
Place = Tuple[str, str]

# both events may come at once
AT_ONCE = -1


class Order(NamedTuple):
    """`early` plus its input's delay, of the place `early_place`, plus `slack`, is below `late` plus its input's delay."""

    name: str
    rule: str
    early: int
    late: int
    slack: int = 0
    early_place: int = NONE
    late_place: int = NONE

    @property
    def place(self) -> Place:
        """At what it stands, and its rule."""
        return self.name, self.rule

    def margin(self, times: Sequence[int], delays: Sequence[int]) -> int:
        """By how much more than it has to `late` comes behind `early`; the order holds if this is above 0."""
        return times[self.late] + delays[self.late_place] - times[self.early] - delays[self.early_place] - self.slack


class Reach(NamedTuple):
    """An event as an input of a module sees it."""

    time: int
    rank: int
    event: int
    place: int
    port: int


class Orders:
    """Lists the orders of a graph. `places` and `units` are as of `Run`; `phases` are those of the registers."""

    def __init__(self, graph: Graph, places: Dict[Tuple[str, int, bool], int], units: int, phases: Dict[str, Phases]) -> None:
        self.graph, self.units, self.phases = graph, units, phases
        self._places = places
        self.found: List[Order] = []

    def reaches(self, module: Module, ports: Sequence[int], ranks: Sequence[int] = (0, 1, 2, 3)) -> List[Reach]:
        """The events at some inputs of a module by time, those of one time by the rank of their input."""
        found = []
        for port in ports:
            wire, delay = module.inputs[port]
            place = self._places.get((module.name, port, True), NONE)
            later = delay * self.units
            found += [Reach(time + later, ranks[port], event, place, port) for time, event in zip(self.graph.times_of(wire), self.graph.of[wire])]
        return sorted(found)

    def add(self, name: str, rule: str, early: Reach, late: Reach, slack: int = 0) -> None:
        """Adds an order of two events at inputs of a module."""
        self.found.append(Order(name, rule, early.event, late.event, slack, early.place, late.place))

    # ---- modules

    def of_module(self, module: Module) -> None:
        """Adds the orders of a module."""
        add = _OF_KIND.get(module.kind)
        if add is not None:
            add(self, module)

    def merge(self, module: Module) -> None:
        """XOR: events of different inputs stay in order, and apart."""
        reaches = self.reaches(module, (0, 1))
        for early, late in zip(reaches, reaches[1:]):
            if early.port != late.port:
                self.add(module.name, "merge-collision", early, late)

    def rendezvous(self, module: Module) -> None:
        """C: an input has its next event behind the events of both inputs that the output has answered."""
        each = [self.reaches(module, (port,)) for port in (0, 1)]
        output, delay = module.outputs[0]
        if output is None:
            raise Unfoldable(module.name, "drives no wire")
        decided = [time - delay * self.units for time in self.graph.times_of(output)]
        for port in (0, 1):
            own, other = each[port], each[1 - port]
            last = next_one = 0
            for time in decided:
                while next_one < len(own) and own[next_one].time <= time:
                    next_one += 1
                while last < len(other) and other[last].time <= time:
                    last += 1
                if last and next_one < len(own):
                    self.add(module.name, "withdrawn", other[last - 1], own[next_one])

    def steer(self, module: Module) -> None:
        """SELECT: each event of `a` comes between the changes of the diamond between which it came."""
        events, levels = self.reaches(module, (0,)), self.reaches(module, (1,))
        times = [reach.time for reach in events]
        for level in levels:
            number = bisect_left(times, level.time)
            if number:
                self.add(module.name, "select-unstable", events[number - 1], level)
            if number < len(events):
                self.add(module.name, "select-unstable", level, events[number])

    def call(self, module: Module) -> None:
        """CALL: requests and dones take turns. A request may come with the done before it."""
        reaches = self.reaches(module, (0, 1, 2), (1, 2, 0))
        for early, late in zip(reaches, reaches[1:]):
            done = late.port == 2
            self.add(module.name, "done-without-call" if done else "call-overlap", early, late, 0 if done else AT_ONCE)

    def arbiter(self, module: Module) -> None:
        """ARBITER: requests keep their order; a done comes behind its grant; a port's next request not before its done."""
        requests = self.reaches(module, (0, 1))
        for early, late in zip(requests, requests[1:]):
            if early.port != late.port:
                self.add(module.name, "request-order", early, late, AT_ONCE if early.port == 0 else 0)
        dones = self.reaches(module, (2, 3))
        own: Tuple[List[Reach], List[Reach]] = ([], [])
        for request in requests:
            own[request.port].append(request)
        count = [0, 0]
        for number, done in enumerate(dones):
            port = done.port - 2
            at = count[port]
            count[port] += 1
            if at >= len(own[port]):
                raise Unfoldable(module.name, "has more dones than requests")
            self.add(module.name, "done-without-grant", own[port][at], done)
            if number:
                self.add(module.name, "done-without-grant", dones[number - 1], done)
            if at + 1 < len(own[port]):
                self.add(module.name, "repeat-request", done, own[port][at + 1], AT_ONCE)

    def store(self, module: Module) -> None:
        """REG: captures and passes take turns, and each change of the data stays between the two captures between which it came."""
        phases = self.phases[module.name]
        for sooner, later in zip(phases.phases, phases.phases[1:]):
            rule = "capture-while-held" if later.port == 1 else "pass-while-open"
            self.found.append(Order(module.name, rule, sooner.event, later.event, 0, sooner.place, later.place))
        for change in self.reaches(module, (0,)):
            _, window = phases.window(change.time)
            if window.closed:
                self.add(module.name, "data-before-capture", _reach(window.closed), change)
            if window.closes:
                self.add(module.name, "data-after-capture", change, _reach(window.closes))

    # ---- bundles

    def of_bundle(self, bundle: Bundle, setup: int) -> None:
        """Adds the orders of a bundle whose setup is so many finer units: requests and acknowledges take turns, and data come between them."""
        graph = self.graph
        requests, acks = graph.times_of(bundle.req), graph.times_of(bundle.ack)
        own, answers = graph.of[bundle.req], graph.of[bundle.ack]
        turns = [(time, event, "request-while-busy") for time, event in zip(requests, own)]
        turns += [(time, event, "ack-while-idle") for time, event in zip(acks, answers)]
        turns.sort()
        for (_, early, _), (_, late, rule) in zip(turns, turns[1:]):
            self.found.append(Order(bundle.name, rule, early, late))
        for time, event in zip(graph.times_of(bundle.data), graph.of[bundle.data]):
            number = bisect_left(requests, time)
            if number < len(own):
                self.found.append(Order(bundle.name, "setup", event, own[number], setup))
            number = bisect_left(acks, time)
            if number:
                self.found.append(Order(bundle.name, "data-while-busy", answers[number - 1], event))


def _reach(phase: Phase) -> Reach:
    return Reach(phase.time, 0, phase.event, phase.place, phase.port)


_OF_KIND: Dict[str, Callable[[Orders, Module], None]] = {
    "XOR": Orders.merge,
    "C": Orders.rendezvous,
    "SELECT": Orders.steer,
    "CALL": Orders.call,
    "ARBITER": Orders.arbiter,
    "REG": Orders.store,
}
