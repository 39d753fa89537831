"""Races: for each bundle the transfer that tolerates least, with both chains of causes from the last event that both have.

The data win as long as `data (1 + x) + setup < request (1 - x)` for the sums of both chains, if all their delays vary by x. A delay that stands on
both chains counts as often as it stands more on one of them. Only these chains are looked at, and each at its nominal causes: `stress` looks at
all.
"""

from __future__ import annotations

import heapq
import time as clock
from dataclasses import dataclass, field, replace
from typing import TYPE_CHECKING, Dict, Iterator, List, Optional, Sequence, Tuple

from ..answers.table import Row, row_of
from ..names import find
from .answer import number
from .delays import Delay, Ranges, Spread
from .graph import NONE, Unfoldable
from .orders import Order
from .refine import Deadline
from .search import nearest
from .timing import Timing
from .windows import Entry

if TYPE_CHECKING:
    from ..netlist import Netlist

# after so many seconds of the processor tolerances are told as the sums tell them: then a transfer may tolerate more
SECONDS = 20

# the spread at which the chains are chosen: where several causes come at once, those that matter at a small spread
LOOK = 1

# of how many races of a bundle, those that tolerate least by their sums, the tolerance is measured: of all but where a run has many events; up to
# which change, and how nearly
_MEASURED, _MANY, MOST, _NEAR = 4, 5_000, 95, 0.002

# of how many classes of transfers of a bundle, the weakest ones, the chains are walked
_WALKED = 50


@dataclass(frozen=True)
class Link:
    """A part of a chain: the delay of a port, or with the `delay` None the time between two changes by stimuli, the later one of the wire `name`."""

    name: str
    units: int
    delay: Optional[Delay] = None

    def __str__(self) -> str:
        return str(self.delay) if self.delay else f"{self.name} after {self.units}"


@dataclass(frozen=True)
class Race:
    """A bundle's transfer that tolerates least: both chains begin at a change of the wire `cause` at `time`, or at the begin of the run, with
    None.

    `data` and `request` are the chains, the cause first. `slack` is the time, above the setup, by which the data win. `tolerance` is the change of
    these delays alone, in per cent, up to which they do; `None` if no change of them matters. `at` is the nominal time of the request, and `order`
    the order of both events.
    """

    bundle: str
    cause: Optional[str]
    time: int
    data: Tuple[Link, ...]
    request: Tuple[Link, ...]
    setup: int
    slack: int
    tolerance: Optional[float]
    at: int
    order: Order = field(repr=False, compare=False)

    def __str__(self) -> str:
        begin = f"{self.cause} at {self.time}" if self.cause else "the begin"
        last = f"holds to {number(round(self.tolerance, 2))} %" if self.tolerance is not None else "no delay matters"
        return f"bundle {self.bundle} from {begin}: data {_told(self.data)}; request {_told(self.request)}; slack {self.slack}; {last}"


def _told(chain: Sequence[Link]) -> str:
    if not chain:
        return "= 0"
    return ", ".join(map(str, chain)) + f" = {sum(link.units for link in chain)}"


@dataclass(frozen=True)
class Races:
    """The races of all bundles that have a transfer, those that tolerate least first. `check` has the lines of `check` if the netlist has some."""

    races: Tuple[Race, ...]
    check: str = ""
    reason: str = ""

    def bundle(self, name: str) -> Race:
        """The race of a bundle. `UnknownName` (5 NoSuchBundle) if there is none of this name."""
        return find({race.bundle: race for race in self.races}, name, "bundle")

    @property
    def status(self) -> int:
        """The exit status of the command: 5 if the netlist is at fault as it stands, 6 if its run has no graph."""
        return 5 if self.check else 6 if self.reason else 0

    def __str__(self) -> str:
        if self.check or self.reason:
            return self.check or f"note no graph: {self.reason}\nnothing found\n"
        return "".join(f"{race}\n" for race in self.races)

    def __repr__(self) -> str:
        return f"<races of {len(self.races)} bundles>"

    def rows(self) -> List[Row]:
        """A row for each race: its attributes by their names, the chains as texts."""
        return [row_of(each) for each in self.races]


def races(netlist: Netlist) -> Races:
    """The race of each bundle of a netlist."""
    timing = Timing(netlist, Spread(LOOK), netlist.horizon)
    if not timing.check.ok:
        lines = str(netlist.check()).splitlines()
        return Races((), "".join(f"{line}\n" for line in lines if not line.startswith("note ")))
    try:
        timing.unfold()
    except Unfoldable as reason:
        return Races((), "", str(reason))
    ends = timing.ends(Ranges(netlist, timing.delays, Spread(LOOK), timing.units))
    entries = timing.windows.bounds(ends, timing.graph.times(list(ends.low)), timing.last(Spread(0)))
    end = clock.process_time() + SECONDS
    found = [_least(timing, classes, lambda: clock.process_time() > end) for (_, rule), classes in entries.items() if rule == "setup"]
    return Races(tuple(sorted(found, key=lambda race: (_tolerance(race), race.bundle))))


def _tolerance(race: Race) -> float:
    return race.tolerance if race.tolerance is not None else float("inf")


def _least(timing: Timing, classes: Sequence[Entry], over: Deadline) -> Race:
    """The race that tolerates least, of one transfer of each of the weakest classes of a bundle."""
    weakest = heapq.nsmallest(_WALKED, classes, key=lambda entry: (entry.margin, entry.members[0].early))
    found = sorted((race for entry in weakest for race in _races(timing, entry.members[0])), key=lambda race: (_tolerance(race), race.at))
    best = found[0] if _tolerance(found[0]) == float("inf") else None
    for race in found[: _MEASURED if len(timing.graph.time) > _MANY else None]:
        if best is None or _tolerance(race) < _tolerance(best):
            real = race if over() else replace(race, tolerance=_measured(timing, race))
            best = real if best is None or _tolerance(real) < _tolerance(best) else best
    assert best is not None
    return best


def _measured(timing: Timing, race: Race) -> Optional[float]:
    """The change of the delays of both chains up to which the data win: more than the sums tell where another cause decides then; at most `MOST`."""
    assert race.tolerance is not None
    if race.tolerance >= MOST or _margin(timing, race, race.tolerance) <= 0:
        return race.tolerance
    low, high = race.tolerance, float(MOST)
    while high - low > _NEAR * low:
        middle = (low + high) / 2
        if _margin(timing, race, middle) > 0:
            low = middle
        else:
            high = middle
    return low


def _margin(timing: Timing, race: Race, percent: float) -> int:
    """The margin of a race's transfer, in finer units, with the delays of its data as much slower, and those of its request as much faster."""
    count: Dict[int, int] = {}
    for chain, sign in ((race.data, 1), (race.request, -1)):
        for link in chain:
            if link.delay:
                place = timing.place_of(link.delay.module, link.delay.port, link.delay.is_input)
                count[place] = count.get(place, 0) + sign
    point = list(timing.nominal)
    for place, weight in count.items():
        sign = (weight > 0) - (weight < 0)
        point[place] = round(point[place] * (1 + sign * percent / 100))
    order = race.order
    return order.margin(timing.graph.times(point, max(order.early, order.late)), point)


def _races(timing: Timing, order: Order) -> Iterator[Race]:
    """The races of a transfer: from the nearest cause that both events have, and that of the window if its chain decides when the request comes."""
    graph = timing.graph
    yield _race(timing, order, nearest(graph, order))
    other = timing.windows.race(order)
    if other is not None:
        race = _race(timing, order, other)
        if race.time + sum(link.units for link in race.request) == race.at:
            yield race


def _race(timing: Timing, order: Order, ways: Tuple[List[int], List[int], int]) -> Race:
    graph, units = timing.graph, timing.units
    of_early, of_late, common = ways
    data, request = _links(timing, of_early, common), _links(timing, of_late, common)
    slack = sum(link.units for link in request) - sum(link.units for link in data) - timing.setups[order.name] // units
    return Race(
        order.name,
        graph.wire_of(common),
        graph.time[common] // units,
        tuple(data),
        tuple(request),
        timing.setups[order.name] // units,
        slack,
        tolerated(data, request, slack),
        graph.time[order.late] // units,
        timing.real(order),
    )


def tolerated(data: Sequence[Link], request: Sequence[Link], slack: float) -> Optional[float]:
    """The change of the delays of two chains, in per cent, up to which the data win by a slack; `None` if no change of them matters."""
    count: Dict[Delay, int] = {}
    for chain, sign in ((data, 1), (request, -1)):
        for link in chain:
            if link.delay:
                count[link.delay] = count.get(link.delay, 0) + sign
    moves = sum(abs(times) * delay.nominal for delay, times in count.items())
    return 100 * slack / moves if moves else None


def _links(timing: Timing, chain: Sequence[int], common: int) -> List[Link]:
    """The delays of a chain of events behind a common cause, the first one first."""
    graph, links, before = timing.graph, [], common
    for event in reversed(chain):
        if graph.root[event]:
            links.append(Link(graph.wire_of(event) or "", timing.nominal[graph.delay[event]] // timing.units))
        else:
            reached = dict(graph.causes[event])[before]
            delays = [timing.delay_at(place) for place in (reached, graph.delay[event]) if place != NONE]
            links += [Link(delay.module, delay.nominal, delay) for delay in delays]
        before = event
    return links
