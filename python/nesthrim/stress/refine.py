"""Sharper bounds: longer windows, and then, for delays that are the same all through the run, branch and bound over the ranges.

A delay that stands on both sides of an order pulls both ways, so its worst value may be inside its range, and no corner shows it. The range of
such a delay is halved until the bounds of all parts are above 0, or a point is found at which the margin isn't. At a single point the sweep is
exact. A group is halved as one: the range of its factor.
"""

from __future__ import annotations

import heapq
import time as clock
from collections import Counter
from typing import Callable, Dict, Iterator, List, NamedTuple, Optional, Sequence, Tuple

from .orders import Order
from .search import Reached, descend
from .separation import Bound, Ends, separation
from .space import Space
from .windows import Entry

# how many parts the ranges have at most in branch and bound of a class, without groups and with them; and at each which of them a point is looked for
FEW_NODES, MANY_NODES, LOOKS = 40, 400, 8

# the range of a group's factor isn't halved below this
LEAST_FACTOR = 0.0005

# how many events a window has, step by step; `None` is all
WINDOWS: Tuple[Optional[int], ...] = (300, 3000, None)

Deadline = Callable[[], bool]


def until(seconds: float) -> Deadline:
    """Tells whether so many seconds are over."""
    end = clock.monotonic() + seconds
    return lambda: clock.monotonic() > end


class Closed(NamedTuple):
    """How far an order is decided: no margin is below `bound`, and `reached` is the least one that was found, if one was looked for."""

    bound: float
    reached: Optional[Reached]


class Part(NamedTuple):
    """A part of the ranges with the bound of a margin in it, and the delays on both sides. `number` tells parts of one bound apart.

    `ends` are those of all delays, `groups` those of the factors of groups.
    """

    bound: float
    number: int
    sides: Bound
    ends: Ends
    groups: Tuple[Tuple[float, float], ...]


Sweep = Callable[[Ends], Bound]


class Refiner:
    """Bounds of orders that are sharper than those of windows. No more is done once `over`."""

    def __init__(self, space: Space, over: Deadline, nodes: int = 1000) -> None:
        self.space, self.over, self.nodes = space, over, nodes
        self.graph = space.timing.graph

    # ---- longer windows

    def deepen(self, entries: Sequence[Entry], goal: float, steps: int = len(WINDOWS)) -> List[Entry]:
        """The orders of classes whose bounds aren't above `goal` in longer and longer windows, each by itself."""
        left = list(entries)
        for size in WINDOWS[:steps]:
            sharper: List[Entry] = []
            for number, entry in enumerate(left):
                if self.over():
                    return sharper + left[number:]
                sharper += self._deepened(entry, size, goal)
            left = sharper
        return left

    def _deepened(self, entry: Entry, size: Optional[int], goal: float) -> Iterator[Entry]:
        for order in entry.members:
            bound = separation(self.graph, order, self.space.ends, size)
            if bound.margin <= goal:
                yield Entry(max(bound.margin, entry.margin), bound.path, [order])

    # ---- branch and bound

    def by_class(self, entry: Entry) -> Closed:
        """Branch and bound for all orders of a class at once, in the window of the class."""
        windows, order = self.space.timing.windows, entry.members[0]
        return self._branch(order, lambda ends: windows.bound_in(order, ends), MANY_NODES if self.space.ranges.groups else FEW_NODES, False)

    def by_order(self, order: Order, size: Optional[int]) -> Closed:
        """Branch and bound for one order, over so many events behind it."""
        return self._branch(order, lambda ends: separation(self.graph, order, ends, size), self.nodes, True)

    def _branch(self, order: Order, sweep: Sweep, most: int, looks: bool) -> Closed:
        groups = tuple((1 + group.low, 1 + group.high) for group in self.space.ranges.groups)
        sides = sweep(self.space.ends)
        queue, nodes = [Part(sides.margin, 0, sides, self.space.ends, groups)], 1
        best: Optional[Reached] = None
        while queue[0].bound <= 0 and nodes < most and not self.over():
            part = queue[0]
            if looks and (best is None or nodes % LOOKS == 1):
                best = self._look(order, part, best)
                if best.margin <= 0:
                    break
            unit = self._widest(part)
            if unit is None:
                break
            heapq.heappop(queue)
            for ends, factors in self._halves(part, unit):
                sides = sweep(ends)
                nodes += 1
                heapq.heappush(queue, Part(max(sides.margin, part.bound), nodes, sides, ends, factors))
        return Closed(queue[0].bound, best)

    def _look(self, order: Order, part: Part, best: Optional[Reached]) -> Reached:
        """The least margin that is found at the corner of a part, and at first from that of the whole on, or the one before."""
        real = self.space.timing.real(order)
        if best is None:
            best = descend(self.space, real, part.sides.path, 0)
        on_path = set(part.sides.path)
        for factor in self.space.factors:
            values = [high if place in on_path else low for place, (low, high) in enumerate(zip(*part.ends))]
            for unit in {self.space.units_of[place] for place in part.sides.path if place in self.space.units_of}:
                for place in self.space.units[unit]:
                    values[place] = part.ends.high[place]
            point = self.space.point(values, factor)
            times = self.graph.times(point, max(order.early, order.late))
            best = min(best, Reached(real.margin(times, point), point))
        return best

    def _widest(self, part: Part) -> Optional[int]:
        """The unit whose range makes the bound weakest: the one that stands most on both sides, by its width; else on one of them alone."""
        on_path, beside = Counter(part.sides.path), Counter(part.sides.beside)
        space = self.space
        weigh = {place: space.nominal[place] for place in {*on_path, *beside} if place in space.units_of}
        sums: Dict[int, Tuple[float, float]] = {}
        for place, units in weigh.items():
            unit = space.units_of[place]
            early, late = sums.get(unit, (0.0, 0.0))
            sums[unit] = early + on_path[place] * units, late + beside[place] * units
        best, chosen = 0.0, None
        for unit, (early, late) in sums.items():
            gain = self._width(part, unit) * (min(early, late) + (early + late) / 100)
            if gain > best:
                best, chosen = gain, unit
        return chosen

    def _width(self, part: Part, unit: int) -> float:
        """The width of a unit's range as a part of its nominal value; 0 if it isn't halved any more."""
        if unit < len(part.groups):
            low, high = part.groups[unit]
            return high - low if high - low > LEAST_FACTOR else 0
        place = self.space.units[unit][0]
        wide = part.ends.high[place] - part.ends.low[place]
        return wide / self.space.nominal[place] if wide > 1 else 0

    def _halves(self, part: Part, unit: int) -> Iterator[Tuple[Ends, Tuple[Tuple[float, float], ...]]]:
        """The two halves of a part: both have the middle of the unit's range, since delays are real."""
        if unit < len(part.groups):
            low, high = part.groups[unit]
            for half in ((low, (low + high) / 2), ((low + high) / 2, high)):
                groups = part.groups[:unit] + (half,) + part.groups[unit + 1 :]
                nominal = {place: self.space.nominal[place] for place in self.space.units[unit]}
                yield self._with(part, {place: (value * half[0], value * half[1]) for place, value in nominal.items()}), groups
            return
        place = self.space.units[unit][0]
        first, last = part.ends.low[place], part.ends.high[place]
        middle = (first + last) // 2
        for ends in ((first, middle), (middle, last)):
            yield self._with(part, {place: ends}), part.groups

    def _with(self, part: Part, changes: Dict[int, Tuple[float, float]]) -> Ends:
        low, high = list(part.ends.low), list(part.ends.high)
        for place, (least, greatest) in changes.items():
            low[place], high[place] = least, greatest
        return Ends(low, high)
