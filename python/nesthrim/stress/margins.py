"""The margins of bundles: of each the least one that is found over the ranges, and a bound that none is below.

One evaluation of the graph gives the margins of all bundles at a point. So the corner of the paths of all bundles together comes first, which is
the worst one of each where no delay stands on the path of one bundle and beside that of another. Then come the corners of single bundles, and
where the bound still isn't reached, longer windows.
"""

from __future__ import annotations

from typing import Dict, List, Sequence

from .answer import BundleStress
from .judge import Judge
from .orders import Order
from .space import Point
from .windows import Entry

# a graph with at most so many events is small: all of it is swept again for a bundle; and so many classes of a bundle are tried
_SMALL, _TRIED = 5_000, 6


class Margins:
    """The margins of the bundles that a judge has bounded."""

    def __init__(self, judge: Judge) -> None:
        self.judge, self.timing = judge, judge.timing
        last = self.timing.last(judge.spread)
        graph = self.timing.graph
        self._orders: Dict[str, List[Order]] = {}
        for order in self.timing.orders:
            if order.rule == "setup" and graph.time[order.early] < last:
                self._orders.setdefault(order.name, []).append(order)
        self._nominal = {name: self._least(name, graph.time, self.timing.nominal) for name in self._orders}
        self._reached = {name: float(margin) for name, margin in self._nominal.items()}
        self._bound = {name: min(map(judge.bound_of, self._entries(name))) for name in self._orders}

    def _entries(self, name: str) -> List[Entry]:
        return self.judge.entries[name, "setup"]

    def _least(self, name: str, times: Sequence[int], point: Sequence[int]) -> int:
        return min(order.margin(times, point) for order in self._orders[name])

    def known(self) -> List[BundleStress]:
        """What is known so far."""
        return [self._answer(name) for name in self.timing.netlist.known_bundles]

    def _answer(self, name: str) -> BundleStress:
        if name not in self._orders:
            return BundleStress(name, None, None, None)
        units, bound, reached = self.timing.units, self._bound[name], self._reached[name]
        if (name, "setup") in self.judge.closed:
            bound = max(bound, 0)
        return BundleStress(name, self._nominal[name] / units, reached / units, min(bound, reached) / units)

    def sharpen(self) -> None:
        """Looks for worse points, and for better bounds, until both meet or the time is over."""
        if self.judge.each and len(self.timing.graph.time) <= _SMALL:
            self._deepen_each()
            return
        self._look([self._weakest(name) for name in self._orders])
        for name in self._orders:
            if self._is_open(name):
                self.judge.tell(f"bounds the margin of {name}")
                self._look([self._weakest(name)])
            if self._is_open(name):
                self._deepen(name)

    def _is_open(self, name: str) -> bool:
        return self._bound[name] < self._reached[name] and not self.judge.over()

    def _weakest(self, name: str) -> Entry:
        return min(self._entries(name), key=lambda entry: entry.margin)

    def _look(self, entries: Sequence[Entry]) -> None:
        """Evaluates the graph at the corner of the paths of these classes."""
        count: Dict[int, int] = {}
        for entry in entries:
            for place in entry.path:
                count[place] = count.get(place, 0) + 1
        for factor in self.judge.space.factors:
            self._take(self.judge.space.corner(count, factor))

    def _take(self, point: Point) -> None:
        times = self.timing.graph.times(point)
        for name in self._orders:
            self._reached[name] = min(self._reached[name], self._least(name, times, point))

    def _deepen(self, name: str) -> None:
        judge, small = self.judge, len(self.timing.graph.time) <= _SMALL
        weak = [entry for entry in self._entries(name) if judge.bound_of(entry) < self._reached[name]]
        left = judge.refiner.deepen(weak, self._reached[name], 3 if small else 1)
        for entry in sorted(left, key=judge.bound_of)[: _TRIED if small else 0]:
            self._reached[name] = min(self._reached[name], judge.try_class(entry).reached.margin)
        self._bound[name] = min([judge.bound_of(entry) for entry in left], default=self._reached[name])

    def _deepen_each(self) -> None:
        """Where each occurrence of a delay is by itself, the whole sweep's bound is reached, by delays that no netlist can have."""
        for name in self._orders:
            left = self.judge.refiner.deepen(self._entries(name), self._bound[name] + 1)
            self._bound[name] = min([self.judge.bound_of(entry) for entry in left], default=self._bound[name])
            self._reached[name] = self._bound[name]
