"""How much later one event can be than another, over all delays in their ranges, each occurrence of a delay by itself.

The greatest `t(a) - t(b)` is the maximum over the paths P to a of P at its high ends, less the longest path to b with the delays of P high and all
others low. So it is reached at a corner of the ranges, and one sweep finds it (McMillan and Dill, Algorithms for interface timing verification,
1992): let m(v) be the longest path from v to b at low ends; then `s(v) = min(max over causes u of (s(u) + high), -m(v))`, without the second term
for a v that doesn't lead to b, bounds `t(v) - t(b)`. What a and b have in common behind them cancels. Hulgaard, Burns, Amon and Borriello (An
algorithm for exact bounds on the time separation of events in concurrent systems, 1995) carry it on for ever in periodic systems; a run is finite.

Where delays are the same all through the run, the sweep is a bound: a delay that stands more often in P than on the way to b, or on both, pulls
both ways.
"""

from __future__ import annotations

import heapq
from typing import Dict, List, NamedTuple, Optional, Sequence, Set, Tuple

from .graph import Cause, Graph
from .orders import Order


class Bound(NamedTuple):
    """`margin` is at least this. `path` has the delays on the way to the early event that makes it, and `beside` those on the longest way to the
    late event from the same event on, each as often as it stands there."""

    margin: float
    path: Tuple[int, ...]
    beside: Tuple[int, ...]


class Ends(NamedTuple):
    """The low and the high ends of delays, by place."""

    low: Sequence[float]
    high: Sequence[float]


class _Cone:
    """The events behind two others, the later numbers first, up to a number of them."""

    def __init__(self, graph: Graph, order: Order, low: Sequence[float], most: Optional[int]) -> None:
        self.graph, self.low = graph, low
        # the longest path to the late event, and whether the early one is behind an event
        self.to_late: Dict[int, float] = {order.late: 0}
        self.effect: Dict[int, Cause] = {}
        self.to_early: Set[int] = {order.early}
        self.inside: List[int] = []
        self._left = sorted({-order.late, -order.early})
        self._seen = {order.late, order.early}
        # how many events that aren't taken yet are behind the early one, and not behind the late one, which would bound them
        self._loose = 0 if order.early == order.late else 1
        while self._left and not (most is not None and len(self.inside) >= most and not self._loose):
            self._take(-heapq.heappop(self._left))
        self.cut = [-event for event in self._left]

    def _take(self, event: int) -> None:
        self.inside.append(event)
        low, to_late, to_early, seen = self.low, self.to_late, self.to_early, self._seen
        longest, early = to_late.get(event), event in to_early
        self._loose -= early and longest is None
        own = low[self.graph.delay[event]]
        for cause, place in self.graph.causes[event]:
            was_loose = cause in to_early and cause not in to_late
            if longest is not None:
                length = longest + own + low[place]
                if length > to_late.get(cause, -1):
                    to_late[cause] = length
                    self.effect[cause] = event, place
            if early:
                to_early.add(cause)
            self._loose += (cause in to_early and cause not in to_late) - was_loose
            if cause not in seen:
                seen.add(cause)
                heapq.heappush(self._left, -cause)


def separation(graph: Graph, order: Order, ends: Ends, most: Optional[int] = None) -> Bound:
    """The least margin of an order over the ranges, of a sweep over all events behind it, or over the last `most` of them."""
    cone = _Cone(graph, order, ends.low, most)
    latest: Dict[int, float] = {event: -cone.to_late[event] for event in cone.cut if event in cone.to_early}
    back: Dict[int, Cause] = {}
    high, delay, causes = ends.high, graph.delay, graph.causes
    for event in reversed(cone.inside):
        if event not in cone.to_early:
            continue
        if event == 0:
            latest[0] = -cone.to_late[0] if 0 in cone.to_late else 0
            continue
        best, chosen = None, (0, 0)
        for cause, place in causes[event]:
            time = latest[cause] + high[place]
            if best is None or time > best:
                best, chosen = time, (cause, place)
        assert best is not None
        best += high[delay[event]]
        longest = cone.to_late.get(event)
        if longest is not None and -longest < best:
            best = -longest
        else:
            back[event] = chosen
        latest[event] = best
    most_late = latest[order.early] + high[order.early_place] - ends.low[order.late_place] + order.slack
    path, event = path_of(graph, order, back)
    return Bound(-most_late, path, beside_of(graph, order, cone.effect, event))


def path_of(graph: Graph, order: Order, back: Dict[int, Cause]) -> Tuple[Tuple[int, ...], int]:
    """The places of the delays on the way to the early event, and the event at which the way begins."""
    path, event = [order.early_place], order.early
    while event in back:
        cause, place = back[event]
        path += [graph.delay[event], place]
        event = cause
    return tuple([place for place in path if place]), event


def beside_of(graph: Graph, order: Order, effect: Dict[int, Cause], event: int) -> Tuple[int, ...]:
    """The places of the delays on the longest way from an event to the late one; none if it doesn't lead there."""
    beside = [order.late_place]
    while event in effect:
        event, place = effect[event]
        beside += [graph.delay[event], place]
    return tuple([place for place in beside if place])
