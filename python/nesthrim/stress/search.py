"""Points of the ranges at which an order has a small margin: the corner of the path that makes its bound, followed along the critical chains."""

from __future__ import annotations

import heapq
from typing import Dict, List, NamedTuple, Sequence, Tuple

from .graph import Graph
from .orders import Order
from .space import Point, Space

# how often a point is moved
_ROUNDS = 12


class Reached(NamedTuple):
    """A margin, in finer units, and the delays at which an order has it."""

    margin: int
    point: Point


def chains(graph: Graph, order: Order, times: Sequence[int], delays: Sequence[int]) -> Tuple[List[int], List[int], int]:
    """The critical chains of both events of an order, back to the last event that both have, which isn't in them, and that event."""
    early, late, of_early, of_late = order.early, order.late, [], []
    while early != late:
        if early > late:
            of_early.append(early)
            early = graph.last_cause(early, times, delays)[0]
        else:
            of_late.append(late)
            late = graph.last_cause(late, times, delays)[0]
    return of_early, of_late, early


def nearest(graph: Graph, order: Order) -> Tuple[List[int], List[int], int]:
    """As `chains`, in the nominal run. Where several causes decide together, those are followed that meet soonest."""
    sides: Dict[int, int] = {order.early: 1}
    sides[order.late] = sides.get(order.late, 0) | 2
    effects: Dict[Tuple[int, int], int] = {}
    left = [-event for event in sides]
    heapq.heapify(left)
    while sides[-left[0]] != 3:
        event = -heapq.heappop(left)
        decided = graph.time[event] - graph.nominal[graph.delay[event]]
        for cause, place in graph.causes[event]:
            if graph.time[cause] + graph.nominal[place] == decided:
                if cause not in sides:
                    heapq.heappush(left, -cause)
                for side in (1, 2):
                    if sides[event] & side:
                        effects.setdefault((cause, side), event)
                sides[cause] = sides.get(cause, 0) | sides[event]
    common = -left[0]
    return _way(effects, common, order.early, 1), _way(effects, common, order.late, 2), common


def _way(effects: Dict[Tuple[int, int], int], event: int, last: int, side: int) -> List[int]:
    way = []
    while event != last:
        event = effects[event, side]
        way.append(event)
    return way[::-1]


def weights(graph: Graph, order: Order, times: Sequence[int], delays: Sequence[int]) -> Dict[int, int]:
    """How much more often each delay stands on the critical chain of the early event than on that of the late one."""
    of_early, of_late, _ = chains(graph, order, times, delays)
    found = {order.early_place: 1}
    found[order.late_place] = found.get(order.late_place, 0) - 1
    for chain, sign in ((of_early, 1), (of_late, -1)):
        for event in chain:
            for place in (graph.delay[event], graph.last_cause(event, times, delays)[1]):
                found[place] = found.get(place, 0) + sign
    found.pop(0, None)
    return found


def descend(space: Space, order: Order, path: Sequence[int], bound: float) -> Reached:
    """The least margin that is found from the corner of a path on; one that isn't above `bound` is the least of all."""
    count: Dict[int, int] = {}
    for place in path:
        count[place] = count.get(place, 0) + 1
    graph = space.timing.graph
    best = Reached(order.margin(graph.time, space.nominal), space.nominal)
    for factor in space.factors:
        best = min(best, _follow(space, order, space.corner(count, factor), factor, bound))
        if best.margin <= bound:
            break
    return best


def _follow(space: Space, order: Order, point: Point, factor: float, bound: float) -> Reached:
    graph = space.timing.graph
    best = None
    for _ in range(_ROUNDS):
        times = graph.times(point, max(order.early, order.late))
        margin = order.margin(times, point)
        if best is not None and margin >= best.margin:
            break
        best = Reached(margin, point)
        if margin <= bound:
            break
        point = space.moved(point, weights(graph, order, times, point), factor)
    assert best is not None
    return best
