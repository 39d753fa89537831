"""Bounds for all orders of a run, each local structure once.

Orders whose events have the same causes at the same nominal distances some steps back are a class, and are bounded once, in a window: the events
so many steps behind them. What is cut off and leads to the late event is bounded by that. Races, in which data have to come before a request or a
capture, are taken in the order of time, and the bound of each is a lemma for those behind it: the data that an earlier race bounds aren't followed
further back. Data never lead to control, and would go back to the source.
"""

from __future__ import annotations

from typing import Dict, Hashable, List, NamedTuple, Optional, Sequence, Tuple

from .graph import Cause, Graph
from .orders import Order, Place
from .separation import Bound, Ends, beside_of, path_of, separation

# how many steps back a window goes: first a short one, which is enough for most orders, then a long one; and how far back a lemma is looked for
SHORT, LONG, _BEHIND = 4, 8, 4

RACES = ("setup", "data-after-capture")

# the bound of what a window doesn't bound
FAR = 1 << 60

# what a lemma says of an event: it is at most so much later than another one
Lemma = Tuple[int, float]
Lemmas = Dict[int, List[Lemma]]


class Entry(NamedTuple):
    """A class of orders with the bound of its margin."""

    margin: float
    path: Tuple[int, ...]
    members: Sequence[Order]


class Sweep(NamedTuple):
    """What the sweep of a window gives: by how much the early event can be later than the late one; the longest ways from events to the late one;
    the next event of such a way; and the cause that makes the bound of an event, each with the place of the input's delay."""

    later: float
    to_late: Dict[int, float]
    effect: Dict[int, Cause]
    back: Dict[int, Cause]


class Structures:
    """Numbers that tell how events came about: two events have the same if their causes, so many steps back, are alike."""

    def __init__(self, graph: Graph) -> None:
        time, causes = graph.time, graph.causes
        kinds: Dict[Hashable, int] = {}
        own = []
        for event, before in enumerate(causes):
            # (what begins at an absolute time is like nothing else)
            key: Hashable = -event
            if not graph.root[event]:
                key = (graph.wire[event], graph.lane[event], *[(time[event] - time[cause], place) for cause, place in before])
            own.append(kinds.setdefault(key, len(kinds)))
        self.short = self.long = own
        for step in range(1, LONG + 1):
            self.long = _next(graph, own, self.long)
            if step == SHORT:
                self.short = self.long


def _next(graph: Graph, own: Sequence[int], before: Sequence[int]) -> List[int]:
    """The numbers one step further back."""
    numbers: Dict[int, int] = {}
    found, base = [], len(own) + 1
    for number, root, causes in zip(own, graph.root, graph.causes):
        # (a number for each row of numbers below the base)
        if not root:
            for cause, _ in causes:
                number = number * base + before[cause] + 1
        found.append(numbers.setdefault(number, len(numbers)))
    return found


class Windows:
    """The classes of the orders of a graph, and their bounds for given ends."""

    def __init__(self, graph: Graph, orders: Sequence[Order]) -> None:
        self.graph = graph
        self._numbers = Structures(graph)
        self._races = sorted((order for order in orders if order.rule in RACES), key=lambda order: (order.early, order.late))
        self._classes: Dict[Hashable, List[Order]] = {}
        for order in orders:
            if order.rule not in RACES:
                self._classes.setdefault(self._key(order, self._numbers.short), []).append(order)
        for members in self._classes.values():
            members.sort(key=lambda order: max(order.early, order.late))
        self._lemmas: Lemmas = {}
        self._lemma_orders: Dict[Tuple[int, int], Order] = {}
        self._paths: Dict[int, Tuple[int, ...]] = {}

    def _key(self, order: Order, numbers: Sequence[int]) -> Tuple[Hashable, ...]:
        time = self.graph.time
        apart = time[order.late] - time[order.early]
        return order.name, order.rule, numbers[order.early], numbers[order.late], apart, order.early_place, order.late_place

    def structure(self, order: Order) -> Hashable:
        """What is the same for two orders whose events came about in the same way."""
        return self._key(order, self._numbers.long)

    def bounds(self, ends: Ends, earliest: Sequence[float], last: int) -> Dict[Place, List[Entry]]:
        """The classes of each place and rule with their bounds, of orders whose early event is nominally before `last`.

        `earliest` has the least time of each event.
        """
        self._ends, self._earliest = ends, earliest
        self._latest = self._latest_roots(ends.high)
        found: Dict[Place, List[Entry]] = {}
        self._bound_races(found, last)
        nothing: Lemmas = {}
        for members in self._classes.values():
            chosen = [order for order in members if self.graph.time[order.early] < last]
            if chosen:
                self._bound_class(found, chosen, nothing)
        return found

    def bound_in(self, order: Order, ends: Ends) -> Bound:
        """The bound of an order in its long window for narrower ends than those of `bounds`."""
        lemmas = self._behind(order.early)[0] if order.rule in RACES else {}
        sweep = self._sweep(order, LONG, lemmas, ends)
        path, event = path_of(self.graph, order, sweep.back)
        return Bound(self._margin(order, sweep.later, ends), path + self._paths.get(event, ()), beside_of(self.graph, order, sweep.effect, event))

    def _margin(self, order: Order, later: float, ends: Ends) -> float:
        return -(later + ends.high[order.early_place] - ends.low[order.late_place] + order.slack)

    def _latest_roots(self, high: Sequence[float]) -> Dict[int, float]:
        """The greatest times of the origin and of the events of stimuli."""
        latest: Dict[int, float] = {0: 0}
        for event, root in enumerate(self.graph.root):
            if root and event:
                latest[event] = latest[self.graph.causes[event][0][0]] + high[self.graph.delay[event]]
        return latest

    def _bound_class(self, found: Dict[Place, List[Entry]], members: Sequence[Order], nothing: Lemmas) -> None:
        place = members[0].place
        margin, path, _ = self._window(members[0], SHORT, nothing, self._ends)
        if margin > 0:
            found.setdefault(place, []).append(Entry(margin, path, members))
            return
        longer: Dict[Hashable, List[Order]] = {}
        for order in members:
            longer.setdefault(self._key(order, self._numbers.long), []).append(order)
        for those in longer.values():
            margin, path, _ = self._window(those[0], LONG, nothing, self._ends)
            found.setdefault(place, []).append(Entry(margin, path, those))

    def _bound_races(self, found: Dict[Place, List[Entry]], last: int) -> None:
        self._lemmas, self._lemma_orders, self._paths = {}, {}, {}
        known: Dict[Hashable, Tuple[float, Tuple[int, ...], List[Order]]] = {}
        low, high = self._ends
        for order in self._races:
            if self.graph.time[order.early] >= last:
                continue
            near, behind = self._behind(order.early)
            key = (*self._key(order, self._numbers.long), behind)
            if key not in known:
                margin, path, met = self._window(order, LONG, near, self._ends)
                known[key] = margin, path + self._paths.get(met, ()), []
            margin, path, members = known[key]
            members.append(order)
            later = -margin - order.slack - high[order.early_place] + low[order.late_place]
            self._lemmas.setdefault(order.early, []).append((order.late, later))
            self._lemma_orders[order.early, order.late] = order
            self._paths.setdefault(order.early, path)
        for margin, path, members in known.values():
            found.setdefault(members[0].place, []).append(Entry(margin, path, members))

    def _behind(self, event: int) -> Tuple[Lemmas, Hashable]:
        """The lemmas that the window of a race may use, those of the data behind its early event, and what they are, as a part of the class's key."""
        graph, time = self.graph, self.graph.time
        near: Lemmas = {}
        key: List[Hashable] = []
        queue = [(cause, 1) for cause, _ in graph.causes[event]]
        for cause, steps in queue:
            if steps >= 2 and cause in self._lemmas:
                near[cause] = self._lemmas[cause]
                known = [(later, time[other] - time[cause], graph.wire[other]) for other, later in near[cause]]
                key.append((steps, time[event] - time[cause], graph.wire[cause], *known))
            elif steps < _BEHIND:
                queue += [(before, steps + 1) for before, _ in graph.causes[cause]]
        return near, tuple(key)

    def _window(self, order: Order, depth: int, lemmas: Lemmas, ends: Ends) -> Tuple[float, Tuple[int, ...], int]:
        """The bound of a margin, its path, and the event at which the path meets a lemma, or -1."""
        latest, _, _, back = self._sweep(order, depth, lemmas, ends)
        if latest > FAR // 2 and order.rule in RACES:
            bound = separation(self.graph, order, ends)
            return bound.margin, bound.path, -1
        path, event = path_of(self.graph, order, back)
        return self._margin(order, latest, ends), path, event if event in lemmas else -1

    def _sweep(self, order: Order, depth: int, lemmas: Lemmas, ends: Ends) -> Sweep:
        """The sweep of an order's window."""
        causes, delay, (low, high) = self.graph.causes, self.graph.delay, ends
        inside, edge = self._inside(order, depth, lemmas)
        to_late: Dict[int, float] = {order.late: 0}
        effect: Dict[int, Cause] = {}
        for event in inside:
            longest = to_late.get(event)
            if longest is not None:
                longest += low[delay[event]]
                for cause, place in causes[event]:
                    length = longest + low[place]
                    if length > to_late.get(cause, -1):
                        to_late[cause] = length
                        effect[cause] = event, place
        latest = {event: self._at_edge(event, order, to_late, lemmas) for event in edge}
        back: Dict[int, Cause] = {}
        for event in reversed(inside):
            best, chosen = float(-FAR), (0, 0)
            for cause, place in causes[event]:
                time = latest[cause] + high[place]
                if time > best:
                    best, chosen = time, (cause, place)
            best += high[delay[event]]
            bounded = to_late.get(event)
            if bounded is not None and -bounded <= best:
                best = -bounded
            else:
                back[event] = chosen
            latest[event] = best
        return Sweep(latest[order.early], to_late, effect, back)

    def race(self, order: Order) -> Optional[Tuple[List[int], List[int], int]]:
        """The events behind both events of a race that make its bound, the later ones first, and the last event that both have; `None` if that
        isn't in a window."""
        early: List[int] = []
        late: List[int] = []
        while True:
            near, event = self._behind(order.early)[0], order.early
            _, to_late, effect, back = self._sweep(order, LONG, near, self._ends)
            while event in back:
                early.append(event)
                event = back[event][0]
            if event in to_late:
                return early, late + _way(effect, event, order.late), event
            known = [(later - to_late[other], other) for other, later in near.get(event, ()) if other in to_late]
            if not known or self.graph.root[event]:
                return None
            # (from here on the ways are those of the race that bounds the event)
            late += _way(effect, min(known)[1], order.late)
            order = self._lemma_orders[event, min(known)[1]]

    def _inside(self, order: Order, depth: int, lemmas: Lemmas) -> Tuple[List[int], List[int]]:
        """The events of a window, the later ones first, and those at its edge."""
        root, causes = self.graph.root, self.graph.causes
        level = {order.late: 0, order.early: 0}
        queue, inside, edge = [order.late, order.early], [], []
        if order.late == order.early:
            queue.pop()
        for event in queue:
            steps = level[event]
            if steps == depth or root[event] or (steps >= 2 and event in lemmas):
                edge.append(event)
                continue
            inside.append(event)
            for cause, _ in causes[event]:
                if cause not in level:
                    level[cause] = steps + 1
                    queue.append(cause)
        inside.sort(reverse=True)
        return inside, edge

    def _at_edge(self, event: int, order: Order, to_late: Dict[int, float], lemmas: Lemmas) -> float:
        """By how much an event at the edge of a window can be later than the late one."""
        latest = -to_late[event] if event in to_late else float(FAR)
        if self.graph.root[event]:
            latest = min(latest, self._latest[event] - self._earliest[order.late])
        for other, later in lemmas.get(event, ()):
            if other in to_late:
                latest = min(latest, later - to_late[other])
        return latest


def _way(effect: Dict[int, Cause], event: int, last: int) -> List[int]:
    """The events on the longest way from an event, which isn't in it, to the last one, the later ones first."""
    way = []
    while event != last:
        event = effect[event][0]
        way.append(event)
    return way[::-1]
