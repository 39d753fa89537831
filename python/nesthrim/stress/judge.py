"""The verdict for one spread: bounds for all orders, counterexamples for those that aren't above 0, and sharper bounds for what is left."""

from __future__ import annotations

from dataclasses import dataclass
from typing import Callable, Dict, FrozenSet, List, NamedTuple, Optional, Sequence, Set, Tuple

from .answer import OpenOrder
from .confirm import Fault, Runs
from .delays import Ranges, Spread
from .orders import Order, Place
from .refine import Closed, Deadline, Refiner
from .search import Reached, descend, weights
from .separation import separation
from .space import Space
from .timing import Timing
from .windows import FAR, Entry

Tell = Callable[[str], None]

# of how many classes of a place a counterexample is looked for, beside those that branch and bound looks at
_TRIED = 12


class Undecided(NamedTuple):
    """An order whose least margin is between two numbers, in finer units."""

    order: Order
    bound: float
    reached: Reached


@dataclass
class Verdict:
    """What is known of a spread: a fault, or the orders that aren't decided; there are none if it holds.

    `likely` has the units of delays that make the fault, as far as the graph tells.
    """

    fault: Optional[Fault]
    undecided: List[Undecided]
    likely: FrozenSet[int] = frozenset()

    @property
    def holds(self) -> bool:
        """Whether all orders hold."""
        return self.fault is None and not self.undecided


class Judge:
    """Decides whether all orders of a timing hold while delays vary by a spread. `each` takes each occurrence of a delay by itself.

    No more is done once `over`, and `tell` is told how far it is.
    """

    def __init__(self, timing: Timing, spread: Spread, runs: Runs, over: Deadline, tell: Tell, each: bool = False) -> None:
        self.timing, self.spread, self.runs, self.tell, self.each = timing, spread, runs, tell, each
        self.space = Space(timing, Ranges(timing.netlist, timing.delays, spread, timing.units))
        self.refiner, self.over = Refiner(self.space, over), over
        earliest = timing.graph.times(list(self.space.ends.low))
        self.entries = timing.windows.bounds(self.space.ends, earliest, timing.last(spread))
        # places whose orders were shown to hold though their windows' bounds didn't
        self.closed: Set[Place] = set()

    # ---- the verdict

    def decide(self) -> Verdict:
        """A fault that the program confirms, or what isn't decided."""
        weak = sorted((min(entry.margin for entry in entries), place) for place, entries in self.entries.items())
        differs: Optional[Verdict] = None
        reached: Dict[Place, Undecided] = {}
        for bound, place in weak:
            if bound > 0:
                break
            self.tell(f"looks for a fault at {place[0]} {place[1]}")
            found = self.try_class(min(self.entries[place], key=lambda entry: entry.margin))
            reached[place] = found
            fault = self.runs.fault(found.reached.point) if found.reached.margin <= 0 else None
            if fault is not None and (fault.lines or differs is None):
                differs = Verdict(fault, [], self._likely(found))
                if fault.lines:
                    return differs
        if differs is not None:
            return differs
        return self._close([place for bound, place in weak if bound <= 0], reached)

    def _likely(self, found: Undecided) -> FrozenSet[int]:
        """The units of the delays on both critical chains of an order where it was reached."""
        order, point = found.order, found.reached.point
        times = self.timing.graph.times(point, max(order.early, order.late))
        return frozenset(self.space.sums(weights(self.timing.graph, order, times, point)))

    def try_class(self, entry: Entry) -> Undecided:
        """The least margin that is found for a class."""
        order = self.timing.real(entry.members[0])
        bound = self.timing.real_margin(entry.members[0], entry.margin)
        return Undecided(order, bound, descend(self.space, order, entry.path, bound))

    def _close(self, places: Sequence[Place], reached: Dict[Place, Undecided]) -> Verdict:
        undecided = []
        for place in places:
            known = reached[place]
            if known.reached.margin <= 0:
                undecided.append(self._bounded(known))
                continue
            self.tell(f"decides {place[0]} {place[1]}")
            fault, left = self._close_place([entry for entry in self.entries[place] if entry.margin <= 0])
            if fault is not None:
                return Verdict(fault, [])
            undecided += left[:1]
            if not left:
                self.closed.add(place)
        return Verdict(None, undecided)

    def _bounded(self, found: Undecided) -> Undecided:
        """The same with the bound of a sweep over the whole run, if the window has none."""
        order = self.timing.in_corner(found.order)
        if found.bound > -FAR / 2:
            return found
        return found._replace(bound=self.timing.real_margin(order, separation(self.timing.graph, order, self.space.ends).margin))

    def _close_place(self, entries: Sequence[Entry]) -> Tuple[Optional[Fault], List[Undecided]]:
        """Decides the orders of a place that aren't yet: a fault, or those that are left, the weakest first."""
        left = entries if self.each else [entry for entry in entries if self.refiner.by_class(entry).bound <= 0]
        left = self.refiner.deepen(left, 0)
        undecided: List[Undecided] = []
        for number, entry in enumerate(sorted(left, key=lambda entry: entry.margin)):
            found = self.try_class(entry) if number < _TRIED or self.each else None
            if found is None or (found.reached.margin > 0 and not self.each):
                closed = self._branch(entry)
                if closed.bound > 0:
                    continue
                found = self._better(entry, closed, found)
            if found.reached.margin <= 0:
                fault = self.runs.fault(found.reached.point)
                if fault is not None:
                    return fault, []
            undecided.append(found)
        return None, sorted(undecided, key=lambda each: each.bound)

    def _branch(self, entry: Entry) -> Closed:
        order = entry.members[0]
        closed = self.refiner.by_order(order, 300)
        if closed.bound > 0 or (closed.reached is not None and closed.reached.margin <= 0):
            return closed
        return self.refiner.by_order(order, None) if len(self.timing.graph.time) < 3000 else closed

    def _better(self, entry: Entry, closed: Closed, found: Optional[Undecided]) -> Undecided:
        """What is known of an order after branch and bound."""
        order = entry.members[0]
        known = [each for each in (closed.reached, found.reached if found else None) if each is not None]
        best = min(known) if known else self.try_class(entry).reached
        return Undecided(self.timing.real(order), self.timing.real_margin(order, closed.bound), best)

    def bound_of(self, entry: Entry) -> float:
        """The bound of a class, in finer units."""
        return self.timing.real_margin(entry.members[0], entry.margin)

    # ---- what is open

    def open_orders(self, undecided: Sequence[Undecided]) -> List[OpenOrder]:
        """Orders that aren't decided, as they are told."""
        graph, units = self.timing.graph, self.timing.units
        found = []
        for order, bound, reached in undecided:
            early, late = ((graph.wire_of(event) or "", graph.time[event] / units) for event in (order.early, order.late))
            # (where both may come at once, the margin has one finer unit more)
            both = min(order.slack, 0)
            found.append(OpenOrder(order.name, order.rule, early, late, (reached.margin + both) / units, (min(bound, reached.margin) + both) / units))
        return found
