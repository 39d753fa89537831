"""A netlist's run as a graph with its orders, ready for questions about ranges of delays."""

from __future__ import annotations

import math
from typing import TYPE_CHECKING, Dict, List, Sequence, Tuple

from ..session import Session
from .delays import Delay, Ranges, Spread, delays_of
from .graph import NONE, Graph, Unfoldable
from .orders import Order, Orders
from .registers import Phases
from .scale import Scale, scale_for, scaled_text
from .separation import Ends
from .settling import Settles, Settling, settling_wires
from .unfold import Changes, Run, graph_of
from .windows import Windows

if TYPE_CHECKING:
    from ..answers.report import Check
    from ..netlist import Netlist


class Timing:
    """The nominal run of a netlist in finer units, up to the time that the events before `until` need at any spread up to `widest`.

    `check` is what the program says of the run. `graph`, `orders` and `windows` are there once `unfold` was called, which raises `Unfoldable`.
    """

    def __init__(self, netlist: Netlist, widest: Spread, until: int) -> None:
        self.netlist, self.delays = netlist, delays_of(netlist)
        self.scale: Scale = scale_for(netlist, widest, until)
        self.horizon = self.scale.horizon(widest)
        self.corner = widest.corner
        self.places: Dict[Tuple[str, int, bool], int] = {}
        for place, delay in enumerate(self.delays, 1):
            self.places[delay.module, delay.port, delay.is_input] = place
        self.nominal = [0, *(delay.nominal * self.scale.units for delay in self.delays)]
        self.setups = {bundle.name: bundle.setup * self.scale.units for bundle in netlist.known_bundles.values()}
        with Session(self.text(self.horizon), netlist.program) as session:
            self.check: Check = session.check()
            self._waves = session.waves() if self.check.ok else None
        # how many changes the run has
        self.changes = str(self._waves).count("=") if self._waves is not None else 0

    @property
    def units(self) -> int:
        """How many finer units one of the netlist is."""
        return self.scale.units

    def text(self, horizon: int) -> str:
        """The netlist's text in finer units."""
        return scaled_text(self.netlist, self.units, horizon)

    def unfold(self) -> None:
        """Makes the graph, its orders and their classes. `Unfoldable` if there is no graph."""
        assert self._waves is not None
        self._build(Run(self.netlist, self._waves, self.places, self.units))
        self._waves = None

    def _build(self, run: Run) -> None:
        changes, soft = Changes(run), settling_wires(run)
        self.settling = soft
        run.number(soft)
        driven = {wire: (module, port, delay) for module, port, wire, delay in run.outputs()}
        for name, times in run.times.items():
            made = driven.get(name)
            if name in soft:
                continue
            if made is None:
                changes.fill(name, times, None, NONE)
            else:
                changes.fill(name, times, run.causes_at(made[0], made[1], name, made[2]), run.place(made[0], made[1]))
        settles = Settling(run, changes, soft, self.horizon).settles if soft else []
        numbers = changes.order()
        self.graph: Graph = graph_of(changes, numbers, self.nominal)
        self.nominal = self.graph.nominal
        shown = all(set(run.times[name]) <= set(self.graph.times_of(name)) for name in soft)
        if not shown or self.graph.times(self.nominal) != self.graph.time:
            raise Unfoldable("run", "isn't what its causes make")
        registers = [module for module in self.netlist.known_modules.values() if module.kind == "REG"]
        self.orders = self._orders({module.name: run.phases(module).renumbered(numbers) for module in registers}, settles, numbers)
        self.windows = Windows(self.graph, [self.in_corner(order) for order in self.orders])

    def _orders(self, phases: Dict[str, Phases], settles: Sequence[Settles], numbers: Sequence[int]) -> List[Order]:
        found = Orders(self.graph, self.places, self.units, phases)
        for module in self.netlist.known_modules.values():
            found.of_module(module)
        for bundle in self.netlist.known_bundles.values():
            found.of_bundle(bundle, self.setups[bundle.name])
        for each in settles:
            early, late = (numbers[each.early[0]], each.early[1]), (numbers[each.late[0]], each.late[1])
            found.found.append(Order(each.register, "data-after-opening", early[0], late[0], -1, early[1], late[1]))
        return found.found

    # ---- a corner: all delays have one more factor. Divided by it, setups and stimuli have it instead, and the rest is as without it

    def in_corner(self, order: Order) -> Order:
        """The order in times that are divided by the corner's factor: a setup is longest in the fastest corner."""
        if order.rule != "setup" or self.corner == (100, 100):
            return order
        return order._replace(slack=math.ceil(order.slack * 100 / self.corner[0]))

    def real(self, order: Order) -> Order:
        """An order of `in_corner` in times as they are."""
        return order._replace(slack=self.setups[order.name]) if order.rule == "setup" else order

    def real_margin(self, order: Order, margin: float) -> float:
        """The least margin, in finer units, that a bound of `in_corner` stands for."""
        apart = margin + order.slack
        slack = self.real(order).slack
        return min(apart * factor / 100 - slack for factor in self.corner)

    def ends(self, ranges: Ranges) -> Ends:
        """The ends of all delays by place: those that vary, and the gaps of stimuli."""
        gaps = self.nominal[len(self.delays) + 1 :]
        fast, slow = self.corner
        low = [0, *ranges.low, *(math.floor(gap * 100 / slow) for gap in gaps)]
        return Ends(low, [0, *ranges.high, *(math.ceil(gap * 100 / fast) for gap in gaps)])

    def last(self, spread: Spread) -> int:
        """The nominal time before which the early event of an order is that matters at a spread."""
        return min(self.horizon, self.scale.horizon(spread))

    def delay_at(self, place: int) -> Delay:
        """The delay of a place that varies."""
        return self.delays[place - 1]

    def place_of(self, module: str, port: int, is_input: bool) -> int:
        """The place of a port's delay; `NONE` if it doesn't vary."""
        return self.places.get((module, port, is_input), NONE)

