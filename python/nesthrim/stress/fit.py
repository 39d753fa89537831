"""Sizing: matched delays are lengthened until each bundle holds.

A matched delay is a BUF that drives the request of a bundle. What a bundle lacks at its worst is added to it, divided by the part of it that is
left at its low end, and the question is asked again, since a later request moves what follows. At the end each delay is taken back as far as all
still holds.
"""

from __future__ import annotations

import math
from dataclasses import dataclass
from typing import TYPE_CHECKING, Dict, List, Optional, Set, Tuple

from ..answers.table import Row, row_of
from .answer import Stress, number
from .ask import Question
from .judge import Tell
from .delays import Spread

if TYPE_CHECKING:
    from ..netlist import Netlist

# how often delays are lengthened, and of how many it is tried to take them back
_ROUNDS, _TAKEN_BACK = 40, 16


@dataclass(frozen=True)
class Fitted:
    """A matched delay that was lengthened, in units of the netlist."""

    module: str
    before: int
    after: int

    def __str__(self) -> str:
        return f"delay {self.module} 0 {self.after}  # of {self.before}"


@dataclass(frozen=True)
class Fit:
    """A netlist that was sized for a spread.

    `stress` is the answer for `netlist`: it holds, unless something else than a bundle's margin doesn't, or a request isn't driven by a BUF.
    `period` and `period_before` are the mean gap of the slowest request in the second half of the run, or in all of it if none comes twice there;
    `None` if none does.
    """

    netlist: Netlist
    changes: Tuple[Fitted, ...]
    stress: Stress
    period_before: Optional[float]
    period: Optional[float]

    @property
    def holds(self) -> bool:
        """Whether the sized netlist holds."""
        return self.stress.holds

    @property
    def edits(self) -> List[str]:
        """The edits that size the netlist."""
        return [f"delay {each.module} 0 {each.after}" for each in self.changes]

    def __str__(self) -> str:
        lines = [*map(str, self.changes), *self.stress.lines]
        if self.period is not None and self.period_before is not None:
            lines.append(f"period {number(self.period)} for {number(self.period_before)}")
        return "".join(f"{line}\n" for line in lines)

    def __repr__(self) -> str:
        return f"<fit: {len(self.changes)} delays lengthened, {self.stress.verdict}>"

    def rows(self) -> List[Row]:
        """A row for each delay that was lengthened: `module`, `before`, `after`."""
        return [row_of(each) for each in self.changes]


class _Sizing:
    def __init__(self, netlist: Netlist, spread: Spread, seconds: float, tell: Tell) -> None:
        self.first, self.spread, self.seconds, self.tell = netlist, spread, seconds, tell
        self.delays: Dict[str, int] = {}

    def netlist(self) -> Netlist:
        """The netlist with the delays so far."""
        netlist = self.first.copy()
        for name, delay in self.delays.items():
            netlist.module(name).delay = delay
        return netlist

    def ask(self) -> Stress:
        """The answer with the delays so far."""
        return Question(self.netlist(), self.spread, seconds=self.seconds, tell=self.tell).at(self.spread.percent)

    def match_of(self, bundle: str) -> Optional[str]:
        """The BUF that drives the request of a bundle."""
        request = self.first.known_bundles[bundle].req
        modules = self.first.known_modules.values()
        return next((module.name for module in modules if module.kind == "BUF" and module.outputs[0][0] == request), None)

    def delay_of(self, name: str) -> int:
        """The delay of a BUF so far."""
        return self.delays.get(name, self.first.known_modules[name].outputs[0][1])

    def size(self) -> Stress:
        """Lengthens delays until the answer holds, or nothing more can be done."""
        for _ in range(_ROUNDS):
            answer = self.ask()
            lacks = self._lacks(answer)
            if not lacks:
                return answer
            for name, units in lacks.items():
                self.delays[name] = self.delay_of(name) + units
        return self.ask()

    def _lacks(self, answer: Stress) -> Dict[str, int]:
        """By how much each matched delay has to be longer, as far as the answer tells."""
        lacks: Dict[str, int] = {}
        for bundle, units in self._short(answer).items():
            name = self.match_of(bundle)
            if name is not None:
                lacks[name] = max(lacks.get(name, 0), units)
        return lacks

    def _short(self, answer: Stress) -> Dict[str, int]:
        if answer.verdict == "broken":
            return {name: 1 for name in _named(answer.check) if name in self.first.known_bundles}
        left = self.spread.fastest
        return {
            each.name: max(1, math.ceil(-each.bound / left + 0.001))
            for each in answer.bundles
            if each.bound is not None and each.bound <= 0 and not answer.holds
        }

    def take_back(self, answer: Stress) -> Stress:
        """Takes lengthened delays back, unit by unit, as long as it holds; the answer for what is left."""
        for name in list(self.delays)[:_TAKEN_BACK]:
            while answer.holds and self.delays[name] > self.first.known_modules[name].outputs[0][1]:
                self.delays[name] -= 1
                less = self.ask()
                if not less.holds:
                    self.delays[name] += 1
                    break
                answer = less
        return answer


def _named(check: str) -> Set[str]:
    """The bundles that lines of `check` name."""
    lines = (line.split() for line in check.splitlines())
    return {words[2] for words in lines if words[1:2] == ["bundle"]}


def period_of(netlist: Netlist) -> Optional[float]:
    """The mean gap of the slowest request in the second half of the run."""
    for start in (netlist.horizon // 2, 0):
        measure = netlist.measure(start)
        periods = [measure.wire(bundle.req).period for bundle in netlist.known_bundles.values()]
        known = [period for period in periods if period is not None]
        if known:
            return max(known)
    return None


def fit(netlist: Netlist, spread: Spread, seconds: float, tell: Tell) -> Fit:
    """Lengthens the matched delays of a netlist until its bundles hold at a spread."""
    sizing = _Sizing(netlist, spread, seconds, tell)
    answer = sizing.take_back(sizing.size())
    changes = tuple(Fitted(name, netlist.known_modules[name].outputs[0][1], delay) for name, delay in sizing.delays.items())
    made = sizing.netlist()
    return Fit(made, tuple(each for each in changes if each.after != each.before), answer, period_of(netlist), period_of(made))
