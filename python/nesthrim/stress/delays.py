"""The delays that vary, and between which ends each does.

A delay varies if it is that of an output that drives a wire, or that of an input and above 0. A range is two changes in per cent, as -10 and 10.
Delays that stand together in a group have one factor; a corner is a factor of all delays, as that of a slow or a fast die.
"""

from __future__ import annotations

import math
from dataclasses import dataclass
from typing import TYPE_CHECKING, Dict, Iterable, List, Mapping, Optional, Sequence, Tuple

from ..names import find

if TYPE_CHECKING:
    from ..netlist import Netlist

Change = Tuple[float, float]

# (a product of per cents isn't exact in binary)
_TINY = 1e-9

# the first words of an edit that sets a delay of an output, and of an input
_OUTPUT, _INPUT = "delay", "indelay"


@dataclass(frozen=True)
class Delay:
    """A delay that varies: of a module's port, `nominal` units of the netlist as it stands."""

    module: str
    port: int
    is_input: bool
    nominal: int

    @property
    def words(self) -> str:
        """The edit that sets it, without its value."""
        return f"{_INPUT if self.is_input else _OUTPUT} {self.module} {self.port}"

    def __str__(self) -> str:
        return f"{self.module}/in {self.nominal}" if self.is_input else f"{self.module} {self.nominal}"


def delays_of(netlist: Netlist) -> List[Delay]:
    """The delays of a netlist that vary, module by module: its outputs that drive a wire, and its inputs that see their wire later."""
    found = []
    for module in netlist.known_modules.values():
        found += [Delay(module.name, port, False, delay) for port, (wire, delay) in enumerate(module.outputs) if wire]
        found += [Delay(module.name, port, True, delay) for port, (_, delay) in enumerate(module.inputs) if delay]
    return found


@dataclass(frozen=True)
class Spread:
    """How delays vary: all by `percent` to both sides, but those that `ranges` names by their module, their kind or the words of their edit.

    Each of the groups `together` has one factor. `corner` has the ends, in per cent, of a factor of all delays.
    """

    percent: float = 10
    ranges: Mapping[str, Change] = None  # type: ignore[assignment]
    together: Sequence[Sequence[str]] = ()
    corner: Tuple[float, float] = (100, 100)

    def __post_init__(self) -> None:
        object.__setattr__(self, "ranges", dict(self.ranges or {}))
        object.__setattr__(self, "together", tuple(tuple(group) for group in self.together))
        for low, high in ((-self.percent, self.percent), *self.ranges.values()):
            if not -100 < low <= 0 <= high:
                raise ValueError(f"a delay can't vary from {low} to {high} %: the low end is above -100 and at most 0, the high end 0 or more")
        if not 0 < self.corner[0] <= 100 <= self.corner[1]:
            raise ValueError(f"a corner of {self.corner[0]} to {self.corner[1]} % has not 100 % in it")

    def at(self, percent: float) -> Spread:
        """The same with another change of the delays that have no range of their own."""
        return Spread(percent, self.ranges, self.together, self.corner)

    @property
    def slowest(self) -> float:
        """The greatest part of its nominal value that a delay can have."""
        return max(1 + high / 100 for _, high in self._changes()) * self.corner[1] / 100

    @property
    def fastest(self) -> float:
        """The least part of its nominal value that a delay can have."""
        return min(1 + low / 100 for low, _ in self._changes()) * self.corner[0] / 100

    def _changes(self) -> Iterable[Change]:
        return [(-self.percent, self.percent), *self.ranges.values()]

    def change_of(self, delay: Delay, kind: str) -> Change:
        """The ends between which a delay varies, by the range of its port, its module, its kind, or of all."""
        for name in (delay.words, delay.module, kind):
            if name in self.ranges:
                return self.ranges[name]
        return -self.percent, self.percent


@dataclass(frozen=True)
class Factor:
    """A number by which the nominal values of some delays, by their places, are multiplied: from 1 + `low` to 1 + `high`."""

    places: Tuple[int, ...]
    low: float
    high: float


class Ranges:
    """The ends of delays of a netlist in finer units, `units` for one, and which of them have a factor in common.

    `low` and `high` have the ends by the places of the delays, rounded inwards, so that a whole number between them is really in the range.
    A corner isn't in them.
    """

    def __init__(self, netlist: Netlist, delays: Sequence[Delay], spread: Spread, units: int) -> None:
        kinds = {module.name: module.kind for module in netlist.known_modules.values()}
        _want_known(netlist, delays, spread)
        changes = [spread.change_of(delay, kinds[delay.module]) for delay in delays]
        self.low = [_low_end(delay, units, low) for delay, (low, _) in zip(delays, changes)]
        self.high = [math.floor(delay.nominal * units * (100 + high) / 100 + _TINY) for delay, (_, high) in zip(delays, changes)]
        self.groups = [_factor(group, delays, changes) for group in spread.together]
        if len({place for group in self.groups for place in group.places}) != sum(len(group.places) for group in self.groups):
            raise ValueError("a delay is in at most one group")


def _low_end(delay: Delay, units: int, change: float) -> int:
    return max(0 if delay.is_input else 1, math.ceil(delay.nominal * units * (100 + change) / 100 - _TINY))


def _want_known(netlist: Netlist, delays: Sequence[Delay], spread: Spread) -> None:
    """`UnknownName` if a range or a group names no module; a range may name a kind."""
    kinds = {module.kind for module in netlist.known_modules.values()}
    words = {delay.words for delay in delays}
    for name in [*spread.ranges, *(name for group in spread.together for name in group)]:
        if name not in words and name not in kinds:
            find(netlist.known_modules, name, "module")


def _factor(group: Sequence[str], delays: Sequence[Delay], changes: Sequence[Change]) -> Factor:
    places = tuple(place for place, delay in enumerate(delays) if delay.module in group or delay.words in group)
    ends = {changes[place] for place in places}
    if len(ends) > 1:
        raise ValueError(f"delays that vary together have one range, and those of {' '.join(group)} have several")
    low, high = ends.pop() if ends else (0.0, 0.0)
    return Factor(places, low / 100, high / 100)


def read_groups(text: str) -> List[List[str]]:
    """Groups of a text: a line has the names of the modules of a group; `#` begins a comment."""
    lines = (line.split("#")[0].split() for line in text.splitlines())
    return [words for words in lines if words]


def by_words(delays: Sequence[Delay]) -> Dict[str, int]:
    """The places of delays by the words of the edit that sets them."""
    return {delay.words: place for place, delay in enumerate(delays)}


def percent_of(value: int, nominal: int) -> Optional[float]:
    """By how many per cent a value differs from a nominal one; `None` if that is 0."""
    return 100 * (value - nominal) / nominal if nominal else None
