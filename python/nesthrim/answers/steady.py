"""Whether a netlist repeats for ever, and what sets its pace."""

from __future__ import annotations

import re
from dataclasses import dataclass
from fractions import Fraction
from typing import Dict, List, Mapping, Optional, Tuple

from ..errors import AnswerError
from .causes import PathPart
from .reading import NAME, match
from .table import Row

_REPEATS = re.compile(r"(control )?repeats from (\d+) every (\d+)")
_OVER = re.compile(r"(?:nothing changes|(control) stands still) after (\d+)")
_NONE = re.compile(r"doesn't repeat before (\d+): (?:stimuli until (\d+), )?no period of up to (\d+)")
_WIRE = re.compile(rf"wire ({NAME}) (\d+)")
_CYCLE = re.compile(rf"cycle (\d+) from ({NAME}) (\d+)")
_MODULE = re.compile(rf"module ({NAME}) (\d+) (\d+)")


@dataclass(frozen=True)
class Cycle:
    """The critical cycle: the causes that lead from a change to the same change of an earlier period.

    - `length`: its units, a multiple of the period;
    - `wire`, `time`: a change of it, from which `why` goes through its steps;
    - `modules`: its modules, those with the most units first.
    """

    length: int
    wire: str
    time: int
    modules: Tuple[PathPart, ...]

    def __str__(self) -> str:
        return "\n".join([f"cycle {self.length} from {self.wire} {self.time}", *(f"module {part}" for part in self.modules)])


@dataclass(frozen=True)
class Steady:
    """Whether a netlist repeats for ever.

    - `repeats`: whether a period was found;
    - `control`: whether it is one of the control alone, which the data don't share;
    - `period`, `start`: the period, and the time from which on it repeats, in units;
    - `events`: how often each wire changes in a period, by its name;
    - `cycle`: the critical cycle.

    Where nothing repeats, `control`, `period`, `start`, `events` and `cycle` are `None`, and `reason` is the line that says why; else `reason` is
    `None`.
    """

    repeats: bool
    control: Optional[bool] = None
    period: Optional[int] = None
    start: Optional[int] = None
    events: Optional[Mapping[str, int]] = None
    cycle: Optional[Cycle] = None
    reason: Optional[str] = None

    def pace(self, wire: str) -> Optional[Fraction]:
        """How many changes a wire has in a unit, exactly; `None` where nothing repeats. 0 for a wire that doesn't change in a period, and for a name that
        no line has."""
        if self.period is None or self.events is None:
            return None
        return Fraction(self.events.get(wire, 0), self.period)

    def rows(self) -> List[Row]:
        """A row for each wire that changes in a period: `wire`, `events` and `period`. No row where nothing repeats."""
        return [{"wire": name, "events": count, "period": self.period} for name, count in (self.events or {}).items()]

    def __str__(self) -> str:
        if self.reason is not None:
            return f"{self.reason}\n"
        first = f"{'control ' if self.control else ''}repeats from {self.start} every {self.period}"
        wires = [f"wire {name} {count}" for name, count in (self.events or {}).items()]
        return "".join(f"{line}\n" for line in [first, *wires, *([] if self.cycle is None else [self.cycle])])


def _read_cycle(lines: List[str], question: str) -> Optional[Cycle]:
    if not lines:
        return None
    length, wire, time = match(_CYCLE, lines[0], question).groups()
    parts = [match(_MODULE, line, question).groups() for line in lines[1:]]
    return Cycle(int(length), wire, int(time), tuple(PathPart(name, int(units), int(steps)) for name, units, steps in parts))


def read_steady(text: str, question: str) -> Steady:
    """The answer to `steady`."""
    first, *lines = text.splitlines() or [""]
    found = _REPEATS.fullmatch(first)
    if found is None:
        if lines or not (_OVER.fullmatch(first) or _NONE.fullmatch(first)):
            raise AnswerError(question, text)
        return Steady(False, reason=first)
    events: Dict[str, int] = {}
    while lines and lines[0].startswith("wire "):
        name, count = match(_WIRE, lines.pop(0), question).groups()
        events[name] = int(count)
    control, start, period = found.groups()
    return Steady(True, control is not None, int(period), int(start), events, _read_cycle(lines, question))
