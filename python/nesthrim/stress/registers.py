"""When a register is open, and which change of its data belongs to which opening.

A register is open while its capture and its pass have equal levels, so each of their events opens or closes it. In a run without findings they take
turns, so between two captures there is one opening.
"""

from __future__ import annotations

from bisect import bisect_right
from dataclasses import dataclass
from typing import List, NamedTuple, Optional, Sequence, Tuple


class Phase(NamedTuple):
    """The register opens or closes: the time, the event that does it, the place of the input's delay, and the input, 1 or 2."""

    time: int
    event: int
    place: int
    port: int


class Window(NamedTuple):
    """Where a change of data falls: between two captures, `closed` and `closes`, with the opening between them, if there are such."""

    closed: Optional[Phase]
    opens: Optional[Phase]
    closes: Optional[Phase]


@dataclass
class Phases:
    """The phases of a register by time. `open_first` says whether it is open before the first one."""

    open_first: bool
    phases: List[Phase]

    def __post_init__(self) -> None:
        self._times = [phase.time for phase in self.phases]

    def _at(self, number: int) -> Optional[Phase]:
        return self.phases[number] if 0 <= number < len(self.phases) else None

    def opens(self, number: int) -> bool:
        """Whether a phase opens the register."""
        return (number % 2 == 1) == self.open_first

    def window(self, time: int) -> Tuple[int, Window]:
        """The window of a change that reaches the register's data at a time, with a number that no other window has."""
        last = bisect_right(self._times, time) - 1
        opening = last if self.opens(last) else last + 1
        return opening, Window(self._at(opening - 1), self._at(opening), self._at(opening + 1))

    def renumbered(self, numbers: Sequence[int]) -> Phases:
        """The same with other numbers of events."""
        return Phases(self.open_first, [phase._replace(event=numbers[phase.event]) for phase in self.phases])
