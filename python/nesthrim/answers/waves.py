"""The waves of a netlist's wires."""

from __future__ import annotations

import re
from bisect import bisect_right
from dataclasses import dataclass, field
from typing import Iterator, List, Mapping, Tuple

from ..errors import AnswerError
from ..names import find
from .drawing import drawn
from .reading import NAME, match
from .table import Row

_LINE = re.compile(rf"({NAME}) (\d+)((?: \d+=\d+)*)")


@dataclass(frozen=True)
class Wave:
    """The levels of a wire over time.

    `initial` is its level at time 0. `changes` are the times at which it changes, rising, each with the level from then on.
    """

    name: str
    initial: int
    changes: Tuple[Tuple[int, int], ...]
    _times: List[int] = field(init=False, repr=False, compare=False, hash=False)

    def __post_init__(self) -> None:
        object.__setattr__(self, "_times", [time for time, _ in self.changes])

    @property
    def times(self) -> Tuple[int, ...]:
        """The times of the changes."""
        return tuple(self._times)

    def level(self, time: int) -> int:
        """The level at a time; after the last change it is that of the last change."""
        if time < 0:
            raise ValueError(f"times begin at 0, and {time} is before")
        at = bisect_right(self._times, time)
        return self.changes[at - 1][1] if at else self.initial

    def rows(self) -> List[Row]:
        """A row for the level at time 0 and one for each change: `wire`, `time`, `level`."""
        return [{"wire": self.name, "time": time, "level": level} for time, level in ((0, self.initial), *self.changes)]

    def _repr_svg_(self) -> str:
        return drawn([(self.name, self.initial, self.changes)])

    def __str__(self) -> str:
        return " ".join([self.name, str(self.initial), *(f"{time}={level}" for time, level in self.changes)])


class Waves(Mapping[str, Wave]):
    """The waves of all wires, by name, in the order of the netlist. `UnknownName` (3 NoSuchWire) for a name that no wire has."""

    def __init__(self, lines: Mapping[str, str]) -> None:
        self._lines = dict(lines)

    def __getitem__(self, name: str) -> Wave:
        return read_wave(find(self._lines, name, "wire"), "waves")

    def __iter__(self) -> Iterator[str]:
        return iter(self._lines)

    def __len__(self) -> int:
        return len(self._lines)

    def __str__(self) -> str:
        """The lines that `mpwb waves` writes."""
        return "".join(f"{line}\n" for line in self._lines.values())

    def rows(self) -> List[Row]:
        """The rows of all waves: `wire`, `time`, `level`."""
        return [row for wave in self.values() for row in wave.rows()]

    def _repr_svg_(self) -> str:
        return drawn([(wave.name, wave.initial, wave.changes) for wave in self.values()])

    def __repr__(self) -> str:
        return f"<waves of {len(self)} wires>"


def read_wave(line: str, question: str) -> Wave:
    """A line of `waves`."""
    found = match(_LINE, line, question)
    changes = tuple((int(time), int(level)) for time, level in (pair.split("=") for pair in found[3].split()))
    if any(later[0] <= sooner[0] for sooner, later in zip(changes, changes[1:])):
        raise AnswerError(question, line)
    return Wave(found[1], int(found[2]), changes)


def read_waves(text: str, question: str) -> Waves:
    """What `waves` writes. A wave is read when it is asked for, since there may be many."""
    return Waves({match(_LINE, line, question)[1]: line for line in text.splitlines()})
