"""How long changes of one wire take to be answered by changes of another one."""

from __future__ import annotations

from bisect import bisect_left
from dataclasses import dataclass
from typing import List, Optional, Tuple

from .table import Row
from .waves import Wave


@dataclass(frozen=True)
class Latency:
    """The changes of the wire `first` in a range, each with the change of the wire `second` that answers it.

    - `pairs`: the times of both, in order;
    - `unanswered`: the times of the changes of `first` in the range that have no answer below the horizon.
    """

    first: str
    second: str
    pairs: Tuple[Tuple[int, int], ...]
    unanswered: Tuple[int, ...] = ()

    @property
    def units(self) -> Tuple[int, ...]:
        """For each pair the units from the change of `first` to its answer."""
        return tuple(answer - change for change, answer in self.pairs)

    @property
    def least(self) -> Optional[int]:
        """The least of them, `None` if nothing is answered."""
        return min(self.units, default=None)

    @property
    def most(self) -> Optional[int]:
        """The greatest of them, `None` if nothing is answered."""
        return max(self.units, default=None)

    @property
    def mean(self) -> Optional[float]:
        """Their mean, `None` if nothing is answered."""
        return sum(self.units) / len(self.pairs) if self.pairs else None

    def rows(self) -> List[Row]:
        """A row for each change of `first`: `time`, `answer` and `units`, both `None` if it isn't answered."""
        answered: List[Row] = [{"time": change, "answer": answer, "units": answer - change} for change, answer in self.pairs]
        return answered + [{"time": change, "answer": None, "units": None} for change in self.unanswered]


def latency_between(first: Wave, second: Wave, start: int, end: int) -> Latency:
    """The latency from one wave to another, of the changes at the times from `start` to before `end`."""
    asked = first.times
    pairs: List[Tuple[int, int]] = []
    for answer in second.times:
        place = len(pairs)
        if place < len(asked) and asked[place] < answer:
            pairs.append((asked[place], answer))
    low, high = bisect_left(asked, start), bisect_left(asked, end)
    return Latency(first.name, second.name, tuple(pairs[low:high]), asked[max(low, len(pairs)) : high])
