"""Events of wires, the gaps between them, and margins of bundles."""

from __future__ import annotations

import re
from dataclasses import dataclass
from typing import Callable, Iterable, Iterator, List, Mapping, NamedTuple, Optional, Sequence, TypeVar

from ..errors import AnswerError
from ..names import find
from .reading import NAME, number
from .table import Row

# all lines at once: a sweep reads many of these answers
_WIRE = re.compile(rf"^wire ({NAME}) (\d+)(?: (\d+) (\d+)(?: (\d+) (\d+))?)?$", re.MULTILINE)
_BUNDLE = re.compile(rf"^bundle ({NAME}) (\d+)(?: setup (\d+))?(?: response (\d+) (\d+))?(?: late (\d+))?$", re.MULTILINE)


def _joined(*words: object) -> str:
    return " ".join(str(word) for word in words if word is not None)


class WireMeasure(NamedTuple):
    """The changes of a wire in a range of times: how many, the first and the last, the least and the greatest gap between two.

    What isn't there, as the gap of one change, is `None`.
    """

    name: str
    events: int
    first: Optional[int] = None
    last: Optional[int] = None
    least: Optional[int] = None
    most: Optional[int] = None

    def __str__(self) -> str:
        return _joined("wire", self.name, self.events, self.first, self.last, self.least, self.most)

    @property
    def period(self) -> Optional[float]:
        """The mean gap between two changes, `None` if there are fewer than two."""
        if self.first is None or self.last is None or self.events < 2:
            return None
        return (self.last - self.first) / (self.events - 1)

    def row(self) -> Row:
        """Its figures by their names, the period among them."""
        return {**self._asdict(), "period": self.period}


class BundleMeasure(NamedTuple):
    """The requests of a bundle in a range of times.

    - `requests`: how many;
    - `setup`: the least time from a change of the data to the next request;
    - `least_response`, `most_response`: the least and the greatest time from a request to its acknowledge;
    - `late`: the most units by which data come behind their request.

    What isn't there is `None`.
    """

    name: str
    requests: int
    setup: Optional[int] = None
    least_response: Optional[int] = None
    most_response: Optional[int] = None
    late: Optional[int] = None

    def __str__(self) -> str:
        setup = [] if self.setup is None else ["setup", self.setup]
        response = [] if self.least_response is None else ["response", self.least_response, self.most_response]
        late = [] if self.late is None else ["late", self.late]
        return _joined("bundle", self.name, self.requests, *setup, *response, *late)

    def row(self) -> Row:
        """Its figures by their names."""
        return self._asdict()


M = TypeVar("M", WireMeasure, BundleMeasure)


class Measures(Mapping[str, M]):
    """Measures by name. Each is made when it is asked for, since a sweep has many and looks at few."""

    def __init__(self, found: Iterable[Sequence[str]], sort: str, kind: Callable[..., M]) -> None:
        self._found = {each[0]: each for each in found}
        self._sort = sort
        self._kind: Callable[..., M] = kind

    def __getitem__(self, name: str) -> M:
        plain, *figures = find(self._found, name, self._sort)
        return self._kind(plain, *map(number, figures))

    def __iter__(self) -> Iterator[str]:
        return iter(self._found)

    def __len__(self) -> int:
        return len(self._found)

    def rows(self) -> List[Row]:
        """A row for each of them: its figures by their names."""
        return [each.row() for each in self.values()]


@dataclass(frozen=True)
class Measure:
    """The measures of all wires and of all bundles, by name, each a table by `rows()`. `UnknownName` for a name that none of them has."""

    wires: Measures[WireMeasure]
    bundles: Measures[BundleMeasure]

    def __str__(self) -> str:
        """The lines that `mpwb measure` writes."""
        return "".join(f"{line}\n" for line in (*self.wires.values(), *self.bundles.values()))

    def rows(self) -> List[Row]:
        """A row for each wire and each bundle: its `sort`, and the figures of both sorts, `None` where its sort has none. `wires` and `bundles` have
        rows of their own."""
        found = [{"sort": "wire", **row} for row in self.wires.rows()] + [{"sort": "bundle", **row} for row in self.bundles.rows()]
        keys = dict.fromkeys(["sort", *WireMeasure._fields, "period", *BundleMeasure._fields])
        return [{**keys, **row} for row in found]

    def wire(self, name: str) -> WireMeasure:
        """The measures of a wire."""
        return self.wires[name]

    def bundle(self, name: str) -> BundleMeasure:
        """The measures of a bundle."""
        return self.bundles[name]


def read_measure(text: str, question: str) -> Measure:
    """What `measure` writes."""
    wires = Measures(_WIRE.findall(text), "wire", WireMeasure)
    bundles = Measures(_BUNDLE.findall(text), "bundle", BundleMeasure)
    if text.count("\n") != len(wires) + len(bundles):
        strange = (line for line in text.splitlines() if not (_WIRE.match(line) or _BUNDLE.match(line)))
        raise AnswerError(question, next(strange, text))
    return Measure(wires, bundles)
