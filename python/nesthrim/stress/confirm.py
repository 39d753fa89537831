"""What the program says of a point: the lines of `check`, and whether other data are taken than in the nominal run.

Neither findings nor the levels of single wires show a datum that is taken a transfer too soon or too late: each wire has the levels of the nominal
run in turn. So the levels are compared when they are looked at: those of a bundle's data at each request, and those of a register's data at each
capture.
"""

from __future__ import annotations

from dataclasses import dataclass
from types import TracebackType
from typing import TYPE_CHECKING, Dict, Iterator, List, Optional, Sequence, Tuple, Type

from ..session import Session
from .delays import Delay
from .space import Point
from .timing import Timing

if TYPE_CHECKING:
    from ..answers.waves import Waves

# how many edits a batch has at most, and how many lines a session takes before another one is opened
_BATCH, _LINES = 256, 3_900


@dataclass(frozen=True)
class Differs:
    """Data that aren't those of the nominal run: at `time` the `sort` `name`, a bundle's request or a register's capture, takes `level` for `wanted`.

    `wire` has the data, and `number` counts the requests or captures from 1.
    """

    time: int
    sort: str
    name: str
    wire: str
    number: int
    level: int
    wanted: int

    def __str__(self) -> str:
        return f"{self.time} {self.sort} {self.name} differs {self.level} for {self.wanted}"


@dataclass(frozen=True)
class Fault:
    """What is wrong at a point: the lines of `check` that aren't notes, or else the first datum that differs."""

    point: Point
    lines: Tuple[str, ...]
    differs: Optional[Differs] = None

    @property
    def line(self) -> str:
        """The first line of it."""
        return self.lines[0] if self.lines else str(self.differs)

    @property
    def sort(self) -> Tuple[str, ...]:
        """What is at fault, and by which rule: the words of the first line without its numbers."""
        return tuple(word for word in self.line.split() if not word.isdigit())


class Runs:
    """Runs of the scaled netlist with the delays of points, up to a horizon."""

    def __init__(self, timing: Timing, horizon: int) -> None:
        self.timing, self.horizon = timing, horizon
        self.text = timing.text(horizon)
        self.count = 0
        self._session: Optional[Session] = None
        self._now: List[int] = []
        self._lines = 0
        self._wanted: Optional[Dict[Tuple[str, str], List[Tuple[int, int]]]] = None

    def __enter__(self) -> Runs:
        return self

    def __exit__(self, kind: Optional[Type[BaseException]], error: Optional[BaseException], trace: Optional[TracebackType]) -> None:
        self.close()

    def close(self) -> None:
        """Ends the program that runs."""
        if self._session is not None:
            self._session.close()
            self._session = None

    def edits(self, point: Sequence[int], before: Sequence[int]) -> List[str]:
        """The edits that set the delays of a point, where they aren't those before."""
        pairs = zip(self.timing.delays, before[1:], point[1:])
        return [f"{delay.words} {value}" for delay, old, value in pairs if value != old]

    def session(self, point: Sequence[int]) -> Session:
        """A session with the delays of a point."""
        free = len(self.timing.delays) + 1
        if self._session is None or self._lines > _LINES:
            self.close()
            self._session, self._lines = Session(self.text, self.timing.netlist.program), 0
            self._now = [0, *(delay.nominal * self.timing.units for delay in self.timing.delays)]
        edits = self.edits(point, self._now)
        for first in range(0, len(edits), _BATCH):
            part = edits[first : first + _BATCH]
            self._session.edit("batch " + " ; ".join(part) if len(part) > 1 else part[0])
            self._lines += 1
        self._now = list(point[:free])
        self.count += 1
        return self._session

    def fault(self, point: Point) -> Optional[Fault]:
        """What is wrong at a point, if anything is."""
        lines = self.lines(point)
        if lines:
            return Fault(point, lines)
        differs = self._differs(point)
        return Fault(point, (), differs) if differs else None

    def lines(self, point: Point) -> Tuple[str, ...]:
        """The lines of `check` that aren't notes."""
        return tuple(line for line in self.session(point).ask("check").splitlines() if not line.startswith("note "))

    def _differs(self, point: Point) -> Optional[Differs]:
        if self._wanted is None:
            nominal = (0, *(delay.nominal * self.timing.units for delay in self.timing.delays))
            self._wanted = dict(self._taken(self.session(nominal).waves(), nominal))
        first: Optional[Differs] = None
        for (sort, name), taken in self._taken(self.session(point).waves(), point):
            for number, ((time, level), (_, wanted)) in enumerate(zip(taken, self._wanted[sort, name]), 1):
                if level != wanted:
                    if first is None or time < first.time:
                        first = Differs(time, sort, name, self._data_of(sort, name), number, level, wanted)
                    break
        return first

    def _data_of(self, sort: str, name: str) -> str:
        netlist = self.timing.netlist
        return netlist.known_bundles[name].data if sort == "bundle" else netlist.known_modules[name].inputs[0][0]

    def _taken(self, waves: Waves, point: Sequence[int]) -> Iterator[Tuple[Tuple[str, str], List[Tuple[int, int]]]]:
        """The data of each bundle at its requests, and of each register at its captures, with the times."""
        known = {name: waves[name] for name in waves}
        for bundle in self.timing.netlist.known_bundles.values():
            data = known[bundle.data]
            yield ("bundle", bundle.name), [(time, data.level(time)) for time in known[bundle.req].times]
        for module in self.timing.netlist.known_modules.values():
            if module.kind == "REG":
                data, later = known[module.inputs[0][0]], self._input(module.name, 0, point)
                captures = [time + self._input(module.name, 1, point) for time in known[module.inputs[1][0]].times]
                yield ("module", module.name), [(time, data.level(max(0, time - later))) for time in captures if time < self.horizon]

    def _input(self, module: str, port: int, point: Sequence[int]) -> int:
        """The delay of an input at a point."""
        return point[self.timing.place_of(module, port, True)]


def moved(timing: Timing, point: Sequence[int]) -> List[Tuple[Delay, int]]:
    """The delays that a point has otherwise than the netlist, with their values in finer units."""
    return [(delay, value) for delay, value in zip(timing.delays, point[1:]) if value != delay.nominal * timing.units]

