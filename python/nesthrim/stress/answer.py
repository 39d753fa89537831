"""Answers: what `stress` and `limit` say, as objects whose `str` are the lines that the commands write."""

from __future__ import annotations

from dataclasses import dataclass, field
from typing import TYPE_CHECKING, Dict, List, Optional, Tuple

from ..answers.table import Row, row_of
from ..names import find
from .confirm import Differs
from .delays import Delay, percent_of

if TYPE_CHECKING:
    from ..netlist import Netlist

# the verdicts, each with the exit status of the command
STATUS: Dict[str, int] = {"holds": 0, "breaks": 5, "differs": 5, "broken": 5, "open": 6, "nothing found": 6}

# the note of an answer that was cut short
INTERRUPTED = "interrupted"


def number(value: float) -> str:
    """A number as it is written: without zeros at its end."""
    return f"{round(value, 4):g}"


@dataclass(frozen=True)
class BundleStress:
    """A bundle's margins above its setup, in units of the netlist: `margin` as the netlist stands, `worst` the least one that was found, `bound`
    one that none is below. `worst` and `margin` are `None` for a bundle whose data never come before a request."""

    name: str
    margin: Optional[float]
    worst: Optional[float]
    bound: Optional[float]

    def __str__(self) -> str:
        if self.margin is None or self.worst is None or self.bound is None:
            return f"bundle {self.name} no transfers"
        more = f" not below {number(self.bound)}" if self.bound < self.worst - 1e-9 else ""
        return f"bundle {self.name} margin {number(self.margin)} worst {number(self.worst)}{more}"


@dataclass(frozen=True)
class OpenOrder:
    """An order of two events that isn't decided: at the module or bundle `name`, by `rule`. `early` and `late` are the wires with the nominal times.

    Its margin is never below `bound`, and `reached` was found; both are `None` if nothing is known.
    """

    name: str
    rule: str
    early: Optional[Tuple[str, float]] = None
    late: Optional[Tuple[str, float]] = None
    reached: Optional[float] = None
    bound: Optional[float] = None

    def __str__(self) -> str:
        text = f"open {self.name} {self.rule}"
        if self.early and self.late:
            text += f" {self.early[0]} {number(self.early[1])} before {self.late[0]} {number(self.late[1])}"
        if self.reached is not None and self.bound is not None:
            text += f" worst {number(self.reached)}" + (f" not below {number(self.bound)}" if self.bound < self.reached - 1e-9 else "")
        return text


@dataclass(frozen=True)
class Moved:
    """A delay that a counterexample has otherwise: `value` in its finer units, `units` for one of the netlist."""

    delay: Delay
    value: int
    units: int

    @property
    def percent(self) -> Optional[float]:
        """By how many per cent it differs from the delay as it stands."""
        return percent_of(self.value, self.delay.nominal * self.units)

    @property
    def edit(self) -> str:
        """The edit that sets it."""
        return f"{self.delay.words} {self.value}"

    def __str__(self) -> str:
        percent = self.percent
        how = f", {percent:+.1f} %" if percent is not None else ""
        return f"{self.edit}  # of {self.delay.nominal * self.units}{how}"


@dataclass(frozen=True)
class Worst:
    """A counterexample: delays in their ranges at which the netlist doesn't work, confirmed by the program.

    `text` is the netlist in finer units, `units` for one, as it stands, and `moved` are the delays that are otherwise, of `count` that vary.
    `check` are the lines that the program's `check` writes then but for notes; if there are none, `differs` is the first datum that is another one.
    """

    text: str
    units: int
    moved: Tuple[Moved, ...]
    count: int
    check: Tuple[str, ...]
    differs: Optional[Differs]

    @property
    def edits(self) -> List[str]:
        """The edits that make it of `text`."""
        return [each.edit for each in self.moved]

    @property
    def line(self) -> str:
        """The first line of what is wrong."""
        return self.check[0] if self.check else str(self.differs)

    @property
    def netlist(self) -> Netlist:
        """The netlist in finer units, with these delays."""
        from ..session import Session
        from ..netlist import Netlist

        with Session(self.text) as session:
            for edit in self.edits:
                session.edit(edit)
            return Netlist.written(session.text())

    def __str__(self) -> str:
        return "".join(f"{each}\n" for each in self.moved)


@dataclass(frozen=True)
class Stress:
    """Whether the netlist works while delays vary by `spread` per cent.

    `verdict` is "holds", "breaks" or "differs", which `worst` shows, "open", with the orders in `open`, "nothing found", or "broken" if the
    netlist has lines of `check`, `check`, as it stands. `runs` counts the runs of the program, and `until` is the time up to which faults count.
    """

    verdict: str
    spread: float
    until: int
    bundles: Tuple[BundleStress, ...] = ()
    open: Tuple[OpenOrder, ...] = ()
    worst: Optional[Worst] = None
    check: str = ""
    runs: int = 0
    units: int = 1
    notes: Tuple[str, ...] = field(default=())

    def bundle(self, name: str) -> BundleStress:
        """The margins of a bundle. `UnknownName` (5 NoSuchBundle) if there is none."""
        return find({each.name: each for each in self.bundles}, name, "bundle")

    @property
    def holds(self) -> bool:
        """Whether it was shown that it works."""
        return self.verdict == "holds"

    @property
    def status(self) -> int:
        """The exit status of the command: 0 if it holds, 5 if it doesn't, 6 if that isn't known."""
        return STATUS[self.verdict]

    @property
    def lines(self) -> List[str]:
        """The lines of the answer, without the bundles."""
        notes = [f"note {note}" for note in self.notes]
        if self.verdict == "broken":
            return notes + self.check.splitlines()
        if self.worst is not None:
            first = f"{self.verdict} {len(self.worst.moved)} of {self.worst.count} delays {self.worst.line}"
            return [*notes, first, *map(str, self.worst.moved)]
        if self.verdict == "open":
            return notes + [str(each) for each in self.open]
        return [*notes, self.verdict]

    def __str__(self) -> str:
        return "".join(f"{line}\n" for line in [*self.bundles, *self.lines])

    def __repr__(self) -> str:
        return f"<stress: {self.verdict} at {number(self.spread)} %>"

    def rows(self) -> List[Row]:
        """A row for each bundle: `name`, `margin`, `worst`, `bound`."""
        return [row_of(each) for each in self.bundles]


@dataclass(frozen=True)
class Limit:
    """The greatest spread, in whole per cents, up to which the netlist holds, and the least one at which it doesn't, of those that were tried.

    `holds` is `None` if not even the netlist as it stands does. `fails` is `None` if it holds up to the most that was asked; `at` is the answer
    there, or at the greatest spread that holds.
    """

    holds: Optional[int]
    fails: Optional[int]
    at: Stress

    @property
    def breaks(self) -> Optional[int]:
        """The least spread at which a fault was found, as `fails` if there is one."""
        return self.fails if self.at.worst is not None or self.at.verdict == "broken" else None

    @property
    def status(self) -> int:
        """The exit status of the command."""
        return self.at.status

    @property
    def line(self) -> str:
        """What is known, in a line."""
        if self.holds is None and self.fails is None:
            return "nothing is known"
        if self.at.verdict == "nothing found" and INTERRUPTED in self.at.notes and self.holds is not None:
            return f"holds up to {self.holds} so far" + (f", and not at {self.fails}" if self.fails is not None else "")
        if self.fails is None:
            return f"holds up to {self.holds}, the most that was asked"
        return f"holds up to {self.holds}, {self.at.verdict} at {self.fails}" if self.holds is not None else f"{self.at.verdict} at {self.fails}"

    def __str__(self) -> str:
        return f"{self.line}\n{self.at}"

    def __repr__(self) -> str:
        return f"<limit: {self.line}>"
