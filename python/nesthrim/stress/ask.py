"""`stress` and `limit`: the questions, from the netlist to the answer."""

from __future__ import annotations

from contextlib import contextmanager
from typing import TYPE_CHECKING, Dict, FrozenSet, Iterator, List, Optional

from .answer import INTERRUPTED, BundleStress, Limit, Moved, Stress, Worst
from .confirm import Fault, Runs, moved
from .delays import Ranges, Spread, delays_of
from .graph import Unfoldable
from .judge import Judge, Tell, Verdict
from .margins import Margins
from .refine import Deadline, until
from .samples import sampled
from .scale import UNITS
from .shrink import shrink
from .space import Space
from .timing import Timing

if TYPE_CHECKING:
    from ..netlist import Netlist

READINGS = ("same", "each")

# a run for a wide spread is long, so `limit` has a graph for each of these; the first spread that it tries, which doubles as long as it holds
LADDER, LADDER_FROM = (12, 30, 60, 90), 10

# a run with more changes is cut
MOST_CHANGES = 300_000


def say_nothing(line: str) -> None:
    """Tells nobody how far it is."""


class Question:
    """A question about a netlist while delays vary. Its answers at several spreads use one graph, made for the widest one."""

    def __init__(self, netlist: Netlist, spread: Spread, reading: str = "same", seconds: float = 60, tell: Tell = say_nothing) -> None:
        if reading not in READINGS:
            raise ValueError(f"delays are read as the {' or as '.join(READINGS)}, and not as {reading!r}")
        if reading == "each" and spread.together:
            raise ValueError("delays that vary together are the same all through the run, and so have the reading 'same'")
        self.netlist, self.spread, self.each, self.seconds, self.tell = netlist, spread, reading == "each", seconds, tell
        # whether an interrupt gives what is known so far, and isn't passed on
        self.keeps = False
        self._timings: Dict[float, Timing] = {}
        self._reasons: Dict[float, Optional[Unfoldable]] = {}

    def check_names(self) -> None:
        """`UnknownName` if a range or a group names nothing, `ValueError` if groups don't fit."""
        Ranges(self.netlist, delays_of(self.netlist), self.spread, 1)

    # ---- answers

    def bundles(self, percent: float, widest: float) -> List[BundleStress]:
        """The margins of the bundles at a spread, without a verdict; none if there is no graph."""
        return Answering(self, percent, widest).bundles()

    def at(self, percent: float, widest: Optional[float] = None) -> Stress:
        """The answer at a spread. The graph serves spreads up to `widest`."""
        return Answering(self, percent, widest or percent).full()

    def verdict(self, percent: float, widest: float) -> str:
        """The verdict at a spread, without all that an answer has beside it."""
        return Answering(self, percent, widest).verdict()

    def limit(self, most: int = 60) -> Limit:
        """The greatest spread in whole per cents, up to `most`, at which it holds, and the least one at which it doesn't."""
        known = _Known(self)
        try:
            known.search(most)
            asked = known.least
            return Limit(known.holds, known.fails, self.at(asked, _widest(asked)))
        except KeyboardInterrupt:
            if not self.keeps:
                raise
            return Limit(known.holds, known.fails, Stress("nothing found", known.least, self.netlist.horizon, notes=(INTERRUPTED,)))

    # ---- what answers share

    def timing(self, widest: float) -> Timing:
        """The timing that serves spreads up to the widest; the last one is kept."""
        if widest not in self._timings:
            self.tell("runs the netlist")
            self._reasons = {}
            self._timings = {widest: self._cut(Timing(self.netlist, self.spread.at(widest), self.netlist.horizon), widest)}
        return self._timings[widest]

    def _cut(self, timing: Timing, widest: float) -> Timing:
        """The timing of a shorter run, if this one has more changes than are followed."""
        if timing.changes <= MOST_CHANGES:
            return timing
        until_time = max(1, timing.scale.until * MOST_CHANGES // timing.changes * 9 // 10)
        return Timing(self.netlist, self.spread.at(widest), until_time)

    def unfolded(self, widest: float) -> Optional[Unfoldable]:
        """Unfolds the run of a timing; the reason if it can't be."""
        if widest not in self._reasons:
            self.tell("unfolds the run")
            reason = None
            try:
                self.timing(widest).unfold()
            except Unfoldable as found:
                reason = found
            self._reasons = {widest: reason}
        return self._reasons[widest]


class _Known:
    """What is known of the limit of a question: it holds at `holds`, and not at `fails`."""

    def __init__(self, question: Question) -> None:
        self.question = question
        self.holds: Optional[int] = None
        self.fails: Optional[int] = None

    @property
    def least(self) -> int:
        """The spread to tell about."""
        return self.fails if self.fails is not None else self.holds or 0

    def search(self, most: int) -> None:
        """Doubles the spread up to `most` as long as it holds, and then halves the range between."""
        self._try(0)
        step = LADDER_FROM
        while self.fails is None and self.holds is not None and self.holds < most:
            self._try(min(step, most))
            step *= 2
        while self.fails is not None and self.holds is not None and self.fails - self.holds > 1:
            self._try((self.holds + self.fails) // 2)

    def _try(self, percent: int) -> None:
        self.question.tell(f"tries {percent} %")
        if self.question.verdict(percent, _widest(percent)) == "holds":
            self.holds = percent
        else:
            self.fails = percent


def _widest(percent: float) -> float:
    return next((most for most in LADDER if percent <= most), percent)


class Answering:
    """The work on the answer to a question at one spread, with a graph that serves spreads up to `widest`."""

    def __init__(self, question: Question, percent: float, widest: float) -> None:
        self.question, self.spread = question, question.spread.at(percent)
        self.over: Deadline = until(question.seconds)
        self.timing, self.timing_key = question.timing(widest), widest
        self.notes: List[str] = []
        self.judge: Optional[Judge] = None
        self.runs = Runs(self.timing, self.timing.scale.horizon(self.spread))
        if self.timing.units < UNITS:
            self.notes.append(f"delays are long: one unit is {self.timing.units} finer ones, and not {UNITS}")
        self.until = self.timing.scale.until
        if self.until < question.netlist.horizon:
            self.notes.append(f"the run changes so often that it is followed up to {self.until} alone")

    def verdict(self) -> str:
        """The verdict."""
        with self.runs:
            found = self.decide()
        if found is None:
            return "broken" if not self.timing.check.ok else "nothing found"
        return word_of(found)

    def full(self) -> Stress:
        """The whole answer."""
        found: Optional[Verdict] = None
        with self.runs:
            with self._kept():
                found = self.decide()
            if not self.timing.check.ok:
                return self._broken()
            worst = self._worst(found.fault, found.likely) if found and found.fault else None
        bundles = self._bundles()
        left = self.judge.open_orders(found.undecided) if self.judge and found else []
        verdict = "nothing found" if found is None else word_of(found)
        units = self.timing.units
        return Stress(verdict, self.spread.percent, self.until, tuple(bundles), tuple(left), worst, "", self.runs.count, units, tuple(self.notes))

    @contextmanager
    def _kept(self) -> Iterator[None]:
        """Ends a part of the work at an interrupt, if what is known then is wanted."""
        try:
            yield
        except KeyboardInterrupt:
            if not self.question.keeps:
                raise
            if INTERRUPTED not in self.notes:
                self.notes.append(INTERRUPTED)

    def bundles(self) -> List[BundleStress]:
        """The margins of the bundles alone."""
        if not self.timing.check.ok or self.question.unfolded(self.timing_key) is not None:
            return []
        self.judge = self._judge()
        return self._bundles()

    def _bundles(self) -> List[BundleStress]:
        if self.judge is None:
            return []
        self.question.tell(f"bounds the margins of bundles at {self.spread.percent:g} %")
        margins: Optional[Margins] = None
        with self._kept():
            margins = Margins(self.judge)
            if INTERRUPTED not in self.notes:
                margins.sharpen()
        return margins.known() if margins else []

    def _broken(self) -> Stress:
        check = self.question.netlist.check()
        text = str(self.timing.check if check.ok else check)
        lines = "".join(f"{line}\n" for line in text.splitlines() if not line.startswith("note "))
        return Stress("broken", self.spread.percent, self.question.netlist.horizon, check=lines, units=self.timing.units)

    def decide(self) -> Optional[Verdict]:
        """What is known; `None` if there is no graph and no fault was found, or nothing to search."""
        if not self.timing.check.ok:
            return None
        reason = self.question.unfolded(self.timing_key)
        if reason is not None:
            self.notes.append(f"no graph: {reason}")
            fault = sampled(Space(self.timing, Ranges(self.timing.netlist, self.timing.delays, self.spread, self.timing.units)), self.runs, self.over)
            return Verdict(fault, []) if fault else None
        self.question.tell("bounds all orders")
        self.judge = self._judge()
        return self.judge.decide()

    def _judge(self) -> Judge:
        return Judge(self.timing, self.spread, self.runs, self.over, self.question.tell, self.question.each)

    def _worst(self, fault: Fault, likely: FrozenSet[int]) -> Worst:
        self.question.tell("puts delays back")
        space = Space(self.timing, Ranges(self.timing.netlist, self.timing.delays, self.spread, self.timing.units))
        with self._kept():
            fault = shrink(space, self.runs, fault, likely, self.over)
        units = self.timing.units
        changes = tuple(Moved(delay, value, units) for delay, value in moved(self.timing, fault.point))
        return Worst(self.runs.text, units, changes, len(self.timing.delays), fault.lines, fault.differs)


def word_of(verdict: Verdict) -> str:
    """The word of a verdict."""
    if verdict.fault is not None:
        return "breaks" if verdict.fault.lines else "differs"
    return "open" if verdict.undecided else "holds"
