"""What breaks a rule, and what `check` finds beside that."""

from __future__ import annotations

import re
from dataclasses import dataclass
from typing import Iterator, List, Optional, Sequence, Tuple, Union, overload

from ..errors import AnswerError
from .reading import NAME, match, number
from .table import Row, row_of

_FINDING = re.compile(rf"(\d+) (module|bundle) ({NAME}) ([a-z-]+)")
_LATE = re.compile(rf"(\d+) bundle ({NAME}) late (\d+)")
_DEADLOCK = re.compile(r"(\d+) deadlock (.+)")
_WAIT = re.compile(rf"({NAME}) waits for ({NAME})")
_NOTE = re.compile(rf"note (wire|bundle) ({NAME}) (.+)")
_BUSY = re.compile(r"is busy since (\d+)")
_GROUP = re.compile(
    rf"(module|bundle) ({NAME}) ([a-z-]+) (?:1 time, at (\d+)(?:, by (\d+))?|(\d+) times, first (\d+), last (\d+)(?:, worst (\d+))?)"
)


@dataclass(frozen=True)
class Finding:
    """At a time, a module or a bundle (`sort`) meets something that a well-behaved circuit avoids: `code`, as "setup"."""

    time: int
    sort: str
    name: str
    code: str

    def __str__(self) -> str:
        return f"{self.time} {self.sort} {self.name} {self.code}"


@dataclass(frozen=True)
class Late:
    """The data of a bundle change at `time`, `by` units after a request that they belong to."""

    time: int
    name: str
    by: int

    def __str__(self) -> str:
        return f"{self.time} bundle {self.name} late {self.by}"


@dataclass(frozen=True)
class Deadlock:
    """From the time `since` on modules wait for each other for ever: each pair is a module and the wire that it waits for."""

    since: int
    waits: Tuple[Tuple[str, str], ...]

    def __str__(self) -> str:
        return f"{self.since} deadlock " + ", ".join(f"{module} waits for {wire}" for module, wire in self.waits)


@dataclass(frozen=True)
class Note:
    """Something about a wire that is worth a look, and no fault."""

    wire: str
    text: str

    def __str__(self) -> str:
        return f"note wire {self.wire} {self.text}"


@dataclass(frozen=True)
class BusyNote:
    """At the end of a run in which nothing changes any more a bundle is busy, since its last request at this time. It is no fault."""

    bundle: str
    since: int

    def __str__(self) -> str:
        return f"note bundle {self.bundle} is busy since {self.since}"


class Report(Sequence[Finding]):
    """The findings of a netlist, in the program's order."""

    def __init__(self, findings: Sequence[Finding]) -> None:
        self._findings = tuple(findings)

    @overload
    def __getitem__(self, at: int) -> Finding: ...

    @overload
    def __getitem__(self, at: slice) -> Tuple[Finding, ...]: ...

    def __getitem__(self, at: Union[int, slice]) -> Union[Finding, Tuple[Finding, ...]]:
        return self._findings[at]

    def __iter__(self) -> Iterator[Finding]:
        return iter(self._findings)

    def __len__(self) -> int:
        return len(self._findings)

    def __eq__(self, other: object) -> bool:
        return isinstance(other, Report) and self._findings == other._findings

    def __hash__(self) -> int:
        return hash(self._findings)

    def __str__(self) -> str:
        """The lines that `mpwb report` writes."""
        return "".join(f"{finding}\n" for finding in self._findings)

    def __repr__(self) -> str:
        return f"<report of {len(self)} findings>"

    def rows(self) -> List[Row]:
        """A row for each finding: `time`, `sort`, `name`, `code`."""
        return [row_of(finding) for finding in self._findings]


@dataclass(frozen=True)
class Check:
    """Whether a netlist works: what is found in it, data that are late, modules that wait for each other for ever, and notes."""

    findings: Report
    late: Tuple[Late, ...]
    deadlocks: Tuple[Deadlock, ...]
    notes: Tuple[Union[Note, BusyNote], ...]

    @property
    def ok(self) -> bool:
        """Whether there is nothing but notes."""
        return not (self.findings or self.late or self.deadlocks)

    def __str__(self) -> str:
        """The lines that `mpwb check` writes."""
        return str(self.findings) + "".join(f"{line}\n" for line in (*self.late, *self.deadlocks, *self.notes))

    def rows(self) -> List[Row]:
        """A row for each finding, and for each other line one that has the `code` "late", "deadlock" or "note".

        Beside `time`, `sort`, `name` and `code` each has `more`: by how many units data are late, what waits for what, or what is to be noted.
        """
        found: List[Row] = [{**row, "more": None} for row in self.findings.rows()]
        found += [_row(late.time, "bundle", late.name, "late", late.by) for late in self.late]
        return found + _other_rows(self.deadlocks, self.notes)


def _row(time: Optional[int], sort: str, name: str, code: str, more: Union[int, str]) -> Row:
    return {"time": time, "sort": sort, "name": name, "code": code, "more": more}


def _other_rows(deadlocks: Sequence[Deadlock], notes: Sequence[Union[Note, BusyNote]]) -> List[Row]:
    """The rows of deadlocks and of notes."""
    found: List[Row] = []
    for deadlock in deadlocks:
        found += [_row(deadlock.since, "module", module, "deadlock", f"waits for {wire}") for module, wire in deadlock.waits]
    for note in notes:
        sort, name = ("wire", note.wire) if isinstance(note, Note) else ("bundle", note.bundle)
        found.append(_row(None, sort, name, "note", str(note).partition(f" {name} ")[2]))
    return found


@dataclass(frozen=True)
class Group:
    """All findings of one code (`code`, as "setup") of a module or a bundle (`sort`), or, as `code` "late", all late data of a bundle.

    - `times`: how many they are;
    - `first`, `last`: the times of the first and the last one;
    - `worst`: of late data the most units by which one is late, else `None`.
    """

    sort: str
    name: str
    code: str
    times: int
    first: int
    last: int
    worst: Optional[int] = None

    def __str__(self) -> str:
        if self.times == 1:
            how = f"1 time, at {self.first}" + ("" if self.worst is None else f", by {self.worst}")
        else:
            how = f"{self.times} times, first {self.first}, last {self.last}" + ("" if self.worst is None else f", worst {self.worst}")
        return f"{self.sort} {self.name} {self.code} {how}"


@dataclass(frozen=True)
class BriefCheck:
    """Whether a netlist works, as `Check`, with its findings and late data in groups, in the order of the time of their first one."""

    groups: Tuple[Group, ...]
    deadlocks: Tuple[Deadlock, ...]
    notes: Tuple[Union[Note, BusyNote], ...]

    @property
    def ok(self) -> bool:
        """Whether there is nothing but notes."""
        return not (self.groups or self.deadlocks)

    def __str__(self) -> str:
        """The lines that `mpwb check --brief` writes."""
        return "".join(f"{line}\n" for line in (*self.groups, *self.deadlocks, *self.notes))

    def rows(self) -> List[Row]:
        """A row for each group: its fields by their names, and `more`. Those of deadlocks and notes are as in `Check`, with their time as `first`."""
        nothing = dict.fromkeys(("times", "first", "last", "worst"))
        found: List[Row] = [{**row_of(group), "more": None} for group in self.groups]
        for row in _other_rows(self.deadlocks, self.notes):
            found.append({"sort": row["sort"], "name": row["name"], "code": row["code"], **nothing, "first": row["time"], "more": row["more"]})
        return found


def _read_finding(line: str, question: str) -> Finding:
    found = match(_FINDING, line, question)
    return Finding(int(found[1]), found[2], found[3], found[4])


def read_report(text: str, question: str) -> Report:
    """What `report` writes."""
    return Report([_read_finding(line, question) for line in text.splitlines()])


def _read_deadlock(since: str, waits: str, line: str) -> Deadlock:
    pairs: List[Tuple[str, str]] = []
    for wait in waits.split(", "):
        found = _WAIT.fullmatch(wait)
        if found is None:
            raise AnswerError("check", line)
        pairs.append((found[1], found[2]))
    return Deadlock(int(since), tuple(pairs))


def _read_note(kind: str, name: str, text: str, line: str) -> Union[Note, BusyNote]:
    if kind == "wire":
        return Note(name, text)
    busy = _BUSY.fullmatch(text)
    if busy is None:
        raise AnswerError("check", line)
    return BusyNote(name, int(busy[1]))


def _divided(text: str) -> Tuple[List[str], Tuple[Deadlock, ...], Tuple[Union[Note, BusyNote], ...]]:
    """The lines of a check before its deadlocks, these, and its notes."""
    lines: List[str] = []
    deadlocks: List[Deadlock] = []
    notes: List[Union[Note, BusyNote]] = []
    for line in text.splitlines():
        if found := _DEADLOCK.fullmatch(line):
            deadlocks.append(_read_deadlock(found[1], found[2], line))
        elif found := _NOTE.fullmatch(line):
            notes.append(_read_note(found[1], found[2], found[3], line))
        else:
            lines.append(line)
    return lines, tuple(deadlocks), tuple(notes)


def read_check(text: str, question: str) -> Check:
    """What `check` writes."""
    findings: List[Finding] = []
    late: List[Late] = []
    lines, deadlocks, notes = _divided(text)
    for line in lines:
        if found := _LATE.fullmatch(line):
            late.append(Late(int(found[1]), found[2], int(found[3])))
        else:
            findings.append(_read_finding(line, question))
    return Check(Report(findings), tuple(late), deadlocks, notes)


def _read_group(line: str, question: str) -> Group:
    sort, name, code, time, by, times, first, last, worst = match(_GROUP, line, question).groups()
    if time is not None:
        return Group(sort, name, code, 1, int(time), int(time), number(by))
    return Group(sort, name, code, int(times), int(first), int(last), number(worst))


def read_brief_check(text: str, question: str) -> BriefCheck:
    """What `check --brief` writes."""
    lines, deadlocks, notes = _divided(text)
    return BriefCheck(tuple(_read_group(line, question) for line in lines), deadlocks, notes)
