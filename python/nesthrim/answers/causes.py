"""Why a wire has its level, where the time of that went, and who waits."""

from __future__ import annotations

import re
from dataclasses import dataclass, field
from typing import Optional, Tuple

from ..errors import AnswerError
from .reading import NAME, match
from .table import Items

_STEP = re.compile(rf"({NAME}) (\d+)=(\d+)(?: (declared)| < (stim)| < ({NAME}) ([A-Z]+)/(\d+) < (start|.+))")
_EVENT = re.compile(rf"({NAME}) (\d+)=(\d+)(?:/(\d+))?")
_PART = re.compile(rf"({NAME}) (\d+) (\d+)")
_BEFORE = re.compile(r"- (\d+) (\d+)")
_WAIT = re.compile(rf"({NAME}) ([A-Z]+|bundle) (waits for|keeps|holds) ({NAME}|\d+) since (\d+)")


@dataclass(frozen=True)
class Event:
    """A change of a wire, and the delay of the input by which a module sees it."""

    wire: str
    time: int
    level: int
    delay: int = 0

    def __str__(self) -> str:
        return f"{self.wire} {self.time}={self.level}" + (f"/{self.delay}" if self.delay else "")


@dataclass(frozen=True)
class Step:
    """A change of a wire and its cause.

    `cause` is "stim" (set from outside), "start" (the module settled), "events" (the module answered these `events`, `delay` units later) or
    "declared" (the wire didn't change up to the time). `module`, `kind` and `delay` are those of the module that drives the wire.
    """

    wire: str
    time: int
    level: int
    cause: str
    module: Optional[str] = None
    kind: Optional[str] = None
    delay: Optional[int] = None
    events: Tuple[Event, ...] = ()

    def __str__(self) -> str:
        change = f"{self.wire} {self.time}={self.level}"
        if self.cause in ("declared", "stim"):
            return f"{change} declared" if self.cause == "declared" else f"{change} < stim"
        source = "start" if self.cause == "start" else " ".join(map(str, self.events))
        return f"{change} < {self.module} {self.kind}/{self.delay} < {source}"


@dataclass(frozen=True)
class PathPart:
    """How many units of time passed in a module, in how many steps.

    Of a chain that counts from a time on, the last part may be that before it: `module` is "-", `since` is that time, and `steps` is 0.
    """

    module: str
    units: int
    steps: int
    since: Optional[int] = field(default=None, repr=False)

    def __str__(self) -> str:
        return f"{self.module} {self.units} {self.steps}" if self.since is None else f"- {self.since} {self.units}"


@dataclass(frozen=True)
class Wait:
    """Who waits: `name` is a module, or a bundle if `kind` is "bundle".

    `does` is "waits for" or "keeps", and then `wire` says for which wire; or "holds", and then `level` says what a register holds. `since` is
    the time from which on.
    """

    name: str
    kind: str
    does: str
    wire: Optional[str]
    level: Optional[int]
    since: int

    def __str__(self) -> str:
        return f"{self.name} {self.kind} {self.does} {self.level if self.wire is None else self.wire} since {self.since}"


def _read_events(text: str, line: str, question: str) -> Tuple[Event, ...]:
    words = text.split()
    if len(words) % 2:
        raise AnswerError(question, line)
    found = [match(_EVENT, f"{wire} {change}", question) for wire, change in zip(words[::2], words[1::2])]
    return tuple(Event(each[1], int(each[2]), int(each[3]), int(each[4] or 0)) for each in found)


def _read_step(line: str, question: str) -> Step:
    wire, time, level, declared, stim, module, kind, delay, source = match(_STEP, line, question).groups()
    at = (wire, int(time), int(level))
    if declared or stim:
        return Step(*at, declared or stim)
    if source == "start":
        return Step(*at, "start", module, kind, int(delay))
    return Step(*at, "events", module, kind, int(delay), _read_events(source, line, question))


def read_why(text: str, question: str) -> Items[Step]:
    """What `why` writes."""
    return Items(_read_step(line, question) for line in text.splitlines())


def _read_part(line: str, question: str) -> PathPart:
    if before := _BEFORE.fullmatch(line):
        return PathPart("-", int(before[2]), 0, int(before[1]))
    part = match(_PART, line, question)
    return PathPart(part[1], int(part[2]), int(part[3]))


def read_path(text: str, question: str) -> Items[PathPart]:
    """What `path` writes."""
    return Items(_read_part(line, question) for line in text.splitlines())


def _read_wait(line: str, question: str) -> Wait:
    name, kind, does, what, since = match(_WAIT, line, question).groups()
    if (does == "holds") != what.isdigit():
        raise AnswerError(question, line)
    if does == "holds":
        return Wait(name, kind, does, None, int(what), int(since))
    return Wait(name, kind, does, what, None, int(since))


def read_waits(text: str, question: str) -> Items[Wait]:
    """What `waits` writes."""
    return Items(_read_wait(line, question) for line in text.splitlines())
