"""What is told of edits."""

from __future__ import annotations

import re
from dataclasses import dataclass
from typing import Optional

from ..errors import Fault
from .reading import NAME, match
from .table import Items

_WORK = re.compile(rf"({NAME}) (\d+) (\d+)")
_EDIT = re.compile(r"(\d+) (.+?)(?: # (designer-\d+))?")
_VERSION = re.compile(r"version (\d+)\n")


@dataclass(frozen=True)
class Work:
    """A module that was evaluated again, from one time to before another."""

    module: str
    start: int
    end: int

    def __str__(self) -> str:
        return f"{self.module} {self.start} {self.end}"


@dataclass(frozen=True)
class MadeEdit:
    """An accepted edit: its number, from 1, and the line of a script that makes it; at a live desk also the designer who made it, as "designer-1"."""

    number: int
    line: str
    who: Optional[str] = None

    def __str__(self) -> str:
        return f"{self.number} {self.line}"


@dataclass(frozen=True)
class Outcome:
    """What came of an edit: its number among the accepted ones, or the fault. It is true if the edit was accepted."""

    number: Optional[int]
    fault: Optional[Fault]

    def __bool__(self) -> bool:
        return self.fault is None


def read_work(text: str, question: str) -> Items[Work]:
    """What is answered to `work`."""
    found = [match(_WORK, line, question) for line in text.splitlines()]
    return Items(Work(each[1], int(each[2]), int(each[3])) for each in found)


def read_edits(text: str, question: str) -> Items[MadeEdit]:
    """What is answered to `edits`."""
    found = [match(_EDIT, line, question) for line in text.splitlines()]
    return Items(MadeEdit(int(each[1]), each[2], each[3]) for each in found)


def read_version(text: str, question: str) -> int:
    """What is answered to `version`."""
    return int(match(_VERSION, text, question)[1])
