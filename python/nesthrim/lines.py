"""Lines of a script."""

from __future__ import annotations

import re
from typing import List, Sequence

# what a batch, and a line, has at most
MOST_EDITS, LONGEST_LINE = 256, 65_536

# (a line feed isn't a part of a comment: a line that has one is refused, and nothing behind it is lost)
_COMMENT = re.compile(r"#[^\n]*")


def without_comment(line: str) -> str:
    """A line without its comment."""
    return _COMMENT.sub("", line)


def parts_of(line: str) -> List[str]:
    """The edits of a line: those of a batch, else the line itself, without its comment."""
    words = without_comment(line).split()
    if words[:1] != ["batch"]:
        return [" ".join(words)]
    return [part.strip() for part in f" {' '.join(words[1:])} ".split(" ; ")]


def batch_of(edits: Sequence[str]) -> str:
    """The line that makes edits as one. Comments are left out."""
    return "batch " + " ; ".join(map(without_comment, edits))


def has_room(edits: Sequence[str]) -> bool:
    """Whether a batch, and its line, has room for these edits."""
    return len(edits) <= MOST_EDITS and len(batch_of(edits)) <= LONGEST_LINE
