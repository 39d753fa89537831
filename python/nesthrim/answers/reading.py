"""How lines of an answer are read."""

from __future__ import annotations

from typing import Any, Match, Pattern

from ..errors import AnswerError


def match(pattern: Pattern[str], line: str, question: str) -> Match[str]:
    """The parts of a line. `AnswerError` if it isn't of this form."""
    found = pattern.fullmatch(line)
    if found is None:
        raise AnswerError(question, line)
    return found


def number(text: str) -> Any:
    """A number, or `None` for the empty text."""
    return int(text) if text else None


NAME = r"[A-Za-z][A-Za-z0-9_]*"
