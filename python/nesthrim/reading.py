"""Statements of a netlist as the program writes them, as data."""

from __future__ import annotations

from typing import Optional, Sequence, Tuple

from .errors import AnswerError
from .modules import Module, Statement
from .wires import Bundle, Stimulus, Wire


def statement_of(line: str) -> Statement:
    """What a line of `text` adds. `AnswerError` if it isn't such a line."""
    words = line.split(" ")
    try:
        return _read(words)
    except (ValueError, IndexError, TypeError) as error:
        raise AnswerError("text", line) from error


def _read(words: Sequence[str]) -> Statement:
    first, rest = words[0], words[1:]
    if first == "wire":
        name, width, level = rest
        return Wire(name, int(width), int(level))
    if first == "module":
        return _module(rest)
    if first == "stim":
        return Stimulus(rest[0], stimulus_values(rest[1:]))
    if first == "bundle":
        name, req, ack, data, setup = rest
        return Bundle(name, req, ack, data, int(setup))
    raise ValueError(first)


def _module(words: Sequence[str]) -> Module:
    colon = words.index(":", 2)
    arrow = words.index(">", colon)
    params = tuple(map(int, words[2:colon]))
    inputs = tuple(map(_input, words[colon + 1 : arrow]))
    return Module(words[0], words[1], params, inputs, tuple(map(_output, words[arrow + 1 :])))


def _input(word: str) -> Tuple[str, int]:
    name, divided, delay = word.partition("/")
    return name, int(delay) if divided else 0


def _output(word: str) -> Tuple[Optional[str], int]:
    name, _, delay = word.partition("/")
    return None if name == "-" else name, int(delay)


def stimulus_values(words: Sequence[str]) -> Tuple[Tuple[int, int], ...]:
    """The times and levels of words `T=V`."""
    pairs = [word.split("=") for word in words]
    return tuple((int(time), int(level)) for time, level in pairs)
