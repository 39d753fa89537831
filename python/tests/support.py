"""What the tests share."""

from __future__ import annotations

import functools
import os
import re
import unittest
from typing import Any, Callable, FrozenSet, Iterator, TypeVar

from nesthrim import Netlist, find_program

TOP = os.path.dirname(os.path.dirname(os.path.dirname(os.path.abspath(__file__))))
EXAMPLES = os.path.join(TOP, "examples")

T = TypeVar("T")


@functools.lru_cache(maxsize=None)
def commands() -> FrozenSet[str]:
    """The commands of the program that is tested."""
    return find_program().commands()


@functools.lru_cache(maxsize=None)
def has(command: str, word: str = "") -> bool:
    """Whether `mpwb --help` lists a command, and `mpwb COMMAND --help` has a word, if one is given."""
    if command not in commands():
        return False
    return not word or re.search(rf"\b{word}\b", find_program().run([command, "--help"]).written) is not None


def needs(command: str, word: str = "") -> Callable[[T], T]:
    """Marks tests of a command, or of what its help tells by a word: they run once the program says that it has that."""
    what = f"`mpwb {command} --help` has no word {word!r} yet" if word else f"the program has no command {command} yet"
    return unittest.skipUnless(has(command, word), what)  # type: ignore[return-value]


def example(name: str) -> str:
    """The text of an example."""
    with open(os.path.join(EXAMPLES, name), encoding="utf-8") as file:
        return file.read()


def examples() -> Iterator[str]:
    """The names of all examples that are netlists."""
    return (name for name in sorted(os.listdir(EXAMPLES)) if name.endswith(".net"))


def raw(text: str, *words: str) -> str:
    """What the program writes for a text and a command line."""
    return find_program().run(words, text).written


class Case(unittest.TestCase):
    """A test whose long texts are compared in full."""

    maxDiff = None

    def assert_same_waves(self, made: Netlist, text: str) -> None:
        """The netlist has the waves of a text, wire by wire."""
        wanted = raw(text, "waves")
        self.assertTrue(wanted)
        self.assertEqual(wanted, str(made.waves()))

    def fault(self, kind: Any, call: Callable[[], Any]) -> Any:
        """The exception of this kind that a call raises."""
        with self.assertRaises(kind) as caught:
            call()
        return caught.exception
