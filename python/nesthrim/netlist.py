"""Netlists that are made by a program."""

from __future__ import annotations

import html
import re
from contextlib import contextmanager
from typing import TYPE_CHECKING, Any, Iterator, List, Match, Optional, Sequence, Tuple

from .answers.table import Row, module_row
from .contents import Contents
from .difference import edits_between
from .faults import written_by
from .graphs import digraph
from .modules import Module
from .program import Program, find_program
from .questions import Path, Questions, write_file
from .session import Session
from .stressed import Stressed
from .system import asking_the_system
from .variants import Variant, Workspace
from .wires import AnyWire, name_of

if TYPE_CHECKING:
    from .answers.waves import Wave

# of its text a notebook shows so many lines
_MOST_SHOWN = 60


class Netlist(Contents, Questions, Stressed):
    """A netlist with a horizon: the waves are those of the times from 0 to `horizon - 1`.

    Wires, modules, stimuli and bundles are added in any order, changed and removed. `str` of it is its text, and each question runs the program on
    this text. `program` is asked, and that of `find_program` if it is `None`; `form` is that of the text (1, 2 or 4), the least that fits if it
    is `None`. While a module's kind needs 4, the text has that.
    """

    __slots__ = ("_idle",)

    def __init__(self, horizon: int, *, program: Optional[Program] = None, form: Optional[int] = None) -> None:
        super().__init__(horizon, program=program, form=form)
        self._idle: List[Workspace] = []

    @property
    def netlist(self) -> Netlist:
        return self

    def module_named(self, name: str) -> Module:
        """The module of this name. `UnknownName` (4 NoSuchModule) if there is none."""
        return self.module(name)

    def copy(self) -> Netlist:
        """A netlist of its own with the same things: what changes in one doesn't change the other."""
        copied = Netlist(self.horizon, program=self.program, form=self._form)
        copied._take(self)
        return copied

    __copy__ = copy

    # ---- texts and files

    @classmethod
    def read(cls, text: str, *, program: Optional[Program] = None) -> Netlist:
        """The netlist of a text, which the program reads. `Refused` or `Unread`, with the line, as the program says. Comments aren't kept."""
        with Session(text, program) as session:
            written = session.text()
        return cls.written(written, program=program)

    @classmethod
    def load(cls, path: Path, *, program: Optional[Program] = None) -> Netlist:
        """The netlist of a file."""
        with asking_the_system(), open(path, encoding="utf-8", errors="surrogateescape", newline="") as file:
            text = file.read()
        return cls.read(text, program=program)

    def save(self, path: Path) -> None:
        """Writes the text to a file, which `mpwb` reads."""
        write_file(path, str(self))

    # ---- questions

    def _program(self) -> Program:
        return self.program or find_program()

    def _run(self, words: Sequence[str]) -> str:
        return written_by(self._program(), words, str(self), self.origin)

    def _ask(self, words: Sequence[str]) -> str:
        command = _command(words)
        if command is not None:
            return self._run(command)
        with Session(self, self.program) as session:
            return session._ask(words)

    def _two_waves(self, first: AnyWire, second: AnyWire) -> Tuple[Wave, Wave]:
        # (one run for both)
        waves = self.waves()
        return waves[name_of(first)], waves[name_of(second)]

    # ---- edits

    @contextmanager
    def edited(self, *edits: str) -> Iterator[Variant]:
        """The netlist with these edits made, each a line as in a script: questions to it cost an edit, and no run. The netlist stays as it is.

        `Refused` or `Unread` as the program answers the first edit that it doesn't take.
        """
        workspace = self._idle.pop() if self._idle else Workspace(self)
        try:
            with workspace.variant(edits) as variant:
                yield variant
        finally:
            self._idle.append(workspace)

    def close(self) -> None:
        """Ends the programs that `edited` keeps at hand. The netlist can be used on."""
        while self._idle:
            self._idle.pop().close()

    def edits_to(self, other: Netlist) -> List[str]:
        """The edits that make another netlist of this one, each a line as in a script, in an order in which each is accepted; none if they are the same.

        Things are compared by their names. A module of another kind, with other parameters or of another width, and a bundle that has changed, is
        removed and added. `NoEdit` for what no edit says: another horizon, or another width or level of a wire that both have.
        """
        return edits_between(self, other)

    def __getstate__(self) -> Any:
        own, slots = super().__getstate__()
        return own, {**slots, "_idle": []}

    # ---- what others read

    def rows(self) -> List[Row]:
        """The modules as rows of a table: `name`, `kind`, `params`, `inputs`, `outputs`, each with single spaces as in a statement."""
        return [module_row(module) for module in self.known_modules.values()]

    def networkx(self) -> Any:
        """The netlist as a `networkx.DiGraph`, for which the package `networkx` is needed: `PackageMissing` without it.

        Its nodes are "wire NAME", with `name`, `sort`, `width` and `level`, and "module NAME", with `name`, `sort`, `kind` and `params`. An edge from
        a module to a wire, or from a wire to a module, has the `ports`, by number, and their `delay`, of several the least.
        """
        return digraph(self)

    def _repr_html_(self) -> str:
        lines = str(self).splitlines()
        more = [f"and {len(lines) - _MOST_SHOWN} more"] if len(lines) > _MOST_SHOWN else []
        shown = "\n".join([*lines[:_MOST_SHOWN], *more])
        return f"<p>{repr(self)[1:-1]}</p><pre>{html.escape(shown)}</pre>"


# questions that a command answers as they are, with their numbers
_SAME = re.compile(r"waves|report|check|steady|dump|graph|verilog|waits \d+|path \w+ \d+", re.ASCII)
_FOUND = re.compile(r"(report|check(?: brief)?)(?: (\d+) (\d+))?", re.ASCII)
_MEASURE = re.compile(r"measure (\d+) (\d+)((?: \w+)*)", re.ASCII)
_SHOW = re.compile(r"show (\d+) (\d+)((?: \w+)*)((?: --columns \d+)?(?: --ascii)?(?: --hex)?)", re.ASCII)
_WHY = re.compile(r"why (\w+) (\d+) (\d+)", re.ASCII)
_PATH = re.compile(r"path (\w+) (\d+) (\d+)", re.ASCII)


def _command(words: Sequence[str]) -> Optional[List[str]]:
    """The command line that answers a question, if there is one for it."""
    question = " ".join(words)
    if _SAME.fullmatch(question):
        return list(words)
    if found := _FOUND.fullmatch(question):
        times = [] if found[2] is None else [f"--from={found[2]}", f"--to={found[3]}"]
        return [*found[1].replace(" ", " --").split(), *times]
    if found := _MEASURE.fullmatch(question):
        return ["measure", *_of_wires(found)]
    if found := _SHOW.fullmatch(question):
        return ["show", *_of_wires(found), *found[4].split()]
    if found := _WHY.fullmatch(question):
        return ["why", found[1], found[2], f"--steps={found[3]}"]
    if found := _PATH.fullmatch(question):
        return ["path", found[1], found[2], f"--from={found[3]}"]
    return None


def _of_wires(found: Match[str]) -> List[str]:
    """The options for the range and the wires of a question."""
    return [f"--from={found[1]}", f"--to={found[2]}", *(f"--wire={wire}" for wire in found[3].split())]
