"""The questions that a netlist, a session, a seat or a variant answers."""

from __future__ import annotations

import os
from abc import ABC, abstractmethod
from typing import Any, Callable, Dict, Iterable, Literal, Optional, Sequence, Tuple, Union, overload

from .answers.causes import PathPart, Step, Wait, read_path, read_waits, read_why
from .answers.latency import Latency, latency_between
from .answers.measure import Measure, read_measure
from .answers.picture import Page, Picture
from .answers.report import BriefCheck, Check, Report, read_brief_check, read_check, read_report
from .answers.steady import Steady, read_steady
from .answers.table import Items
from .answers.waves import Wave, Waves, read_wave, read_waves
from .answers.work import MadeEdit, Work, read_edits, read_version, read_work
from .errors import ProgramFailed
from .modules import Module
from .names import plain_name
from .system import asking_the_system
from .wires import AnyWire, Bundle, name_of

# a time above all horizons: the program reads it as the last time, and at the end of a range as the horizon
END = 2**64 - 1

Path = Union[str, "os.PathLike[str]"]
AnyPlace = Union[str, Module, Bundle]

# the status of a program that doesn't have the command
_NO_COMMAND = 2

# the first words of edits
_EDITS = {"wire", "module", "stim", "bundle", "remove", "input", "output", "indelay", "delay", "clear", "batch"}


def _question(line: str) -> Sequence[str]:
    """The words of a question."""
    words = line.split()
    if not words or words[0] in _EDITS:
        raise ValueError(f"{line!r} is no question: `edited` makes edits for a while, and a `Session` takes them")
    return words


def _text(text: str, question: str) -> str:
    return text


def _any_check(text: str, question: str) -> Union[Check, BriefCheck]:
    return read_brief_check(text, question) if question.split()[1:2] == ["brief"] else read_check(text, question)


def _one_wave(text: str, question: str) -> Wave:
    return read_wave(text.rstrip("\n"), question)


# how the answer to the question of each first word is read
READERS: Dict[str, Callable[[str, str], Any]] = {
    "wave": _one_wave,
    "waves": read_waves,
    "report": read_report,
    "check": _any_check,
    "measure": read_measure,
    "steady": read_steady,
    "why": read_why,
    "path": read_path,
    "waits": read_waits,
    "work": read_work,
    "edits": read_edits,
    "version": read_version,
}


def _place_name(place: AnyPlace) -> str:
    """The name of a module or a bundle that is given by its name or as an object."""
    return plain_name(place) if isinstance(place, str) else place.name


def write_file(path: Optional[Path], text: str) -> None:
    """Writes a text to a file, if one is named."""
    if path is not None:
        with asking_the_system(), open(path, "w", encoding="utf-8", newline="\n") as file:
            file.write(text)


class Questions(ABC):
    """What can be asked. Times are in units from 0. A time at or above the horizon is read as the last one, and as the horizon if it ends a range.

    Each question raises `UnknownName` (3 NoSuchWire) if there is no wire of a name, another `Refused` or `Unread` if the program doesn't take
    the netlist, and `AnswerError` if the answer can't be understood.
    """

    __slots__ = ()

    @abstractmethod
    def _ask(self, words: Sequence[str]) -> str:
        """What the program writes for the words of a question."""

    @abstractmethod
    def _run(self, words: Sequence[str]) -> str:
        """What a command of the program, with these words, writes for the netlist as it is."""

    def ask(self, line: str) -> str:
        """The answer to a line of a script that asks, as "measure 0 100": the text that the program writes. `ValueError` for an edit."""
        return self._ask(_question(line))

    def answer(self, line: str) -> Any:
        """The answer to a line of a script that asks, as the object that the method of this name returns."""
        return self._answer(_question(line))

    def _answer(self, words: Sequence[str]) -> Any:
        text = self._ask(words)
        return READERS.get(words[0] if words else "", _text)(text, " ".join(words))

    def waves(self) -> Waves:
        """The waves of all wires."""
        waves: Waves = self._answer(["waves"])
        return waves

    def wave(self, wire: AnyWire) -> Wave:
        """The wave of one wire."""
        wave: Wave = self._answer(["wave", name_of(wire)])
        return wave

    def _found(self, words: Sequence[str], start: int, end: int, at: Iterable[AnyPlace]) -> str:
        """The answer to `report` or `check`. A question names no modules and bundles, but a command does."""
        names = [f"--at={_place_name(place)}" for place in at]
        if names:
            return self._run([words[0], *(f"--{word}" for word in words[1:]), f"--from={start}", f"--to={end}", *names])
        return self._ask([*words, *([] if (start, end) == (0, END) else [str(start), str(end)])])

    def report(self, start: int = 0, end: int = END, at: Iterable[AnyPlace] = ()) -> Report:
        """What breaks a rule of a module or a bundle at the times from `start` to before `end`: of all, or of the modules and bundles of some names.

        `UnknownName` (4 NoSuchModule) for a name that neither a module nor a bundle has.
        """
        return read_report(self._found(["report"], start, end, at), "report")

    @overload
    def check(self, start: int = 0, end: int = END, at: Iterable[AnyPlace] = (), *, brief: Literal[False] = False) -> Check: ...

    @overload
    def check(self, start: int = 0, end: int = END, at: Iterable[AnyPlace] = (), *, brief: Literal[True]) -> BriefCheck: ...

    def check(self, start: int = 0, end: int = END, at: Iterable[AnyPlace] = (), *, brief: bool = False) -> Union[Check, BriefCheck]:
        """Whether it works: the report, data that are late, modules that wait for each other for ever, and notes.

        The report and the late data are those of the times from `start` to before `end`; all else is of the whole run. `at` is as that of `report`:
        it leaves the deadlocks with such a module, and the notes about such a bundle. `brief` has findings and late data in groups.
        """
        if brief:
            return read_brief_check(self._found(["check", "brief"], start, end, at), "check brief")
        return read_check(self._found(["check"], start, end, at), "check")

    def measure(self, start: int = 0, end: int = END, wires: Iterable[AnyWire] = ()) -> Measure:
        """Events of wires, the gaps between them and margins of bundles, at the times from `start` to before `end`: of all, or of these wires alone."""
        measure: Measure = self._answer(["measure", str(start), str(end), *map(name_of, wires)])
        return measure

    def steady(self) -> Steady:
        """Whether the netlist repeats for ever, how fast, and which modules set the pace."""
        steady: Steady = self._answer(["steady"])
        return steady

    def why(self, wire: AnyWire, time: int = END, steps: int = 20) -> Items[Step]:
        """The chain of causes of the wire's level at a time, the last change first, of at most `steps` steps."""
        why: Items[Step] = self._answer(["why", name_of(wire), str(time), str(steps)])
        return why

    def path(self, wire: AnyWire, time: int = END, since: Optional[int] = None) -> Items[PathPart]:
        """Where the time of this chain went: the modules that set the pace, the slowest first.

        With `since`, which has to be below `time`, only the time from it on counts. If the chain begins before, the last part is what lies before.
        """
        path: Items[PathPart] = self._answer(["path", name_of(wire), str(time), *([] if since is None else [str(since)])])
        return path

    def waits(self, time: int = END) -> Items[Wait]:
        """Which modules and bundles wait at a time."""
        waits: Items[Wait] = self._answer(["waits", str(time)])
        return waits

    def show(self, start: int = 0, end: int = END, wires: Iterable[AnyWire] = (), columns: int = 72, ascii: bool = False, hex: bool = False) -> str:
        """The timing diagram of a range, of these wires or of all, as text of at most `columns` columns."""
        options = ["--columns", str(columns), *(["--ascii"] if ascii else []), *(["--hex"] if hex else [])]
        return self._ask(["show", str(start), str(end), *map(name_of, wires), *options])

    def svg(self, start: int = 0, end: int = END, wires: Iterable[AnyWire] = (), columns: int = 72) -> Picture:
        """The timing diagram as an SVG picture, which a notebook shows."""
        chosen = [f"--wire={name_of(wire)}" for wire in wires]
        return Picture(self._run(["show", "--svg", f"--from={start}", f"--to={end}", f"--columns={columns}", *chosen]))

    def wave_json(self, start: int = 0, end: int = END, wires: Iterable[AnyWire] = (), columns: int = 72, hex: bool = False) -> str:
        """The waves of a range, of these wires or of all, as WaveJSON, which WaveDrom draws."""
        chosen = [*(f"--wire={name_of(wire)}" for wire in wires), *(["--hex"] if hex else [])]
        return self._run(["show", "--json", f"--from={start}", f"--to={end}", f"--columns={columns}", *chosen])

    def page(self) -> Page:
        """The waves as an HTML page, which a notebook shows. Only the script `./mpwb` makes one: `ProgramFailed` if MPWB names another program."""
        try:
            return Page(self._run(["page"]))
        except ProgramFailed as fault:
            if fault.status != _NO_COMMAND:
                raise
            raise ProgramFailed("only the script makes pages: set MPWB to the path of ./mpwb of a checkout of Nesthrim", fault.status, fault.said) from fault

    def latency(self, first: AnyWire, second: AnyWire, start: int = 0, end: int = END) -> Latency:
        """How long changes of the wire `first`, at the times from `start` to before `end`, take to be answered by changes of the wire `second`.

        A change of `second` answers the earliest change of `first` before it that no change has answered yet. So changes neither overtake each
        other nor get lost, as in a pipeline; a change of `second` before which all are answered is none's answer.
        """
        return latency_between(*self._two_waves(first, second), start, end)

    def _two_waves(self, first: AnyWire, second: AnyWire) -> Tuple[Wave, Wave]:
        return self.wave(first), self.wave(second)

    def graph(self) -> str:
        """The netlist as a graph for `dot`."""
        return self._ask(["graph"])

    def text(self) -> str:
        """The netlist's text, as the program writes it."""
        return self._ask(["text"])

    def dump(self, path: Optional[Path] = None, unit: str = "1ns") -> str:
        """The waves as a value change dump in which a unit of time is as long as `unit` says, as "10ps"; written to a file if `path` is given."""
        text = self._ask(["dump"]) if unit == "1ns" else self._run(["dump", f"--unit={unit}"])
        write_file(path, text)
        return text

    def verilog(self, path: Optional[Path] = None) -> str:
        """The netlist as a Verilog file, written to a file if `path` is given."""
        text = self._ask(["verilog"])
        write_file(path, text)
        return text


class EditQuestions(Questions):
    """What can be asked about edits, beside all else."""

    def version(self) -> int:
        """How many edits were accepted."""
        version: int = self._answer(["version"])
        return version

    def edits(self, start: int = 1) -> Items[MadeEdit]:
        """The accepted edits from this number on, each as the line of a script that makes it."""
        edits: Items[MadeEdit] = self._answer(["edits", str(start)])
        return edits

    def work(self) -> Items[Work]:
        """What was evaluated again for the last edit that was accepted. A seat refuses this (23 NoWork)."""
        work: Items[Work] = self._answer(["work"])
        return work
