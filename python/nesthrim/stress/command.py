"""The commands `./mpwb stress` and `./mpwb races`."""

from __future__ import annotations

import argparse
import os
import sys
import time
from typing import Callable, List, NoReturn, Optional, Sequence, Tuple, Union

from ..errors import NesthrimError, ProgramFailed, ProgramMissing
from ..netlist import Netlist
from ..program import find_program
from .ask import Question
from .answer import Limit, Stress
from .delays import Spread, read_groups
from .fit import fit
from .plot import margins, picture, table
from .races import races
from .scene import save

# how long nothing is told at a terminal of how far it is
_QUIET = 1.0

_FOUND = 5


class Ended(Exception):
    """The command ends with a status and a line on standard error."""

    def __init__(self, status: int, line: str = "") -> None:
        super().__init__(line)
        self.status, self.line = status, line


class Words(argparse.ArgumentParser):
    """The words of a command; wrong ones end it with status 2."""

    def error(self, message: str) -> NoReturn:
        raise Ended(2, f"mpwb: {message}: `./mpwb {self.prog} --help` describes the command")


class Progress:
    """One line at a terminal that says how far it is, and goes before the answer."""

    def __init__(self) -> None:
        self._from, self._shown = time.monotonic() + _QUIET, False

    def tell(self, line: str) -> None:
        """Says what is done now."""
        if sys.stderr.isatty() and time.monotonic() > self._from:
            width = (os.get_terminal_size(sys.stderr.fileno()).columns or 80) - 1
            sys.stderr.write(f"\r\033[K{f'mpwb: {line}'[:width]}")
            sys.stderr.flush()
            self._shown = True

    def clear(self) -> None:
        """Takes the line away."""
        if self._shown:
            sys.stderr.write("\r\033[K")
            sys.stderr.flush()
            self._shown = False


def _words(command: str) -> Words:
    words = Words(prog=command, add_help=False, allow_abbrev=False)
    words.add_argument("file", nargs="?", default="-")
    if command == "stress":
        words.add_argument("--spread", type=float, default=10)
        words.add_argument("--limit", action="store_true")
        words.add_argument("--most", type=int, default=60)
        words.add_argument("--fit", action="store_true")
        words.add_argument("--each", action="store_true")
        words.add_argument("--together")
        words.add_argument("--range", action="append", default=[], dest="ranges")
        words.add_argument("--corner", default="100..100")
        words.add_argument("--seconds", type=float, default=60)
        words.add_argument("--out")
        words.add_argument("--plot")
    return words


def _read(path: str) -> str:
    try:
        if path == "-":
            return sys.stdin.buffer.read().decode("utf-8", "surrogateescape")
        with open(path, encoding="utf-8", errors="surrogateescape", newline="") as file:
            return file.read()
    except OSError as error:
        raise Ended(3, f"mpwb: can't read {path}: {error.strerror}" if path != "-" else "mpwb: read failed") from error


def _netlist(path: str) -> Netlist:
    """The netlist of a file. It ends the command as the program does if it isn't one."""
    text = _read(path)
    output = find_program().run(["check"], text)
    if output.status not in (0, _FOUND):
        raise Ended(output.status if output.status > 0 else 70, output.said)
    return Netlist.read(text)


def _ends(text: str) -> Tuple[float, float]:
    """Two numbers, as 70..140. `ValueError` for another text."""
    low, dots, high = text.partition("..")
    if not dots:
        raise ValueError(f"{text!r} has no two ends, as 70..140")
    return float(low), float(high)


def _question(words: argparse.Namespace, netlist: Netlist, progress: Progress) -> Question:
    try:
        groups = read_groups(_read(words.together)) if words.together else []
        ranges = {name: _ends(ends) for name, _, ends in (given.partition("=") for given in words.ranges)}
        spread = Spread(words.spread, ranges, groups, _ends(words.corner))
        question = Question(netlist, spread, "each" if words.each else "same", words.seconds, progress.tell)
        question.keeps = True
        question.check_names()
    except ValueError as error:
        raise Ended(2, f"mpwb: {error}") from error
    return question


def _keep_given(words: argparse.Namespace) -> None:
    """Refuses to write over the netlist that is read."""
    for made in ([f"{words.out}.net"] if words.out else []) + ([words.plot] if words.plot else []):
        if words.file != "-" and os.path.exists(made) and os.path.exists(words.file) and os.path.samefile(made, words.file):
            raise Ended(2, f"mpwb: {made} is the netlist that is read, and would be written over: choose another name")


def _stress(words: argparse.Namespace, progress: Progress) -> int:
    _keep_given(words)
    if not 0 < words.most < 100:
        raise Ended(2, "mpwb: --most is a number of per cent from 1 to 99")
    netlist = _netlist(words.file)
    question = _question(words, netlist, progress)
    if words.fit:
        fitted = fit(netlist, question.spread, words.seconds, progress.tell)
        progress.clear()
        print(fitted, end="")
        if words.out:
            _write(lambda: fitted.netlist.save(f"{words.out}.net"))
        return fitted.stress.status
    answer: Union[Limit, Stress] = question.limit(words.most) if words.limit else question.at(words.spread)
    progress.clear()
    print(answer, end="", flush=True)
    found: Stress = answer.at if isinstance(answer, Limit) else answer
    if words.out and found.worst is not None:
        worst = found.worst
        _write(lambda: save(worst, words.out))
    if words.plot and found.verdict != "broken":
        _plot(question, words.plot, found.spread or words.spread)
    progress.clear()
    return answer.status


def _plot(question: Question, path: str, last: float) -> None:
    lines = margins(question, last)

    def write() -> None:
        base = path[: -len(".svg")] if path.endswith(".svg") else path
        for name, text in ((f"{base}.svg", picture(lines)), (f"{base}.csv", table(lines))):
            with open(name, "w", encoding="utf-8", newline="\n") as file:
                file.write(text)

    _write(write)


def _write(write: Callable[[], object]) -> None:
    try:
        write()
    except OSError as error:
        raise Ended(3, f"mpwb: can't write {error.filename}: {error.strerror}") from error


def _races(words: argparse.Namespace, progress: Progress) -> int:
    progress.tell("follows the causes of each transfer")
    found = races(_netlist(words.file))
    progress.clear()
    print(found, end="", flush=True)
    return found.status


def main(words: Optional[Sequence[str]] = None) -> int:
    """Runs a command line, as `stress FILE --spread 10`; the exit status."""
    given: List[str] = list(sys.argv[1:] if words is None else words)
    progress = Progress()
    try:
        command = given[0]
        parsed = _words(command).parse_args(given[1:])
        return _stress(parsed, progress) if command == "stress" else _races(parsed, progress)
    except Ended as end:
        progress.clear()
        if end.line:
            print(end.line, file=sys.stderr)
        return end.status
    except (ProgramMissing, ProgramFailed) as error:
        progress.clear()
        print(f"mpwb: {error}", file=sys.stderr)
        return error.status if isinstance(error, ProgramFailed) and error.status in (3, 4) else 70
    except NesthrimError as error:
        progress.clear()
        print(f"mpwb: {error}", file=sys.stderr)
        return 1
    except BrokenPipeError:
        return 3
    except KeyboardInterrupt:
        progress.clear()
        return 130
