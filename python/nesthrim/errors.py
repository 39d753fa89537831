"""What may go wrong. Each exception says what to do; those of the program carry its code and its name."""

from __future__ import annotations

from typing import Any, Dict, Optional, Sequence, Tuple


# of a line so much is shown, and of differences so many
_MOST_SHOWN, _MOST_DIFFERENCES = 300, 10


def shortened(line: str) -> str:
    """A line as a text of an exception shows it."""
    return line if len(line) <= _MOST_SHOWN else line[:_MOST_SHOWN] + "..."


class NesthrimError(Exception):
    """Any exception of this package."""


class ProgramMissing(NesthrimError):
    """There is no program to ask."""


class ProgramFailed(NesthrimError):
    """The program ended otherwise than it should.

    `status` is its exit status, or minus the number of the signal that ended it; `said` is what it wrote to standard error.
    """

    def __init__(self, message: str, status: Optional[int] = None, said: str = "") -> None:
        super().__init__(message, status, said)
        self.status = status
        self.said = said

    def __str__(self) -> str:
        parts = [str(self.args[0])]
        if self.status is not None:
            parts.append(f"status {self.status}")
        if self.said.strip():
            parts.append(self.said.strip())
        return ": ".join(parts)


class OutOfMemory(ProgramFailed):
    """The program ran out of memory. MPWB_MEMORY says how many MiB it may take."""


class BrokenPipe(ProgramFailed):
    """The program, or the desk, has gone away before it answered."""


class NoSeat(NesthrimError):
    """Nobody serves a seat, or it doesn't answer."""


class SystemFailed(NesthrimError, OSError):
    """The system refuses a file, a folder or a process. It is an `OSError` too, with its `errno` and its `filename`."""


class Closed(NesthrimError):
    """A session, a seat or a variant is used after its end."""


class NoEdit(NesthrimError):
    """A difference of two netlists that no edits of a session make, as another horizon: `differences` has a line for each."""

    def __init__(self, differences: Sequence[str]) -> None:
        super().__init__(tuple(differences))
        self.differences = tuple(differences)

    def __str__(self) -> str:
        many = len(self.differences) - _MOST_DIFFERENCES
        more = f"; and {many} more" if many > 0 else ""
        shown = "; ".join(self.differences[:_MOST_DIFFERENCES])
        return f"no edits make this difference: {shown}{more}: open another session, Session(n), on the netlist as it is to be"


class PackageMissing(NesthrimError, ImportError):
    """A package of Python that this one does without, but not for what was asked."""


class AnswerError(NesthrimError):
    """An answer of the program can't be understood: `line` is the first line that can't."""

    def __init__(self, question: str, line: str) -> None:
        super().__init__(question, line)
        self.question = question
        self.line = line

    def __str__(self) -> str:
        return (
            f"the answer to {self.question!r} has a line that this package doesn't know: {self.line!r}; "
            "take the package from the same checkout as the program, or point MPWB to the program of this checkout"
        )


class Fault(NesthrimError):
    """The program's answer to something that is wrong in a netlist, an edit or a question.

    - `code`, `name`: the program's, as 3 and "NoSuchWire"; `mpwb explain NAME` tells what it means;
    - `statement`: the line at fault, if it is known;
    - `line`: its number in the netlist's text, from 1, if it is in one; 0 is the text as a whole;
    - `word`: the word at fault, "" if a word is missing at the end of the line, `None` if the program doesn't tell it;
    - `meaning`: what the program says of it beside the word, else "";
    - `place`, `reason`: of a batch (21 InBatch), the place of the edit that is refused, from 1, and the fault of this edit alone;
    - `made_at`: the file and the line of the Python program that made the statement, if a method of this package did.
    """

    def __init__(self, code: int, name: str, **details: Any) -> None:
        super().__init__(code, name)
        self.code = code
        self.name = name
        self.statement: Optional[str] = details.pop("statement", None)
        self.line: Optional[int] = details.pop("line", None)
        self.word: Optional[str] = details.pop("word", None)
        self.meaning: str = details.pop("meaning", "")
        self.place: Optional[int] = details.pop("place", None)
        self.reason: Optional[Fault] = details.pop("reason", None)
        self.made_at: Optional[Tuple[str, int]] = details.pop("made_at", None)
        if details:
            raise TypeError(f"a fault has no {', '.join(details)}")

    verb = "failed"

    def details(self) -> Dict[str, Any]:
        """What is known beside the code and the name."""
        names = ("statement", "line", "word", "meaning", "place", "reason", "made_at")
        return {name: getattr(self, name) for name in names}

    def __reduce__(self) -> Tuple[Any, ...]:
        return _fault_again, (type(self), self.code, self.name, self.details())

    def __str__(self) -> str:
        text = f"{self.verb}: {self.code} {self.name}"
        if self.place is not None and self.reason is not None:
            text += f", its edit {self.place} by {self.reason.code} {self.reason.name}"
        if self.line is not None:
            text += f", line {self.line} of the netlist"
        if self.statement is not None:
            text += f": `{shortened(self.statement)}`"
        if self.word is not None:
            text += f", at {self.word!r}" if self.word else ", at the end of the line"
        if self.meaning:
            text += f": {self.meaning}"
        if self.made_at is not None:
            text += f" (made at {self.made_at[0]}:{self.made_at[1]})"
        # (what no file can have, as half of a character, is shown by its number)
        return text.encode("utf-8", "backslashreplace").decode("utf-8")


def _fault_again(kind: type, code: int, name: str, details: Dict[str, Any]) -> Fault:
    fault = kind(code, name, **details)
    assert isinstance(fault, Fault)
    return fault


class Refused(Fault):
    """A netlist refuses an edit, a statement of its text, or a question about a wire that doesn't stand."""

    verb = "refused"


class Unread(Fault):
    """A line isn't one that the program reads."""

    verb = "not read"


class UnknownName(Refused, KeyError):
    """A netlist, or an answer, has nothing of a name that was asked for."""

    def __str__(self) -> str:
        return Fault.__str__(self)
