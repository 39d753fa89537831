"""Edits and questions, line by line, to whoever answers them."""

from __future__ import annotations

import re
from abc import abstractmethod
from typing import TYPE_CHECKING, Any, Dict, Optional, Sequence, Type, TypeVar

from .answers.work import Outcome
from .channel import Channel, Ended, Silent
from .errors import Fault, NesthrimError, NoSeat, Refused, UnknownName, Unread, shortened
from .lines import batch_of
from .program import Program
from .questions import EditQuestions

if TYPE_CHECKING:
    from .netlist import Netlist

T = TypeVar("T", bound="Talk")

_ACCEPTED = re.compile(r"accepted (\d+)\n")
_FAULT = re.compile(r"(refused|unread) (\d+) ([A-Z]\w*)(?: (\d+) (\d+) ([A-Z]\w*))?\n")
_MEANINGS = {
    3: "no wire has this name",
    22: "a viewer asks, and edits nothing",
    23: "only a session of `play` knows this",
    24: "the desk can't keep it",
}


def _fault_in(answer: str, line: str) -> Optional[Fault]:
    """The fault that an answer tells, if it does."""
    found = _FAULT.fullmatch(answer)
    if not found:
        return None
    word, code, name = found[1], int(found[2]), found[3]
    details: Dict[str, Any] = {"statement": line, "meaning": _MEANINGS.get(code, "") if word == "refused" else ""}
    if found[4]:
        part = " ".join(line.split()[1:]).split(" ; ")[int(found[4]) - 1]
        details.update(place=int(found[4]), reason=Refused(int(found[5]), found[6], statement=part))
    kind: Type[Fault] = Unread if word == "unread" else UnknownName if code == 3 else Refused
    return kind(code, name, **details)


class Talk(EditQuestions):
    """A talk by a channel: lines are answered one after the other."""

    program: Optional[Program]

    def __init__(self, channel: Channel) -> None:
        self._channel = channel

    @abstractmethod
    def _gone(self) -> NesthrimError:
        """The exception for an answer that didn't come since the other end has gone away."""

    @abstractmethod
    def close(self) -> None:
        """Ends the talk. Nothing can be asked then."""

    def __enter__(self: T) -> T:
        return self

    def __exit__(self, *_: object) -> None:
        self.close()

    def _say(self, line: str) -> str:
        """The answer to a line, whatever it is."""
        try:
            return self._channel.ask(line)
        except Ended as error:
            raise self._gone() from error
        except Silent as error:
            self.close()
            raise NoSeat(f"{shortened(line)!r} isn't answered in time: is the desk running, and does somebody else read at this seat?") from error

    @property
    def is_open(self) -> bool:
        """Whether lines can be asked."""
        return self._channel.is_open

    def ask(self, line: str) -> str:
        """The answer to any line of a script, as the program writes it. `Refused` or `Unread` if it says so."""
        answer = self._say(line)
        fault = _fault_in(answer, line)
        if fault is not None:
            raise fault
        return answer

    def _ask(self, words: Sequence[str]) -> str:
        return self.ask(" ".join(words))

    def answer(self, line: str) -> Any:
        return self._answer(line.split())

    def netlist(self) -> Netlist:
        """The netlist as it is now, to be made more of."""
        from .netlist import Netlist

        return Netlist.written(self.text(), program=self.program)

    def attempt(self, line: str) -> Outcome:
        """Makes an edit: its number, or the fault, by which nothing has changed."""
        answer = self._say(line)
        accepted = _ACCEPTED.fullmatch(answer)
        fault = _fault_in(answer, line)
        if accepted is None and fault is None:
            raise ValueError(f"{line!r} is no edit: `ask` asks a question")
        return Outcome(int(accepted[1]) if accepted else None, fault)

    def edit(self, line: str) -> int:
        """Makes an edit, a line as in a script: its number among the accepted ones. `Refused` or `Unread` if nothing is changed."""
        outcome = self.attempt(line)
        if outcome.fault is not None:
            raise outcome.fault
        assert outcome.number is not None
        return outcome.number

    def batch(self, *lines: str) -> int:
        """Makes 1 to 256 edits as one: all, or none and `Refused` (21 InBatch), whose `place` and `reason` tell of the first that is refused.

        A comment of an edit is left out.
        """
        return self.edit(batch_of(lines))
