"""A netlist that is edited, line by line."""

from __future__ import annotations

import subprocess
import weakref
from typing import TYPE_CHECKING, Optional, Sequence, Union

from .channel import Channel
from .errors import BrokenPipe, NesthrimError, NoEdit
from .faults import Origin, fault_of, no_origin, written_by
from .lines import LONGEST_LINE, MOST_EDITS, batch_of, has_room
from .program import Complaints, Output, Program, find_program
from .talk import Talk

if TYPE_CHECKING:
    from .netlist import Netlist

_SECONDS = 5.0


class Session(Talk):
    """A run of `mpwb play FILE`, which answers edits and questions until it is closed, or its `with` ends.

    `netlist` is a netlist or a text of one. `Refused` or `Unread`, with the line, if the program doesn't take it.
    """

    def __init__(self, netlist: Union[Netlist, str], program: Optional[Program] = None) -> None:
        self.program: Program = program or getattr(netlist, "program", None) or find_program()
        self._text = str(netlist)
        self._netlist = None if isinstance(netlist, str) else netlist
        self._process = self.program.start_on(["play"], self._text, stdin=subprocess.PIPE)
        self._complaints = Complaints(self._process)
        super().__init__(Channel.of(self._process))
        self._end = weakref.finalize(self, _end_run, self._channel, self._process, self._complaints)
        # (a netlist that isn't taken ends the program before the first answer)
        self.version()

    def _origin(self, line: int) -> Optional[Origin]:
        if self._netlist is not None:
            return self._netlist.origin(line)
        lines = self._text.split("\n")
        return Origin(lines[line - 1], None) if 0 < line <= len(lines) else None

    def _gone(self) -> NesthrimError:
        status, said = self._complaints.end()
        if status <= 0:
            return BrokenPipe("the program has gone away before it answered; open another session", status, said)
        return fault_of(Output(status, "", said), self.program, self._text, self._origin)

    def _run(self, words: Sequence[str]) -> str:
        return written_by(self.program, words, self.text(), no_origin)

    def to(self, netlist: Netlist) -> int:
        """Makes the edits by which the session's netlist becomes this one, as one batch; nothing if it is this one. How many edits were accepted.

        Names tell what is the same (`Netlist.edits_to`). `NoEdit`, before anything is sent, for another horizon, another width or level of a wire
        that both have, and for more edits than a batch takes; `Refused` (21 InBatch) if the program doesn't take the netlist. Nothing is changed
        then.
        """
        edits = self.netlist().edits_to(netlist)
        if not edits:
            return self.version()
        if not has_room(edits):
            many = f"{len(edits)} edits of {len(batch_of(edits))} bytes in all"
            raise NoEdit([f"it takes {many}, and a batch has {MOST_EDITS} edits and {LONGEST_LINE} bytes at most"])
        return self.batch(*edits)

    def close(self) -> None:
        self._end()

    def __repr__(self) -> str:
        return f"<session of {self.program.path}, {'open' if self._channel.is_open else 'closed'}>"


def _end_run(channel: Channel, process: subprocess.Popen[bytes], complaints: Complaints) -> None:
    channel.close()
    if process.returncode is not None:
        return
    try:
        process.wait(_SECONDS)
    except subprocess.TimeoutExpired:
        # (all that was asked was answered, so nothing is lost)
        process.kill()
    complaints.end()
