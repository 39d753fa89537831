"""What the program says of a netlist that it doesn't take, as exceptions."""

from __future__ import annotations

import re
from typing import Any, Callable, Dict, NamedTuple, Optional, Sequence, Tuple

from .errors import Fault, NesthrimError, Refused, UnknownName, Unread
from .program import Output, Program, failure


class Origin(NamedTuple):
    """A line of a netlist, and the file and the line of the Python program that made it, if one did."""

    statement: str
    made_at: Optional[Tuple[str, int]]


_REFUSED = re.compile(r"^mpwb: line (\d+): 7 Refused: (\d+) (\w+)$", re.MULTILINE)
_UNREAD = re.compile(r"^mpwb: line (\d+): (\d+) (\w+)$", re.MULTILINE)
_NO_WIRE = re.compile(r"^mpwb: no such wire: (.*)$", re.MULTILINE)
_NO_PLACE = re.compile(r"^mpwb: no such module or bundle: (.*)$", re.MULTILINE)
# the status of `check` if it finds more than notes
_FOUND = 5
# the line, a mark below the word at fault, and the meaning
_MARKED = re.compile(r"^ *\d+ \| (?P<line>.*)\n *\| (?P<blank> *)(?P<mark>\^+) *(?:\n(?P<meaning>[\s\S]*))?", re.MULTILINE)


def fault_of(output: Output, program: Program, text: str, origin: Callable[[int], Optional[Origin]]) -> NesthrimError:
    """The exception for a run that gave no answer. `origin` tells where the line of a number comes from."""
    no_wire = _NO_WIRE.search(output.said)
    if no_wire:
        return UnknownName(3, "NoSuchWire", word=no_wire[1], meaning="no wire of the netlist has this name")
    no_place = _NO_PLACE.search(output.said)
    if no_place:
        return UnknownName(4, "NoSuchModule", word=no_place[1], meaning="no module and no bundle of the netlist has this name")
    refused = _REFUSED.search(output.said)
    unread = None if refused else _UNREAD.search(output.said)
    found = refused or unread
    if found is None:
        return failure(output.status, output.said)
    line = int(found[1])
    details: Dict[str, Any] = {"line": line, **_word(program, text, output)}
    source = origin(line)
    if source is not None:
        details.update(statement=source.statement, made_at=source.made_at)
    kind = Refused if refused else Unread
    fault: Fault = kind(int(found[2]), found[3], **details)
    return fault


def written_by(program: Program, words: Sequence[str], text: str, origin: Callable[[int], Optional[Origin]]) -> str:
    """What a command of the program writes of a netlist's text, or the exception of `fault_of`."""
    output = program.run(words, text)
    if output.status != 0 and not (words[0] == "check" and output.status == _FOUND):
        raise fault_of(output, program, text, origin)
    return output.written


def no_origin(line: int) -> None:
    """Where the lines of a netlist come from that the program has written: nobody knows."""


def _word(program: Program, text: str, output: Output) -> Dict[str, str]:
    """The word at fault and what is said of it, by the command `check`; nothing if the program doesn't tell it."""
    said = output.said
    if not _MARKED.search(said):
        said = program.run(["check"], text, as_file=True).said
    found = _MARKED.search(said)
    if not found:
        return {}
    begin = len(found["blank"])
    word = found["line"][begin : begin + len(found["mark"])].strip()
    return {"word": word, "meaning": " ".join((found["meaning"] or "").split())}
