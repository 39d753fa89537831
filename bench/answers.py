"""What each command of the program answers to an input (`docs/FORMATS.md`), computed by `reader.py` and `reference.py`, without the program."""
import dataclasses
import re

import checks
import formats
import pictures
import questions
import reader
import reference
import steadiness
import timing
import verilog as verilog_texts
from circuit import Refused
from reader import Fault

# how many bytes a text may have, and with `format 4`
SHORT, LONG = 4_194_304, 1_073_741_824
MOST_EDITS = 4096


@dataclasses.dataclass
class Answer:
    """What a run does: its status, what it writes, as the answers to its lines where it has any, and what it complains of."""

    status: int
    parts: list
    complaint: bytes = b""

    @property
    def written(self):
        return b"".join(self.parts)


def complaint(status, line):
    return Answer(status, [], f"mpwb: {line}\n".encode())


def sections(text):
    """The netlist's text and the parts behind each line whose one word is `---`, each as the text of its lines."""
    found = [[]]
    for line in re.findall(r"[^\n]*\n|[^\n]+", text):
        if reader.words_of(line.removesuffix("\n")) == ["---"]:
            found.append([])
        else:
            found[-1].append(line)
    return ["".join(lines) for lines in found]


def longest(text):
    """How many bytes a text may have that begins so."""
    words = next((words for words in map(reader.words_of, reader.lines_of(text[: SHORT + 1])) if words), [])
    is_fourth = len(words) == 2 and words[0] == "format" and re.fullmatch("0{0,19}4", words[1])
    return LONG if is_fourth else SHORT


def opened(text):
    """The netlist of a text, or the answer where there is none."""
    if len(text) > longest(text):
        return None, complaint(1, "line 0: 8 TooLong")
    try:
        return reader.netlist(text), None
    except Fault as fault:
        told, _, line = str(fault).rpartition(" at ")
        return None, complaint(1, f"line {line}: {told}")


def of_netlist(text, question):
    """The answer of a command that writes what a question of a script asks for."""
    circuit, fault = opened(text)
    return fault or Answer(0, [Keeper(circuit).answer([question]).encode()])


def waves(text):
    return of_netlist(text, "waves")


def report(text):
    return of_netlist(text, "report")


def dump(text):
    return of_netlist(text, "dump")


def graph(text):
    return of_netlist(text, "graph")


def verilog(text):
    return of_netlist(text, "verilog")


def check(text):
    """What `check` answers: its status is 5 if a line is no note."""
    circuit, fault = opened(text)
    if fault:
        return fault
    written, status = checks.check(circuit)
    return Answer(status, [written.encode()])


class Keeper:
    """A netlist that is edited, and the work of the last edit that was accepted."""

    def __init__(self, circuit):
        self.circuit, self.accepted, self.work = circuit, 0, []
        self.levels, self.states, _ = reference.evaluated(circuit)

    def change(self, edit):
        new = reader.edited(self.circuit, edit)
        if self.accepted == MOST_EDITS:
            raise Refused(18)
        levels, states, _ = reference.evaluated(new)
        self.work = reference.work(self.circuit, self.states, new, states)
        self.circuit, self.levels, self.states, self.accepted = new, levels, states, self.accepted + 1

    def answer(self, question):
        if question[0] == "wave":
            wire = self.circuit.wire(question[1])
            return "refused 3 NoSuchWire\n" if wire is None else f"{formats.wave_line(self.circuit.wires[wire], self.levels[wire])}\n"
        if question[0] == "work":
            return "".join(f"{self.circuit.module_names[module]} {start} {end}\n" for module, start, end in self.work)
        if question[0] == "show":
            return self.shown(*question[1:])
        if question[0] == "graph":
            return pictures.graph(self.circuit)
        if question[0] == "verilog":
            return verilog_texts.text(self.circuit)
        if question[0] == "text":
            return formats.text(self.circuit)
        if question[0] == "report":
            return checks.report(self.circuit, *question[1:])
        if question[0] == "check":
            brief = question[1:2] == ["brief"]
            return checks.check(self.circuit, *question[2 if brief else 1 :], is_brief=brief)[0]
        if question[0] == "steady":
            return steadiness.steady(self.circuit)
        if question[0] == "waits":
            return timing.waits(self.circuit, question[1])
        if question[0] in ("why", "path"):
            return self.of_wires(question[1:2], lambda: getattr(questions, question[0])(self.circuit, self.circuit.wire(question[1]), *question[2:]))
        if question[0] == "measure":
            return self.of_wires(question[3:], lambda: timing.measure(self.circuit, *question[1:3], question[3:]))
        return {"waves": formats.waves, "dump": formats.dump}[question[0]](self.circuit, self.levels)

    def of_wires(self, names, answer):
        """An answer about the wires of these names, if all stand."""
        return "refused 3 NoSuchWire\n" if None in map(self.circuit.wire, names) else answer()

    def shown(self, begin, end, names, columns, is_hex, is_ascii):
        marks, digits = pictures.ASCII if is_ascii else pictures.UNICODE, pictures.hex_digits if is_hex else pictures.decimal
        return self.of_wires(names, lambda: pictures.show(self.circuit, begin, end, columns, names or None, marks, digits))

    def reply(self, line, lacks_memory):
        """The reply to a line of a script. Where memory is lacking for an edit that would be accepted, or for a batch whose edits are judged,
        it is refused, and nothing is changed."""
        try:
            said = reader.line_of(line)
            if said is None:
                return ""
            if isinstance(said, list):
                return self.answer(said)
            if lacks_memory:
                return "refused 19 OutOfMemory\n"
            self.change(said)
            return f"accepted {self.accepted}\n"
        except Fault as fault:
            return f"unread {fault}\n"
        except Refused as refused:
            return f"refused {refused}\n"


def play(text, lacking=frozenset()):
    """The answer, where memory is lacking for the edits of the lines of the script with these places."""
    front, *script = sections(text)
    circuit, fault = opened(front) if len(text) <= longest(text) else opened(text)
    if fault:
        return fault
    keeper, rest = Keeper(circuit), text[len(front) :].partition("\n")[2] if script else ""
    return Answer(0, [keeper.reply(line, place in lacking).encode() for place, line in enumerate(reader.lines_of(rest))])


def desk(text, viewers=2):
    """The answer, where the edits of each designer leave those of the others as they are."""
    front, *blocks = sections(text)
    circuit, fault = opened(front) if len(text) <= longest(text) else opened(text)
    if fault:
        return fault
    if not 1 <= len(blocks) <= 8 or not 1 <= viewers <= 32:
        return complaint(1, "bad count")
    keeper, parts = Keeper(circuit), []
    for designer, block in enumerate(blocks, 1):
        replies = [keeper.reply(line, False) for line in reader.lines_of(block)]
        lines = [line for line in reader.lines_of(block) if reader.words_of(line) or not reader.is_allowed(line)]
        accepted = sum(reply.startswith("accepted ") for reply in replies)
        parts.append(f"designer {designer} accepted {accepted} refused {len(lines) - accepted}\n")
    parts += [f"viewer {viewer} saw {keeper.accepted}\n" for viewer in range(1, viewers + 1)]
    return Answer(0, [part.encode() for part in [*parts, formats.waves(keeper.circuit, keeper.levels)]])
