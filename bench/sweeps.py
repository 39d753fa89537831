"""Sweeps: runs of the program in each of which something else is refused it, or on inputs that end too soon or never. What it must answer is
computed by `answers.py`."""
import bisect
import dataclasses
import functools
import pathlib

import answers
import reader
from refusing import ALLOCATION, DRAW, FAIL, INTERRUPT, NOTHING, ONE_BYTE, READ, START, WRITE, Refusal

ROWS_FOLDER = pathlib.Path(__file__).resolve().parent.parent / "rows"

OUT_OF_MEMORY = b"mpwb: out of memory\n"
LACKING = b"refused 19 OutOfMemory\n"

# Threads run as they like, so a later request may be met in one run and not in the next: an end is believed after so many runs.
RUNS_AT_THE_END = 5
# words that aren't answered from an input, and the rows that have their answers
ROWS = {
    ("--help",): "help",
    ("waves", "--workers", "two"): "usage_not_a_number",
    ("explain",): "explain",
    ("explain", "flip"): "explain_unknown_word",
}


def row_file(name, kind):
    """The file of a row, in whichever folder the row stands; the file need not be there."""
    words, = ROWS_FOLDER.glob(f"*/{name}.words")
    return words.with_suffix(f".{kind}")


@functools.cache
def answer(command, text, lacking=frozenset()):
    """What a command has to answer to an input; for `play`, where memory is lacking for the edits of these lines."""
    return answers.play(text, lacking) if command == "play" else getattr(answers, command)(text)


@functools.cache
def of_row(name):
    """The stored answer of a row."""
    written, fault = (row_file(name, kind) for kind in ("out", "fault"))
    status, _, complaint = fault.read_bytes().partition(b"\n") if fault.exists() else (b"0", b"", b"")
    return answers.Answer(int(status), [written.read_bytes()] if written.exists() else [], complaint)


def is_whole(done, right):
    return (done.status, done.written, done.complaint) == (right.status, right.written, right.complaint)


def played(text, written):
    """The right answer of `play` where memory was lacking for just those edits whose written answers say so, and these edits' places."""
    lacking, place, at = frozenset(), 0, 0
    right = answer("play", text)
    while place < len(right.parts):
        part = right.parts[place]
        if written.startswith(LACKING, at) and part.startswith((b"accepted ", b"refused 18 ", b"refused 21 ")):
            lacking |= {place}
            right = answer("play", text, lacking)
        at, place = at + len(right.parts[place]), place + 1
    return right, lacking


def scripted(text):
    """The lines of a script up to each of them: the whole input with those behind made to comments, for none, one, two and so on."""
    front, line, script = text.partition("---\n")
    lines = script.splitlines()
    for count in range(len(lines) + 1):
        yield front + line + "\n".join([*lines[:count], *("#" * len(rest) for rest in lines[count:])]) + "\n"


@dataclasses.dataclass
class Sweep:
    """Runs of one command on one input, each of which something else is refused."""

    name: str
    words: list
    text: str
    way: str
    later: bool = False
    # the row whose input is FILE, of which the text is the script
    netlist: str = ""

    @property
    def command(self):
        return self.words[0]

    @property
    def file(self):
        return row_file(self.netlist, "in")

    @property
    def right(self):
        name = ROWS.get(tuple(self.words))
        text = f"{self.file.read_text()}---\n{self.text}" if self.netlist else self.text
        return of_row(name) if name else answer(self.command, text)

    def run(self, runner, refusal=Refusal(), text=None):
        words = [*self.words, str(self.file)] if self.netlist else self.words
        return runner.run(words, (self.text if text is None else text).encode("latin-1"), refusal)

    def told(self, at, done, right):
        return f"{self.name}, {at}: status {done.status}, {done.written!r}, {done.complaint!r} where {right.status}, {right.written!r}, {right.complaint!r} is right"

    def failures(self, runner):
        """What fails, as text."""
        return getattr(self, self.way)(runner)

    # memory

    def is_front(self, done, least=0, most=None, right=None):
        """Whether the run ended for want of memory, with at least and at most so many bytes of the right answer written. The last line
        wants memory too."""
        whole = (right or self.right).written
        written = whole[: len(done.written)]
        complaint = b"" if self.later else OUT_OF_MEMORY
        most = len(whole) if most is None else most
        return (done.status, done.complaint) == (4, complaint) and done.written == written and least <= len(written) <= most

    def is_right_without_memory(self, done, borders, number):
        """Whether that is right where the allocation of that number was refused; borders are the numbers of the last allocations before a
        script, and for each of its lines, where these are always the same."""
        if is_whole(done, self.right):
            return True
        if self.right.complaint:
            # no memory for the line that tells of a fault
            return self.is_front(done) or (done.status, done.written, done.complaint) == (self.right.status, b"", b"")
        if self.command != "play":
            return self.is_front(done)
        right, lacking = played(self.text, done.written)
        line = bisect.bisect_left(borders, number) - 1 if borders else None
        if lacking:
            # where each later allocation is refused too, the run may end behind such an edit
            ended = is_whole(done, right) or self.later and self.is_front(done, right=right)
            return (self.later or len(lacking) == 1) and (line is None or min(lacking) == line) and ended
        if line is None:
            return self.is_front(done)
        ends = [len(b"".join(self.right.parts[:count])) for count in range(len(self.right.parts) + 1)]
        least = ends[max(line, 0)]
        return self.is_front(done, least, ends[line + 1] if line >= 0 and self.asks(line) else least)

    def asks(self, line):
        """Whether a line of the script is a question."""
        return reader.words_of(self.text.partition("---\n")[2].splitlines()[line])[0] in reader.QUESTIONS

    def borders(self, runner):
        """As `is_right_without_memory` has them."""
        if self.command != "play" or "--least" in self.words:
            return []
        return [self.run(runner, text=text).asked[ALLOCATION] for text in scripted(self.text)]

    def memory(self, runner):
        """Each allocation is refused in turn."""
        borders = self.borders(runner)
        number, without, failures = 1, 0, []
        while without < (RUNS_AT_THE_END if "--least" in self.words else 1):
            done = self.run(runner, Refusal(ALLOCATION, number, self.later))
            if done.refused:
                is_right, without = self.is_right_without_memory(done, borders, number), 0
            else:
                is_right, without = is_whole(done, self.right), without + 1
            failures += [] if is_right else [self.told(f"allocation {number}", done, self.right)]
            number += done.refused > 0
        return failures

    # threads

    def threads(self, runner):
        """Each start of a thread is refused in turn."""
        number, without, failures = 1, 0, []
        while without < RUNS_AT_THE_END:
            done = self.run(runner, Refusal(START, number, self.later))
            failures += [] if is_whole(done, self.right) else [self.told(f"thread {number}", done, self.right)]
            number, without = number + (done.refused > 0), 0 if done.refused else without + 1
        return failures

    # devices

    def turns(self, runner, kind, how, one_byte):
        """Each read or write refused in turn, with its number; and at the end a run in which none is."""
        number, done = 0, None
        while done is None or done.refused:
            number += 1
            done = self.run(runner, Refusal(kind, number, how=how, one_byte=one_byte))
            yield number, done

    def devices(self, runner, kind, is_right):
        """Each read or write is short, and each fails in turn, of a whole text and of one that goes byte by byte."""
        failures = []
        ways = [(how, one_byte) for how in (FAIL, INTERRUPT, NOTHING) for one_byte in (False, True)]
        for how, one_byte in [*ways, (ONE_BYTE, False)]:
            if (kind, how) == (READ, NOTHING):
                # the end of the input
                continue
            for number, done in self.turns(runner, kind, how, one_byte):
                # (a device that moves less than was asked for is no device that fails)
                fails = done.refused and how != ONE_BYTE
                if not (is_right(done, how, number if one_byte else None) if fails else is_whole(done, self.right)):
                    failures.append(self.told(f"number {number} refused, {how}, {one_byte}", done, self.right))
        return failures

    def is_unread(self, done):
        """Whether the run ended as one whose input can't be read."""
        return (done.status, done.written, done.complaint) == (3, b"", b"mpwb: read failed\n")

    def reads(self, runner):
        return self.devices(runner, READ, lambda done, *_: self.is_unread(done))

    def draws(self, runner):
        """The random numbers are refused, which are drawn once."""
        refused, others = (self.run(runner, Refusal(DRAW, number)) for number in (1, 2))
        failures = [] if refused.refused and self.is_unread(refused) else [self.told("random numbers refused", refused, self.right)]
        return failures + ([] if not others.refused and is_whole(others, self.right) else [self.told("a second draw refused", others, self.right)])

    def lines(self, runner):
        """As `reads`, of a script whose lines are answered one by one."""
        return self.devices(runner, READ, self.is_right_without_script)

    def is_right_without_script(self, done, how, byte):
        """Whether that is right where a read failed so, in FILE or behind it: just the lines that ended before are answered."""
        # (where bytes go one by one, FILE ends with a read that gives none)
        read = self.text if byte is None else self.text[: max(0, byte - len(self.file.read_text()) - 2)]
        counts = range(read.count("\n") + 1) if byte is None else [read.count("\n")]
        fronts = [b"".join(self.right.parts[:count]) for count in counts]
        return (done.status, done.complaint) == (3, b"mpwb: read failed\n") and done.written in fronts

    def writes(self, runner):
        return self.devices(runner, WRITE, self.is_right_without_sink)

    def is_right_without_sink(self, done, how, byte):
        """Whether that is right where a write failed so: the one of the byte with that number, where bytes go one by one."""
        right = self.right
        if right.complaint and how == INTERRUPT:
            # what tells of a fault is written again
            return is_whole(done, right)
        if right.complaint:
            front, written = right.complaint, done.complaint
            fault = (done.status, done.written) == (right.status, b"")
        else:
            front, written = right.written, done.written
            fault = (done.status, done.complaint) == (3, b"mpwb: write failed\n")
        return fault and front.startswith(written) and len(written) in ([byte - 1] if byte else range(len(front)))

    # inputs

    def endless(self, runner):
        """A source that never ends."""
        with open("/dev/zero", "rb") as zeros:
            done = runner.run(self.words, b"", source=zeros.fileno())
        right = answers.complaint(1, "line 0: 8 TooLong")
        is_right = is_whole(done, right) and done.bytes_read == answers.SHORT + 1
        return [] if is_right else [self.told(f"{done.bytes_read} bytes read", done, right)]

    def prefixes(self, runner):
        """Each front of the input."""
        failures = []
        for length in range(len(self.text) + 1):
            front = self.text[:length]
            done, right = self.run(runner, text=front), answer(self.command, front)
            failures += [] if is_whole(done, right) else [self.told(f"its first {length} bytes", done, right)]
        return failures
