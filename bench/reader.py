"""Netlist texts, scripts and blocks (`docs/FORMATS.md`) read once more, in Python: what their lines say."""
import copy
import re

import reference
from circuit import Circuit, Refused

CODES = {1: "NotAscii", 2: "UnknownStatement", 3: "WordCount", 4: "BadNumber", 5: "NoHorizon", 6: "SecondHorizon", 7: "Refused", 8: "TooLong"}
CODES[10] = "BadFormat"

# the words of the questions of a script, with how many words their lines have
# of each question, how many words may stand behind its first one, and which of these are numbers
QUESTIONS = {word: (range(1), []) for word in ["waves", "text", "steady", "dump", "work", "graph", "verilog"]}
QUESTIONS |= {"wave": (range(1, 2), []), "waits": (range(1, 2), [1]), "path": (range(2, 4), [2, 3]), "why": (range(2, 4), [2, 3])}
QUESTIONS |= {word: (range(0, 3, 2), [1, 2]) for word in ["report", "check"]}
QUESTIONS |= {word: (range(2, 1 << 22), [1, 2]) for word in ["measure", "show"]}
MOST_STEPS = 1048576
# the options of `show`, and how many words each is
OPTIONS = {"--columns": 2, "--hex": 1, "--ascii": 1}
MOST_COLUMNS, USUAL_COLUMNS = 10_000, 72
# the edits that stand in netlist texts, too
STATEMENTS = ["wire", "module", "stim", "bundle"]
EDITS = [*STATEMENTS, "remove", "input", "output", "indelay", "delay", "clear"]


class Fault(Exception):
    """A line isn't read, with its code; or a text, with the line's number too."""

    def __init__(self, code, detail=""):
        super().__init__(code)
        self.code, self.detail = code, detail

    def __str__(self):
        return f"{self.code} {CODES[self.code]}{self.detail}"


def want(code, holds):
    if not holds:
        raise Fault(code)


def words_of(line):
    return re.findall(r"[^ \t\r]+", line.split("#")[0])


def number(word):
    want(4, re.fullmatch(r"[0-9]{1,20}", word) and int(word) < 1 << 64)
    return int(word)


def pair(word):
    time, divided, value = word.partition("=")
    want(4, divided)
    return number(time), number(value)


def divided(word):
    """`NAME/NUMBER`."""
    name, _, delay = word.rpartition("/")
    want(4, name)
    return name, number(delay)


def output(word):
    if word == "-":
        return None, 1
    name, delay = divided(word)
    return (None if name == "-" else name), delay


def module(words, kinds=reference.KINDS):
    """The edit of a `module` statement, of one of these kinds."""
    want(3, len(words) > 3 and ":" in words[3:])
    colon = words.index(":", 3)
    want(3, ">" in words[colon:])
    arrow = words.index(">", colon)
    want(3, arrow > colon + 1 and len(words) > arrow + 1)
    want(2, words[2] in kinds)
    inputs = [divided(word) if "/" in word else (word, 0) for word in words[colon + 1 : arrow]]
    params, outputs = [number(word) for word in words[3:colon]], [output(word) for word in words[arrow + 1 :]]
    return "add_module", (words[1], words[2], params, inputs, outputs)


def edit(words, kinds=reference.KINDS):
    """The edit of a line that begins with a word of `EDITS`, as a method of `Circuit` and what is given to it. A module has one of these kinds."""
    first, rest = words[0], words[1:]
    if first == "module":
        return module(words, kinds)
    if first == "stim":
        want(3, rest)
        return "set_stimulus", (rest[0], [pair(word) for word in rest[1:]])
    want(3, len(rest) == {"bundle": 5, "remove": 2, "clear": 1}.get(first, 3))
    if first == "wire":
        return "add_wire", (rest[0], number(rest[1]), number(rest[2]))
    if first == "bundle":
        return "add_bundle", (*rest[:4], number(rest[4]))
    if first == "clear":
        return "clear_stimulus", (rest[0],)
    if first == "remove":
        want(2, rest[0] in ("wire", "module", "bundle"))
        return f"remove_{rest[0]}", (rest[1],)
    port = number(rest[1])
    if first in ("delay", "indelay"):
        return {"delay": "set_delay", "indelay": "set_input_delay"}[first], (rest[0], port, number(rest[2]))
    if first == "input":
        return "rewire_input", (rest[0], port, rest[2])
    return "rewire_output", (rest[0], port, None if rest[2] == "-" else rest[2])


def part_of_batch(words):
    want(3, words)
    want(2, words[0] in EDITS)
    return edit(words)


def parts_of(words):
    """The words between the words `;`."""
    parts = [[]]
    for word in words:
        if word == ";":
            parts.append([])
        else:
            parts[-1].append(word)
    return parts


def is_allowed(line):
    return all(letter in "\t\r" or " " <= letter <= "~" for letter in line)


def options(words):
    """The number of columns that the options of `show` say, and whether `--hex` and `--ascii` are among them."""
    want(3, len(words) == sum(count for option, count in OPTIONS.items() if option in words))
    columns = USUAL_COLUMNS
    if "--columns" in words:
        want(3, words[-1] != "--columns")
        columns = number(words[words.index("--columns") + 1])
        want(4, 1 <= columns <= MOST_COLUMNS)
    return [columns, "--hex" in words, "--ascii" in words]


def picture(words):
    """What `show` is asked, of the words behind it: two times, the names of wires, and what the options say."""
    behind = next((place for place, word in enumerate(words) if place > 1 and word.startswith("--")), len(words))
    said = options(words[behind:])
    return ["show", number(words[0]), number(words[1]), words[2:behind], *said]


def question(words):
    """A question's words, with those that are numbers as such."""
    counts, numbers = QUESTIONS[words[0]]
    front = words[: 2 if words[:2] == ["check", "brief"] else 1]
    rest = words[len(front) :]
    want(3, len(rest) in counts)
    if front[0] == "show":
        return picture(rest)
    said = [number(word) if place in numbers else word for place, word in enumerate(rest, 1)]
    if front[0] == "why" and len(said) == 3:
        want(4, 1 <= said[2] <= MOST_STEPS)
    if front[0] == "path" and len(said) == 3:
        want(4, said[2] < said[1])
    return front + said


def line_of(line):
    """What a script's line says: None, a question's words, or an edit."""
    want(1, is_allowed(line))
    words = words_of(line)
    if not words:
        return None
    if words[0] == "batch":
        return "batch", ([part_of_batch(part) for part in parts_of(words[1:])],)
    if words[0] in QUESTIONS:
        return question(words)
    want(2, words[0] in EDITS)
    return edit(words)


def lines_of(text):
    return text.removesuffix("\n").split("\n") if text else []


def edited(circuit, made):
    """A copy of the circuit after an edit."""
    new, (method, arguments) = copy.deepcopy(circuit), made
    getattr(new, method)(*arguments)
    return new


# the greatest horizon of each form of a text
HORIZONS = {1: 65536, 2: 1_048_576, 4: 1_073_741_824}


def statement(circuit, words, is_first, greatest):
    """The circuit after a statement, and the greatest horizon."""
    first = words[0]
    want(2, first in ("format", "horizon", *STATEMENTS))
    want(10, first != "format" or is_first)
    want(6, first != "horizon" or circuit is None)
    want(5, first in ("format", "horizon") or circuit is not None)
    if first in STATEMENTS:
        try:
            return edited(circuit, edit(words, reference.KINDS if circuit.is_large else reference.KINDS.keys() - reference.LATER)), greatest
        except Refused as refused:
            raise Fault(7, f": {refused}") from None
    want(3, len(words) == 2)
    found = number(words[1])
    if first == "format":
        want(10, found in HORIZONS)
        return None, HORIZONS[found]
    want(4, 1 <= found <= greatest)
    return Circuit(found, greatest == HORIZONS[4]), greatest


def netlist(text):
    """The netlist of a text, or `Fault` with the line in its words."""
    circuit, is_first, greatest, at = None, True, HORIZONS[1], 0
    try:
        for at, line in enumerate(lines_of(text), 1):
            want(1, is_allowed(line))
            words = words_of(line)
            if words:
                circuit, greatest = statement(circuit, words, is_first, greatest)
                is_first = False
        want(5, circuit is not None)
    except Fault as fault:
        raise Fault(fault.code, fault.detail + f" at {at}") from None
    return circuit
