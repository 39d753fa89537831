"""The text of a module of LLVM, as `clang -S -emit-llvm` prints it, divided into parts that can be compiled side by side.

A part defines functions that no other part defines, and declares what else they name. What `main` doesn't reach is in no part. Small functions and
constants of other parts come with their bodies, to be expanded in line (`available_externally`), so that a divided program is about as quick.
"""

from __future__ import annotations

import re
from dataclasses import dataclass, field
from typing import Dict, Iterable, Iterator, List

SMALL = 60  # lines of a function that others may expand in line

_NAME = re.compile(r'@("(?:[^"\\]|\\.)*"|[-\w.$]+)')
_STRING = re.compile(r'c"[^"]*"')
_LINKAGE = re.compile(r"(?:internal|private|hidden) ")
# what fills memory that isn't written yet with bytes 0xAA
_FILL = re.compile(r"\n[^\n]*@llvm\.memset[^\n]* i8 -86,[^\n]*")
# attributes of functions that only the address sanitizer has a use for
_SANITIZED = re.compile(r'sanitize_address ?|"frame-pointer"="all" ?')


@dataclass
class Module:
    """A module by names: the line of each variable and each declaration, the text of each function from its linkage on, and what stands around them."""

    head: List[str] = field(default_factory=list)
    lines: Dict[str, str] = field(default_factory=dict)
    functions: Dict[str, str] = field(default_factory=dict)
    tail: List[str] = field(default_factory=list)
    named: Dict[str, List[str]] = field(default_factory=dict)

    def add_lines(self, lines: Iterable[str]) -> None:
        """Takes lines that stand outside functions."""
        for line in lines:
            if line.startswith(("@", "declare ")):
                self.lines[_names_in(line)[0]] = line
            elif line.startswith("attributes "):
                self.tail.append(re.sub(r"\{ *\}", "{ nounwind }", _SANITIZED.sub("", line)))
            elif line and not line.startswith(";"):
                (self.tail if self.functions else self.head).append(line)

    def names_of(self, name: str) -> List[str]:
        """What a function, a variable or a declaration names, each once."""
        if name not in self.named:
            text = self.functions.get(name) or _STRING.sub("", self.lines.get(name, ""))
            self.named[name] = list(dict.fromkeys(it for it in _names_in(text) if it != name and (it in self.functions or it in self.lines)))
        return self.named[name]

    def is_variable(self, name: str) -> bool:
        return self.lines.get(name, "").startswith("@")

    def size_of(self, name: str) -> int:
        """The lines of a function, none of what is no function."""
        return self.functions.get(name, "").count("\n")


def _names_in(text: str) -> List[str]:
    return _NAME.findall(text)


def read_module(text: str) -> Module:
    """The module of a text, without the fills of memory that isn't written yet. `ValueError` if it isn't that of a program."""
    module = Module()
    first, *functions = text.split("\ndefine ")
    module.add_lines(first.split("\n"))
    for each in functions:
        body, _, rest = each.partition("\n}\n")
        module.functions[_names_in(body[: body.index("\n")])[0]] = _FILL.sub("", body)
        module.add_lines(rest.split("\n"))
    if "main" not in module.functions:
        raise ValueError("no main")
    return module


def reached_from(module: Module, first: str) -> List[str]:
    """What a name reaches, itself first, and what names each other near each other."""
    left, known, found = [first], {first}, []
    while left:
        found.append(left.pop())
        for name in reversed(module.names_of(found[-1])):
            if name not in known:
                known.add(name)
                left.append(name)
    return found


def divided(module: Module, count: int) -> List[List[str]]:
    """The functions that `main` reaches, in at most `count` lists of about as many lines."""
    functions = [it for it in reached_from(module, "main") if it in module.functions]
    parts: List[List[str]] = [[] for _ in range(count)]
    whole, lines = sum(map(module.size_of, functions)), 0
    for name in functions:
        parts[min(lines * count // max(whole, 1), count - 1)].append(name)
        lines += module.size_of(name)
    return [it for it in parts if it]


def _beside(module: Module, own: List[str]) -> List[str]:
    """What the functions of a part name beside themselves, and what those of it name that are given with their bodies."""
    known, left, found = set(own), list(own), []
    while left:
        for name in module.names_of(left.pop()):
            if name not in known:
                known.add(name)
                found.append(name)
                if _is_given(module, name):
                    left.append(name)
    return found


def _is_given(module: Module, name: str) -> bool:
    """Whether parts that don't define a function or a variable have its body."""
    return module.is_variable(name) or 0 < module.size_of(name) <= SMALL


def _defined(module: Module, name: str, linkage: str) -> str:
    """A function or a variable with its body, by this linkage. `main` has no other than its own."""
    if module.is_variable(name):
        name, _, rest = module.lines[name].partition(" = ")
        return f"{name} = {linkage} {_LINKAGE.sub('', rest, count=1)}"
    if name == "main":
        return f"define {module.functions[name]}\n}}"
    return f"define {linkage} {_LINKAGE.sub('', module.functions[name], count=1)}\n}}"


def _declared(module: Module, name: str) -> str:
    if name in module.lines:
        return module.lines[name]
    signature = module.functions[name].partition("\n")[0].rstrip("{ ")
    return f"declare hidden {_LINKAGE.sub('', signature, count=1)}"


def part_texts(module: Module, count: int) -> Iterator[str]:
    """The texts of at most `count` parts. The first defines all variables."""
    parts = divided(module, count)
    variables = [it for it in reached_from(module, "main") if module.is_variable(it)]
    for at, own in enumerate(parts):
        lines = list(module.head)
        if at == 0:
            own = [*variables, *own]
        lines += [_defined(module, it, "hidden") for it in own]
        for name in _beside(module, own):
            lines.append(_defined(module, name, "available_externally hidden") if _is_given(module, name) else _declared(module, name))
        yield "\n".join([*lines, *module.tail, ""])
