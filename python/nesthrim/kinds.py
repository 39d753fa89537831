"""A method for each kind of module. Their ports have the names and the order that `mpwb explain KIND` tells."""

from __future__ import annotations

from abc import ABC, abstractmethod
from typing import Optional, Sequence, Tuple, overload

from .errors import Unread
from .modules import Module
from .things import whole
from .wires import End, Port, port_of


class Kinds(ABC):
    """Adds modules by kind.

    An input is a wire, its name, `wire / E` for one that is heard of E units later or, at a C, `~wire` for an inverted one. An output is a wire,
    its name, `wire / D` for a delay of its own, or `None` for none; `delay` is that of the outputs without one of their own. Each method
    returns the module.
    """

    __slots__ = ()

    @abstractmethod
    def _full_name(self, name: str) -> str:
        """The name in the netlist of what has this name here."""

    @abstractmethod
    def _add_module(self, module: Module) -> Module:
        """Adds a module with full names."""

    @abstractmethod
    def _module(self, name: str) -> Module:
        """The module that has this name here. `UnknownName` (4 NoSuchModule) if there is none."""

    def _port(self, end: End) -> Port:
        return port_of(self._full_name(end) if isinstance(end, str) else end)

    def _output(self, end: Optional[End], delay: int) -> Tuple[Optional[str], int]:
        if end is None:
            return None, delay
        port = self._port(end)
        if port.bubble:
            raise ValueError(f"an output has no bubble: {port.wire} can't be inverted here")
        return port.wire, delay if port.delay is None else port.delay

    @overload
    def module(self, name: str) -> Module: ...

    @overload
    def module(self, name: str, kind: str, ins: Sequence[End], outs: Sequence[Optional[End]], params: Sequence[int] = (), delay: int = 1) -> Module: ...

    def module(
        self, name: str, kind: str = "", ins: Sequence[End] = (), outs: Sequence[Optional[End]] = (), params: Sequence[int] = (), delay: int = 1
    ) -> Module:
        """The module of a name, which may be changed. `UnknownName` (4 NoSuchModule) if there is none.

        With a kind it is a new module of this kind, by its ports and parameters in the order of the kind. `Unread` (2 UnknownStatement) if the kind
        isn't a word.
        """
        if not (kind or ins or outs or params):
            return self._module(name)
        if not (kind.isascii() and kind.isalnum()):
            raise Unread(2, "UnknownStatement", word=kind, meaning="a kind is a word, as BUF; `mpwb explain` lists them")
        ports = [self._port(end) for end in ins]
        inverted = [port.wire for port in ports if port.bubble]
        if inverted:
            raise ValueError(f"only an input of a C can be inverted: {inverted[0]} of {kind} can't; put a NOT before it")
        inputs = tuple((port.wire, port.delay or 0) for port in ports)
        outputs = tuple(self._output(end, whole(delay)) for end in outs)
        return self._add_module(Module(self._full_name(name), kind, tuple(map(whole, params)), inputs, outputs))

    def buf(self, name: str, a: End, *, out: Optional[End] = None, delay: int = 1) -> Module:
        """Passes its input on, of any width."""
        return self.module(name, "BUF", [a], [out], delay=delay)

    def not_(self, name: str, a: End, *, out: Optional[End] = None, delay: int = 1) -> Module:
        """Inverts its input."""
        return self.module(name, "NOT", [a], [out], delay=delay)

    def xor(self, name: str, a: End, b: End, *, out: Optional[End] = None, delay: int = 1) -> Module:
        """Merges two streams of events."""
        return self.module(name, "XOR", [a, b], [out], delay=delay)

    def c(self, name: str, a: End, b: End, *, out: Optional[End] = None, delay: int = 1, init: int = 0) -> Module:
        """Changes its output to the level of both inputs when they agree. `init` is its first output."""
        ports = [self._port(end) for end in (a, b)]
        plain = [Port(port.wire, port.delay) for port in ports]
        return self.module(name, "C", plain, [out], [init, *(port.bubble for port in ports)], delay)

    def toggle(self, name: str, a: End, *, dot: Optional[End] = None, blank: Optional[End] = None, delay: int = 1) -> Module:
        """Sends events to its two outputs in turn, dot first."""
        return self.module(name, "TOGGLE", [a], [dot, blank], delay=delay)

    def select(self, name: str, a: End, diamond: End, *, true: Optional[End] = None, false: Optional[End] = None, delay: int = 1) -> Module:
        """Sends an event to one of two outputs, by the level at `diamond`."""
        return self.module(name, "SELECT", [a, diamond], [true, false], delay=delay)

    def call(
        self, name: str, r1: End, r2: End, d: End, *, r: Optional[End] = None, d1: Optional[End] = None, d2: Optional[End] = None, delay: int = 1
    ) -> Module:
        """Lets two clients share a procedure, and tells the one that called when it is done."""
        return self.module(name, "CALL", [r1, r2, d], [r, d1, d2], delay=delay)

    def arbiter(
        self, name: str, r1: End, r2: End, d1: End, d2: End, *, g1: Optional[End] = None, g2: Optional[End] = None, delay: int = 1
    ) -> Module:
        """Grants a resource to one of two clients at a time."""
        return self.module(name, "ARBITER", [r1, r2, d1, d2], [g1, g2], delay=delay)

    def reg(
        self, name: str, d: End, c: End, p: End, *, q: Optional[End] = None, cd: Optional[End] = None, pd: Optional[End] = None, init: int = 0, delay: int = 1
    ) -> Module:
        """A register of any width: holds its data from a capture event to a pass event."""
        return self.module(name, "REG", [d, c, p], [q, cd, pd], [init], delay)

    def addc(self, name: str, a: End, k: int, *, out: Optional[End] = None, delay: int = 1) -> Module:
        """Adds k to data of any width."""
        return self.module(name, "ADDC", [a], [out], [k], delay)

    def xorc(self, name: str, a: End, k: int, *, out: Optional[End] = None, delay: int = 1) -> Module:
        """The exclusive or of data and k."""
        return self.module(name, "XORC", [a], [out], [k], delay)

    def sum(self, name: str, a: End, b: End, *, out: Optional[End] = None, delay: int = 1) -> Module:
        """Adds two data of one width."""
        return self.module(name, "SUM", [a, b], [out], delay=delay)

    def bit(self, name: str, a: End, k: int, *, out: Optional[End] = None, delay: int = 1) -> Module:
        """Bit k of data, bit 0 being the least."""
        return self.module(name, "BIT", [a], [out], [k], delay)

    def and_(self, name: str, a: End, b: End, *, out: Optional[End] = None, delay: int = 1) -> Module:
        """The bits that are 1 in both of two data of one width."""
        return self.module(name, "AND", [a, b], [out], delay=delay)

    def or_(self, name: str, a: End, b: End, *, out: Optional[End] = None, delay: int = 1) -> Module:
        """The bits that are 1 in one of two data of one width."""
        return self.module(name, "OR", [a, b], [out], delay=delay)

    def sub(self, name: str, a: End, b: End, *, out: Optional[End] = None, delay: int = 1) -> Module:
        """a less b, modulo two to the power of their width."""
        return self.module(name, "SUB", [a, b], [out], delay=delay)

    def less(self, name: str, a: End, b: End, *, out: Optional[End] = None, delay: int = 1) -> Module:
        """1 if a is less than b, and otherwise 0."""
        return self.module(name, "LESS", [a, b], [out], delay=delay)

    def mux(self, name: str, a: End, b: End, s: End, *, out: Optional[End] = None, delay: int = 1) -> Module:
        """a if s is 0, and b if it is 1."""
        return self.module(name, "MUX", [a, b, s], [out], delay=delay)

    def join_(self, name: str, a: End, b: End, *, out: Optional[End] = None, delay: int = 1) -> Module:
        """a with the bit b below it: one bit more than a."""
        return self.module(name, "JOIN", [a, b], [out], delay=delay)
