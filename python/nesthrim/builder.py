"""What adds wires, modules, stimuli and bundles to a netlist, with names that may begin with a prefix."""

from __future__ import annotations

from abc import abstractmethod
from typing import TYPE_CHECKING, Optional, Tuple, overload

from .circuits import Circuits
from .errors import UnknownName
from .modules import Module, Statement
from .names import asked_name, find, plain_name
from .things import whole
from .wires import AnyWire, Bundle, Stimulus, Values, Wire, pairs_of

if TYPE_CHECKING:
    from .netlist import Netlist


class Builder(Circuits):
    """Adds to a netlist: `Netlist` itself, or a `Part` of it, whose names begin with a prefix.

    A name that is given as text is one of this builder's. A dot in it is written `_`. `Refused` (2 BadName) for what can't be a name, and
    (1 NameTaken) for one that is taken; all else is judged by the program when it is asked first.
    """

    __slots__ = ()

    @property
    @abstractmethod
    def netlist(self) -> Netlist:
        """The netlist to which this adds."""

    @abstractmethod
    def _add(self, thing: Statement) -> None:
        """Adds a thing with full names."""

    def _add_module(self, module: Module) -> Module:
        self._add(module)
        return module

    def _module(self, name: str) -> Module:
        return find(self.netlist.known_modules, self._asked_name(name), "module")

    def _wire_name(self, wire: AnyWire) -> str:
        return wire.name if isinstance(wire, Wire) else self._full_name(wire)

    def wire(self, name: str, width: int = 1, level: int = 0) -> Wire:
        """A new wire of 1 to 64 bits, with its level at time 0."""
        wire = Wire(self._full_name(name), whole(width), whole(level))
        self._add(wire)
        return wire

    def wires(self, *names: str, width: int = 1, level: int = 0) -> Tuple[Wire, ...]:
        """New wires of one width and level."""
        return tuple(self.wire(name, width, level) for name in names)

    def stim(self, wire: AnyWire, values: Values) -> None:
        """Sets a wire from outside: `values` has a level for each time, as {1: 1, 4: 0}. It takes the place of an earlier stimulus."""
        self._add(Stimulus(self._wire_name(wire), pairs_of(values)))

    def events(self, wire: AnyWire, *times: int) -> None:
        """Sets a wire of width 1 from outside so that it changes at each of these times."""
        found = self[wire] if isinstance(wire, str) else wire
        self.stim(found, [(time, (found.level + place) % 2) for place, time in enumerate(times, 1)])

    @overload
    def bundle(self, name: str) -> Bundle: ...

    @overload
    def bundle(self, name: str, req: AnyWire, ack: AnyWire, data: AnyWire, setup: int = 0) -> Bundle: ...

    def bundle(self, name: str, req: Optional[AnyWire] = None, ack: Optional[AnyWire] = None, data: Optional[AnyWire] = None, setup: int = 0) -> Bundle:
        """The bundle of a name, which may be changed. `UnknownName` (5 NoSuchBundle) if there is none.

        With wires it is a new one: a request, an acknowledge and data that belong together; the data have to stand more than `setup` units before
        each request.
        """
        if req is None and ack is None and data is None:
            return find(self.netlist.known_bundles, self._asked_name(name), "bundle")
        if req is None or ack is None or data is None:
            raise TypeError("a new bundle has a request, an acknowledge and data: n.bundle(name, req, ack, data, setup)")
        wires = [self._wire_name(wire) for wire in (req, ack, data)]
        bundle = Bundle(self._full_name(name), wires[0], wires[1], wires[2], whole(setup))
        self._add(bundle)
        return bundle

    def part(self, prefix: str) -> Part:
        """A part of the netlist: its names begin with this prefix and a `_`. `part.q` is its wire `q`, and the empty name is the prefix itself."""
        return Part(self.netlist, self._full_name(prefix))

    def __getitem__(self, name: str) -> Wire:
        """The wire of this name. `UnknownName` (3 NoSuchWire) if there is none."""
        return find(self.netlist.known_wires, self._asked_name(name), "wire")

    @abstractmethod
    def _asked_name(self, name: str) -> str:
        """The name in the netlist of what is asked for by this name here."""


class Part(Builder):
    """A part of a netlist, whose names begin with a prefix."""

    __slots__ = ("_netlist", "prefix")

    def __init__(self, netlist: Netlist, prefix: str) -> None:
        self._netlist = netlist
        self.prefix = prefix

    @property
    def netlist(self) -> Netlist:
        return self._netlist

    @property
    def name(self) -> str:
        """The prefix: the name of what is added with the empty name."""
        return self.prefix

    def _add(self, thing: Statement) -> None:
        self._netlist._add(thing)

    def _full_name(self, name: str) -> str:
        return plain_name(f"{self.prefix}_{name}" if name else self.prefix)

    def _asked_name(self, name: str) -> str:
        return asked_name(f"{self.prefix}_{name}" if name else self.prefix)

    def __getattr__(self, name: str) -> Wire:
        if name.startswith("_"):
            raise AttributeError(name)
        try:
            return self[name]
        except UnknownName as error:
            raise AttributeError(str(error)) from error

    def __repr__(self) -> str:
        return f"<part {self.prefix}>"
