"""Wires, what is set on them, how ports have them, and bundles of them."""

from __future__ import annotations

from dataclasses import dataclass
from typing import Any, Iterable, Mapping, Optional, Tuple, Union

from .errors import UnknownName
from .names import plain_name
from .things import Settable, Thing, whole

Pairs = Tuple[Tuple[int, int], ...]
Values = Union[Mapping[int, int], Iterable[Tuple[int, int]]]


@dataclass(frozen=True)
class Port:
    """A wire as an input or an output of a module has it: with a delay, and inverted if there is a bubble (`~`)."""

    wire: str
    delay: Optional[int] = None
    bubble: bool = False

    def __invert__(self) -> Port:
        return Port(self.wire, self.delay, not self.bubble)

    def __truediv__(self, delay: int) -> Port:
        return Port(self.wire, whole(delay), self.bubble)


@dataclass(frozen=True)
class Stimulus:
    """What is set on a wire from outside: levels, each from a time on."""

    wire: str
    values: Pairs

    @property
    def statement(self) -> str:
        """The line that sets it."""
        return " ".join(["stim", self.wire, *(f"{time}={level}" for time, level in self.values)])


class Wire(Thing):
    """A wire of 1 to 64 bits with its level at time 0.

    `~wire` is the wire with a bubble, for an input of a C. `wire / E` is the wire as an input sees it that hears of it E units later; at an
    output E is the delay of this output.
    """

    __slots__ = ("_width", "_level")

    def __init__(self, name: str, width: int = 1, level: int = 0) -> None:
        super().__init__(name)
        self._width = width
        self._level = level

    @property
    def width(self) -> int:
        """How many bits it has."""
        return self._width

    @width.setter
    def width(self, width: int) -> None:
        self._width = whole(width)
        self._changed()

    @property
    def level(self) -> int:
        """Its level at time 0."""
        return self._level

    @level.setter
    def level(self, level: int) -> None:
        self._level = whole(level)
        self._changed()

    def _get_stimulus(self) -> Optional[Pairs]:
        """What is set on it from outside, as pairs of a time and a level; `None` if nothing is. It can be set as `stim` sets it, or to `None`."""
        found = None if self._owner is None else self._owner.known_stimuli.get(self._name)
        return None if found is None else found.values

    def _put_stimulus(self, values: Optional[Values]) -> None:
        if self._owner is None:
            raise UnknownName(3, "NoSuchWire", word=self._name, meaning="no netlist has this wire, so nothing can be set on it")
        self._owner._set_stimulus(self._name, None if values is None else pairs_of(values))

    stimulus = Settable(_get_stimulus, _put_stimulus)

    def __invert__(self) -> Port:
        return Port(self._name, None, True)

    def __truediv__(self, delay: int) -> Port:
        return Port(self._name, whole(delay))

    @property
    def statement(self) -> str:
        return f"wire {self._name} {self._width} {self._level}"

    def _fields(self) -> Tuple[Any, ...]:
        return self._name, self._width, self._level


AnyWire = Union[str, Wire]
End = Union[str, Wire, Port]


def name_of(wire: AnyWire) -> str:
    """The name of a wire that is given by its name or as an object."""
    return wire.name if isinstance(wire, Wire) else plain_name(wire)


def _wire_of(slot: str, doc: str) -> Settable[str, AnyWire]:
    """A wire of a bundle."""

    def get(bundle: Bundle) -> str:
        name: str = getattr(bundle, slot)
        return name

    def put(bundle: Bundle, wire: AnyWire) -> None:
        setattr(bundle, slot, name_of(wire))
        bundle._changed()

    get.__doc__ = doc
    return Settable(get, put)


class Bundle(Thing):
    """A request, an acknowledge and data that belong together; the data have to stand more than `setup` units before each request.

    `req`, `ack` and `data` are names of wires. They can be set to a wire or its name.
    """

    __slots__ = ("_req", "_ack", "_data", "_setup")

    def __init__(self, name: str, req: str, ack: str, data: str, setup: int = 0) -> None:
        super().__init__(name)
        self._req, self._ack, self._data, self._setup = req, ack, data, setup

    req = _wire_of("_req", "The name of the request.")
    ack = _wire_of("_ack", "The name of the acknowledge.")
    data = _wire_of("_data", "The name of the data.")

    @property
    def setup(self) -> int:
        """The units before a request in which the data have to stand."""
        return self._setup

    @setup.setter
    def setup(self, setup: int) -> None:
        self._setup = whole(setup)
        self._changed()

    @property
    def statement(self) -> str:
        return f"bundle {self._name} {self._req} {self._ack} {self._data} {self._setup}"

    def _fields(self) -> Tuple[Any, ...]:
        return self._name, self._req, self._ack, self._data, self._setup


def port_of(end: End) -> Port:
    """A wire, or a name of one, as a port has it."""
    return end if isinstance(end, Port) else Port(name_of(end))


def pairs_of(values: Values) -> Pairs:
    """The times and levels of a stimulus."""
    pairs = values.items() if isinstance(values, Mapping) else values
    return tuple((whole(time), whole(level)) for time, level in pairs)
