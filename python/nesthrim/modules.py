"""Modules and their ports."""

from __future__ import annotations

from typing import Any, Dict, NamedTuple, Optional, Sequence, Tuple, Union

from .errors import UnknownName
from .things import Settable, Thing, whole
from .wires import Bundle, End, Stimulus, Wire, port_of

Inputs = Tuple[Tuple[str, int], ...]
Outputs = Tuple[Tuple[Optional[str], int], ...]


class Shape(NamedTuple):
    """The parameters, the inputs and the outputs of a kind, by the names that `mpwb explain KIND` tells."""

    params: Tuple[str, ...]
    inputs: Tuple[str, ...]
    outputs: Tuple[str, ...]


def _shape(params: str, inputs: str, outputs: str) -> Shape:
    return Shape(tuple(params.split()), tuple(inputs.split()), tuple(outputs.split()))


SHAPES: Dict[str, Shape] = {
    "BUF": _shape("", "a", "y"),
    "NOT": _shape("", "a", "y"),
    "XOR": _shape("", "a b", "y"),
    "C": _shape("INIT BUBA BUBB", "a b", "y"),
    "TOGGLE": _shape("", "a", "dot blank"),
    "SELECT": _shape("", "a diamond", "true false"),
    "CALL": _shape("", "r1 r2 d", "r d1 d2"),
    "ARBITER": _shape("", "r1 r2 d1 d2", "g1 g2"),
    "REG": _shape("INIT", "d c p", "q cd pd"),
    "ADDC": _shape("k", "a", "y"),
    "XORC": _shape("k", "a", "y"),
    "SUM": _shape("", "a b", "y"),
    "BIT": _shape("k", "a", "y"),
    "AND": _shape("", "a b", "y"),
    "OR": _shape("", "a b", "y"),
    "SUB": _shape("", "a b", "y"),
    "LESS": _shape("", "a b", "y"),
    "MUX": _shape("", "a b s", "y"),
    "JOIN": _shape("", "a b", "y"),
}
_NO_SHAPE = _shape("", "", "")

# the kinds that a text has only in the format 4
LATER_KINDS = frozenset(("AND", "OR", "SUB", "LESS", "MUX", "JOIN"))


class Module(Thing):
    """A module: its inputs are wires with delays, its outputs wires or `None` with delays. `module["q"]` is its port `q`.

    What its kind doesn't have, as the bubbles of a BUF, is an `AttributeError`. The kind stays: another one is another module.
    """

    __slots__ = ("_kind", "_params", "_inputs", "_outputs")

    def __init__(self, name: str, kind: str, params: Sequence[int], inputs: Inputs, outputs: Outputs) -> None:
        super().__init__(name)
        self._kind = kind
        self._params = tuple(params)
        self._inputs = tuple(inputs)
        self._outputs = tuple(outputs)

    @property
    def kind(self) -> str:
        """Its kind, as "BUF"."""
        return self._kind

    @property
    def shape(self) -> Shape:
        """The names of its parameters and ports; none for a kind that the package doesn't know."""
        return SHAPES.get(self._kind, _NO_SHAPE)

    @property
    def params(self) -> Tuple[int, ...]:
        """Its parameters, in the order of the kind."""
        return self._params

    @params.setter
    def params(self, params: Sequence[int]) -> None:
        self._params = tuple(map(whole, params))
        self._changed()

    @property
    def inputs(self) -> Inputs:
        """The wire and the delay of each input. `module["a"].wire = ..` changes one."""
        return self._inputs

    @property
    def outputs(self) -> Outputs:
        """The wire, or `None`, and the delay of each output. `module["q"].wire = ..` changes one."""
        return self._outputs

    @property
    def delay(self) -> int:
        """The delay of its outputs; set, it is that of each. `ValueError` if they have several."""
        delays = {delay for _, delay in self._outputs}
        if len(delays) != 1:
            each = ", ".join(str(delay) for _, delay in self._outputs)
            raise ValueError(f"the outputs of {self._name} have the delays {each}: module[PORT].delay is that of one")
        return delays.pop()

    @delay.setter
    def delay(self, delay: int) -> None:
        value = whole(delay)
        self._outputs = tuple((wire, value) for wire, _ in self._outputs)
        self._changed()

    @property
    def init(self) -> int:
        """Of a C or a REG, its first output before time 0."""
        return self._params[self._place_of("INIT", "init")]

    @init.setter
    def init(self, level: int) -> None:
        self._set_params(self._place_of("INIT", "init"), level)

    @property
    def k(self) -> int:
        """The constant of an ADDC, a XORC or a BIT."""
        return self._params[self._place_of("k", "k")]

    @k.setter
    def k(self, k: int) -> None:
        self._set_params(self._place_of("k", "k"), k)

    @property
    def bubbles(self) -> Tuple[bool, bool]:
        """Of each input of a C, whether it is inverted."""
        at = self._place_of("BUBA", "bubbles")
        return bool(self._params[at]), bool(self._params[at + 1])

    @bubbles.setter
    def bubbles(self, bubbles: Tuple[bool, bool]) -> None:
        first, second = bubbles
        self._set_params(self._place_of("BUBA", "bubbles"), bool(first), bool(second))

    def _place_of(self, param: str, name: str) -> int:
        """The place of a parameter, which an attribute of this name tells."""
        if param not in self.shape.params:
            raise AttributeError(f"{self._name} is a {self._kind}, which has no {name}")
        return self.shape.params.index(param)

    def _set_params(self, at: int, *values: int) -> None:
        self._params = (*self._params[:at], *map(whole, values), *self._params[at + len(values) :])
        self._changed()

    def __getitem__(self, port: str) -> Pin:
        """The port of this name. `UnknownName` (9 BadPort) if the kind has none."""
        # (a module with other ports than its kind is refused by the program)
        inputs, outputs = self.shape.inputs[: len(self._inputs)], self.shape.outputs[: len(self._outputs)]
        if port in inputs:
            return Pin(self, True, inputs.index(port))
        if port in outputs:
            return Pin(self, False, outputs.index(port))
        has = ", ".join([*inputs, *outputs]) or "none that this package knows"
        raise UnknownName(9, "BadPort", word=str(port), meaning=f"the ports of a {self._kind} are {has}")

    def _set_port(self, is_input: bool, number: int, wire: Optional[str], delay: int) -> None:
        ports = self._inputs if is_input else self._outputs
        changed: Any = (*ports[:number], (wire, delay), *ports[number + 1 :])
        if is_input:
            self._inputs = changed
        else:
            self._outputs = changed
        self._changed()

    @property
    def statement(self) -> str:
        ins = [f"{wire}/{delay}" if delay else wire for wire, delay in self._inputs]
        outs = [f"{wire or '-'}/{delay}" for wire, delay in self._outputs]
        return " ".join(["module", self._name, self._kind, *map(str, self._params), ":", *ins, ">", *outs])

    def _fields(self) -> Tuple[Any, ...]:
        return self._name, self._kind, self._params, self._inputs, self._outputs


class Pin:
    """A port of a module: `wire` is the name of its wire, `None` for an output without one, and `delay` its delay."""

    __slots__ = ("module", "is_input", "number")

    def __init__(self, module: Module, is_input: bool, number: int) -> None:
        self.module = module
        self.is_input = is_input
        self.number = number

    def _port(self) -> Tuple[Optional[str], int]:
        return self.module.inputs[self.number] if self.is_input else self.module.outputs[self.number]

    def _get_wire(self) -> Optional[str]:
        """The name of its wire. Set to a wire or a name, it keeps its delay; set to `wire / D` it has the delay D."""
        return self._port()[0]

    def _put_wire(self, end: Optional[End]) -> None:
        if end is None:
            if self.is_input:
                raise ValueError(f"an input reads a wire: {self!r} can't be without one")
            self.module._set_port(False, self.number, None, self.delay)
            return
        port = port_of(end)
        if port.bubble:
            raise ValueError(f"{self!r} can't be inverted so: `bubbles` of a C says which inputs are")
        self.module._set_port(self.is_input, self.number, port.wire, self.delay if port.delay is None else port.delay)

    wire = Settable(_get_wire, _put_wire)

    @property
    def delay(self) -> int:
        """Its delay in units: of an input from 0 on, of an output from 1 on."""
        return self._port()[1]

    @delay.setter
    def delay(self, delay: int) -> None:
        self.module._set_port(self.is_input, self.number, self.wire, whole(delay))

    def __repr__(self) -> str:
        shape = self.module.shape
        return f"<port {(shape.inputs if self.is_input else shape.outputs)[self.number]} of {self.module.name}>"


Statement = Union[Wire, Module, Stimulus, Bundle]
