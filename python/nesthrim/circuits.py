"""Circuits that a netlist is made of: pipelines, FIFOs, rings, arbitrated stages, forks, joins, and a loop that computes.

Each adds wires and modules by the methods that anybody has, so it is also an example of how to write one's own.
"""

from __future__ import annotations

from abc import abstractmethod
from dataclasses import dataclass
from typing import TYPE_CHECKING, List, Optional, Sequence, Union

from .kinds import Kinds
from .things import whole
from .wires import Port, Wire

if TYPE_CHECKING:
    from .builder import Part

Delays = Union[int, Sequence[int]]


@dataclass(frozen=True)
class FifoStage:
    """How a stage of a FIFO is made: its delays, the addend of its logic, and the setup of its bundle.

    `control` is the delay of the C-element, `register` that of the register, `match` that of the request on its way to the next stage.
    `logic` is the delay of the logic behind the register, which adds `add` to the data; with 0 there is no logic.
    """

    control: int = 2
    register: int = 1
    match: int = 1
    logic: int = 0
    add: int = 0
    setup: int = 0


class Circuits(Kinds):
    """Adds whole circuits. Each method returns the parts that it has made; `part.q` is the wire `q` of a part."""

    __slots__ = ()

    @abstractmethod
    def part(self, prefix: str) -> Part:
        """A part of the netlist, whose names begin with this prefix."""

    def pipeline(self, name: str, stages: int, req: Wire, ack: Wire, delay: Delays = 2) -> List[Part]:
        """The control of a pipeline: a C-element a stage, between a request and an acknowledge.

        Stage 3 of a pipeline `s` is the module `s3`, and drives the wire `s3.q`. `delay` is that of all stages, or has one for each.
        """
        parts = _parts(self, name, stages)
        for part in parts:
            part.wire("q")
        chain = [req, *(part["q"] for part in parts), ack]
        for part, before, after, own in zip(parts, chain, chain[2:], _each(delay, stages)):
            part.c("", before, ~after, out="q", delay=own)
        return parts

    def fifo(self, name: str, stages: int, req: Wire, ack: Wire, data: Wire, stage: Union[FifoStage, Sequence[FifoStage]] = FifoStage()) -> List[Part]:
        """A FIFO: a pipeline whose stages hold data of the width of `data` in registers, with logic and matched delays between.

        A stage `f3` of a FIFO `f` is a C-element `f3`, a register `f3.reg`, logic `f3.logic` if it has any, and a delay `f3.match`. It takes
        data with a request and acknowledges by the wire `f3.cd`; it hands on its data `f3.d` with the request `f3.r`, which are the bundle
        `f3`. The register drives `f3.q`, and without logic `f3.d` itself. Nothing changes in it before the first request or change of data.
        """
        parts = _parts(self, name, stages)
        made = [stage] * stages if isinstance(stage, FifoStage) else list(stage)
        _want_each(len(made), stages)
        level = data.level
        for part, own in zip(parts, made):
            level = _fifo_wires(part, own, data.width, level)
        acks = [*(part["cd"] for part in parts[1:]), ack]
        for part, own, after in zip(parts, made, acks):
            data = _fifo_stage(part, own, req, after, data)
            req = part["r"]
        return parts

    def ring(self, name: str, stages: int, tokens: int = 1, delay: Delays = 2) -> List[Part]:
        """A ring of C-elements in which events run round: `tokens` of them, which the stages from the first one on hold at the start.

        An odd number of them needs an inversion in the ring, which is put between the last stage and the first one.
        """
        if not 0 <= tokens <= stages:
            raise ValueError(f"a ring of {stages} stages holds 0 to {stages} tokens, and not {tokens}")
        parts = _parts(self, name, stages)
        levels = [1 - min(place, tokens) % 2 for place in range(stages)]
        queue = [part.wire("q", level=level) for part, level in zip(parts, levels)]
        for place, (part, own) in enumerate(zip(parts, _each(delay, stages))):
            before: Union[Wire, Port] = queue[place - 1]
            after = ~queue[(place + 1) % stages]
            if tokens % 2 and place == 0:
                before = ~before
            if tokens % 2 and place == stages - 1:
                after = ~after
            part.c("", before, after, out="q", delay=own, init=levels[place])
        return parts

    def arbitrated(self, name: str, r1: Wire, r2: Wire, ack: Wire, delay: int = 2) -> Part:
        """A stage of a pipeline that takes the requests of two clients, one at a time.

        Its events come out on the wire `q`; `a1` and `a2` acknowledge the clients. An arbiter `name.turn` grants, a call `name.use` hands on,
        and the C-element `name` is the stage.
        """
        part = self.part(name)
        part.wires("g1", "g2", "a1", "a2", "r", "q")
        part.arbiter("turn", r1, r2, part["a1"], part["a2"], g1="g1", g2="g2", delay=delay)
        part.call("use", part["g1"], part["g2"], part["q"], r="r", d1="a1", d2="a2", delay=delay)
        part.c("", part["r"], ~ack, out="q", delay=delay)
        return part

    def fork(self, name: str, req: Wire, acks: Sequence[Wire], delay: int = 2, out: Optional[Wire] = None) -> Part:
        """A stage whose events go to several branches: it drives `out`, or else a new wire `q`, and that is the request of each branch.

        It takes the next request once all branches have acknowledged the last one; C-elements `name.t2`, `name.t3` .. bring `acks` together.
        """
        part = self.part(name)
        part.c("", req, ~_rendezvous(part, acks, delay), out=out or part.wire("q"), delay=delay)
        return part

    def join(self, name: str, reqs: Sequence[Wire], ack: Wire, delay: int = 2, out: Optional[Wire] = None) -> Part:
        """A stage that takes one event from each of several branches, and makes one of them: it drives `out`, or else a new wire `q`, which
        acknowledges each branch too. C-elements `name.t2`, `name.t3` .. bring `reqs` together."""
        part = self.part(name)
        part.c("", _rendezvous(part, reqs, delay), ~ack, out=out or part.wire("q"), delay=delay)
        return part

    def gcd(self, name: str, req: Wire, ack: Wire, a: Wire, b: Wire, delay: int = 4, setup: int = 2) -> Part:
        """The greatest common divisor of two numbers of one width, by repeated subtraction in a loop.

        It takes the numbers `a` and `b`, neither of them 0, with a request `req`, and hands on their divisor `x` with the request `done`,
        which `ack` acknowledges: the bundle `name`. The numbers have to stay until then, and the next ones may come after it. `delay` is
        that of a comparison and of a subtraction. Steps begin with an event of `go`, and registers hold `x` and `y` meanwhile.
        """
        part = self.part(name)
        part.wires("go", "again", "done", "late", "taken", "cap", "opened", "free", "lt", "gt", "differ")
        part.wires("shut", "held", "ready", level=1)
        part.wires("x", "y", "less_x", "less_y", "new_x", "new_y", width=a.width)
        for wire, number in (("x", a), ("y", b)):
            part.wires(f"next_{wire}", f"kept_{wire}", width=a.width, level=number.level)
        _gcd_control(part, req, delay)
        _gcd_data(part, a, b, delay)
        part.bundle("", part["done"], ack, part["x"], setup)
        for wire in ("x", "y"):
            part.bundle(wire, part["go"], part["free"], part[f"next_{wire}"], setup)
        return part


def _gcd_control(part: Part, req: Wire, delay: int) -> None:
    """Adds what begins a step, has the registers take its numbers in turn, and ends it or begins another one."""
    part.xor("start", req, part["again"], out="go")
    part.not_("shut", part["opened"], out="shut", delay=2)
    part.not_("free", part["held"], out="free")
    part.buf("match", part["held"], out="ready", delay=delay + 5)
    part.select("turn", part["ready"], part["differ"], true="again", false="done")
    part.reg("seen", req, part["shut"], part["cap"], q=part["late"] / 6)
    part.xor("busy", part["late"], part["done"], out="taken")


def _gcd_data(part: Part, a: Wire, b: Wire, delay: int) -> None:
    """Adds what keeps the two numbers, compares and subtracts them, and chooses the numbers of the next step."""
    for wire, number in (("x", a), ("y", b)):
        part.mux(f"next_{wire}", number, part[f"new_{wire}"], part["taken"], out=f"next_{wire}", delay=3)
    part.reg("kept_x", part["next_x"], part["go"], part["free"], q="kept_x", cd="cap")
    part.reg("kept_y", part["next_y"], part["go"], part["free"], q="kept_y")
    part.reg("x", part["kept_x"], part["shut"], part["cap"], q="x", cd="held", pd="opened")
    part.reg("y", part["kept_y"], part["shut"], part["cap"], q="y")
    part.less("lt", part["x"], part["y"], out="lt", delay=delay)
    part.less("gt", part["y"], part["x"], out="gt", delay=delay)
    part.or_("differ", part["lt"], part["gt"], out="differ")
    part.sub("less_x", part["x"], part["y"], out="less_x", delay=delay)
    part.sub("less_y", part["y"], part["x"], out="less_y", delay=delay)
    part.mux("new_x", part["less_x"], part["x"], part["lt"], out="new_x", delay=3)
    part.mux("new_y", part["y"], part["less_y"], part["lt"], out="new_y", delay=3)


def _want_each(count: int, stages: int) -> None:
    if count != stages:
        raise ValueError(f"there are {stages} stages, and values for {count}: give one value for all, or one for each")


def _each(delay: Delays, stages: int) -> List[int]:
    """A delay for each stage."""
    delays = [whole(own) for own in delay] if isinstance(delay, Sequence) else [whole(delay)] * stages
    _want_each(len(delays), stages)
    return delays


def _parts(builder: Circuits, name: str, stages: int) -> List[Part]:
    if whole(stages) < 1:
        raise ValueError(f"there are 1 or more stages, and not {stages}")
    return [builder.part(f"{name}{number}") for number in range(1, stages + 1)]


def _fifo_wires(part: Part, own: FifoStage, width: int, level: int) -> int:
    """Adds the wires of a stage, at the levels that they keep until the first request; that of the data that it hands on."""
    part.wires("cap", "cd", "pd", "r")
    if own.logic:
        part.wire("q", width, level)
        level = (level + own.add) % 2**width
    part.wire("d", width, level)
    return level


def _fifo_stage(part: Part, own: FifoStage, req: Wire, ack: Wire, data: Wire) -> Wire:
    """Adds the modules of a stage; the data that it hands on."""
    part.c("", req, ~part["pd"], out="cap", delay=own.control)
    part.reg("reg", data, part["cap"], ack, q="q" if own.logic else "d", cd="cd", pd="pd", delay=own.register)
    if own.logic:
        part.addc("logic", part["q"], own.add, out="d", delay=own.logic)
    part.buf("match", part["cd"], out="r", delay=own.match)
    part.bundle("", part["r"], ack, part["d"], own.setup)
    return part["d"]


def _rendezvous(part: Part, wires: Sequence[Wire], delay: int) -> Wire:
    """The wire that has an event once each of these has had one."""
    if not wires:
        raise ValueError("a fork or a join has one branch or more")
    met = wires[0]
    for number, wire in enumerate(wires[1:], 2):
        both = part.wire(f"t{number}")
        part.c(f"t{number}", met, wire, out=both, delay=delay)
        met = both
    return met
