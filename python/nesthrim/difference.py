"""The edits that make one netlist of another.

They come in this order, so that each is accepted:

1. Room is made: bundles and modules that go are removed, outputs leave wires that somebody else drives then, and stimuli are cleared.
2. Wires are added.
3. Modules are added, the ports of those that stay are changed, stimuli are set, and bundles are added: all wires are there, and none has two drivers.
4. Wires are removed: nobody names them any more.
"""

from __future__ import annotations

from typing import TYPE_CHECKING, Callable, Dict, Iterator, List, Mapping, Optional, Set, TypeVar

from .errors import NoEdit
from .modules import Module
from .things import Thing

if TYPE_CHECKING:
    from .contents import Contents

T = TypeVar("T", bound=Thing)


def edits_between(before: Contents, after: Contents) -> List[str]:
    """The edits that make `after` of `before`. `NoEdit` if there are none that do."""
    differences = [*_horizons(before, after), *_wires_that_differ(before, after)]
    if differences:
        raise NoEdit(differences)
    return list(_Difference(before, after).edits())


def _horizons(before: Contents, after: Contents) -> Iterator[str]:
    if before.horizon != after.horizon:
        yield f"the horizon is {before.horizon}, and would be {after.horizon}"


def _wires_that_differ(before: Contents, after: Contents) -> Iterator[str]:
    for name, wire in before.known_wires.items():
        other = after.known_wires.get(name, wire)
        if wire.width != other.width:
            yield f"wire {name} has {wire.width} bits, and would have {other.width}"
        if wire.level != other.level:
            yield f"wire {name} begins at {wire.level}, and would begin at {other.level}"


class _Difference:
    """What differs between two netlists with one horizon, whose common wires are the same."""

    def __init__(self, before: Contents, after: Contents) -> None:
        self._before, self._after = before, after
        self._old_modules = _only_in(before.known_modules, after.known_modules, self._stays)
        self._new_modules = _only_in(after.known_modules, before.known_modules, self._stays)
        self._old_bundles = _only_in(before.known_bundles, after.known_bundles, Thing.__eq__)
        self._new_bundles = _only_in(after.known_bundles, before.known_bundles, Thing.__eq__)
        self._changed = [(old, after.known_modules[name]) for name, old in before.known_modules.items() if self._is_changed(name, old)]
        self._drivers = _drivers(after)

    def _stays(self, module: Module, other: Module) -> bool:
        """Whether edits of ports make one module of the other."""
        same = (module.kind, module.params) == (other.kind, other.params)
        as_many = (len(module.inputs), len(module.outputs)) == (len(other.inputs), len(other.outputs))
        return same and as_many and self._width(module) == self._width(other)

    def _width(self, module: Module) -> Optional[int]:
        """The width of a module, which is that of its first input."""
        name = module.inputs[0][0] if module.inputs else ""
        wire = self._after.known_wires.get(name) or self._before.known_wires.get(name)
        return None if wire is None else wire.width

    def _is_changed(self, name: str, old: Module) -> bool:
        return name in self._after.known_modules and name not in self._old_modules and old != self._after.known_modules[name]

    def edits(self) -> Iterator[str]:
        """The edits, in order."""
        yield from self._make_room()
        yield from _added(self._before.known_wires, self._after.known_wires)
        yield from (module.statement for module in self._new_modules.values())
        for old, new in self._changed:
            yield from _inputs(old, new)
            yield from self._outputs(old, new)
        yield from self._set_stimuli()
        yield from (bundle.statement for bundle in self._new_bundles.values())
        yield from (f"remove wire {name}" for name in self._before.known_wires if name not in self._after.known_wires)

    def _make_room(self) -> Iterator[str]:
        yield from (f"remove bundle {name}" for name in self._old_bundles)
        yield from (f"remove module {name}" for name in self._old_modules)
        for old, new in self._changed:
            yield from (f"output {old.name} {port} -" for port in range(len(old.outputs)) if self._leaves_first(old, new, port))
        for name in self._before.known_stimuli:
            # (a wire that goes takes its stimulus with it)
            if name not in self._after.known_stimuli and name in self._after.known_wires:
                yield f"clear {name}"

    def _leaves_first(self, old: Module, new: Module, port: int) -> bool:
        """Whether an output has no wire then, or leaves its wire to somebody else."""
        wire, later = old.outputs[port][0], new.outputs[port][0]
        return wire is not None and wire != later and (later is None or wire in self._drivers)

    def _outputs(self, old: Module, new: Module) -> Iterator[str]:
        for port, ((wire, delay), (later, other)) in enumerate(zip(old.outputs, new.outputs)):
            if later is not None and wire != later:
                yield f"output {old.name} {port} {later}"
            if delay != other:
                yield f"delay {old.name} {port} {other}"

    def _set_stimuli(self) -> Iterator[str]:
        for name, stimulus in self._after.known_stimuli.items():
            if self._before.known_stimuli.get(name) != stimulus:
                yield stimulus.statement


def _inputs(old: Module, new: Module) -> Iterator[str]:
    for port, ((wire, delay), (later, other)) in enumerate(zip(old.inputs, new.inputs)):
        if wire != later:
            yield f"input {old.name} {port} {later}"
        if delay != other:
            yield f"indelay {old.name} {port} {other}"


def _added(before: Mapping[str, T], after: Mapping[str, T]) -> Iterator[str]:
    return (thing.statement for name, thing in after.items() if name not in before)


def _only_in(things: Mapping[str, T], others: Mapping[str, T], is_same: Callable[[T, T], bool]) -> Dict[str, T]:
    """The things of one netlist that the other one has not, or not the same."""
    return {name: thing for name, thing in things.items() if name not in others or not is_same(thing, others[name])}


def _drivers(netlist: Contents) -> Set[str]:
    """The wires that something drives."""
    outputs = (wire for module in netlist.known_modules.values() for wire, _ in module.outputs if wire is not None)
    return {*outputs, *netlist.known_stimuli}
