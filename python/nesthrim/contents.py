"""What a netlist has: wires, modules, stimuli and bundles by name, and its text."""

from __future__ import annotations

import os
import sys
from typing import Any, Dict, Iterable, Iterator, List, Mapping, Optional, Tuple, TypeVar, Union

from .builder import Builder
from .errors import AnswerError, Refused
from .faults import Origin
from .modules import LATER_KINDS, Module, Statement
from .names import asked_name, not_there, plain_name
from .program import Program
from .reading import statement_of
from .things import Thing, whole
from .wires import AnyWire, Bundle, Pairs, Stimulus, Wire

C = TypeVar("C", bound="Contents")
_PACKAGE = os.path.dirname(os.path.abspath(__file__)) + os.sep

# what a text without `format`, and one with `format 2`, has at most
_SHORT, _LONG, _WIRES, _MODULES, _BUNDLES, _BYTES = 65_536, 1_048_576, 8_192, 4_096, 1_024, 4_194_304

Place = Optional[Tuple[str, int]]


class Contents(Builder):
    """The things of a netlist, and its horizon.

    Wires, modules, stimuli and bundles are added in any order, changed and removed. `str` of it is its text. `program` is asked, and that of
    `find_program` if it is `None`; `form` is that of the text (1, 2 or 4), the least that fits if it is `None`. While a module's kind needs 4, the
    text has that.
    """

    __slots__ = ("program", "_horizon", "_form", "_wires", "_modules", "_stimuli", "_bundles", "_made_at", "_revision", "__weakref__")

    def __init__(self, horizon: int, *, program: Optional[Program] = None, form: Optional[int] = None) -> None:
        self.program = program
        self._horizon = whole(horizon)
        self._form = form
        self._wires: Dict[str, Wire] = {}
        self._modules: Dict[str, Module] = {}
        self._stimuli: Dict[str, Stimulus] = {}
        self._bundles: Dict[str, Bundle] = {}
        self._made_at: Dict[Tuple[str, str], Place] = {}
        self._revision = 0

    @property
    def horizon(self) -> int:
        """The waves are those of the times from 0 to `horizon - 1`."""
        return self._horizon

    @horizon.setter
    def horizon(self, horizon: int) -> None:
        self._horizon = whole(horizon)
        self._revision += 1

    # ---- what it has

    @property
    def known_wires(self) -> Mapping[str, Wire]:
        """The wires, by name."""
        return self._wires

    @property
    def known_modules(self) -> Mapping[str, Module]:
        """The modules, by name."""
        return self._modules

    @property
    def known_bundles(self) -> Mapping[str, Bundle]:
        """The bundles, by name."""
        return self._bundles

    @property
    def known_stimuli(self) -> Mapping[str, Stimulus]:
        """The stimuli, by the name of their wire."""
        return self._stimuli

    @property
    def revision(self) -> int:
        """A number that rises with each change."""
        return self._revision

    def _full_name(self, name: str) -> str:
        return plain_name(name)

    def _asked_name(self, name: str) -> str:
        return asked_name(name)

    # ---- changes

    def _add(self, thing: Statement) -> None:
        things = self._things_like(thing)
        if _key(thing) in things and isinstance(thing, Thing):
            raise Refused(1, "NameTaken", statement=thing.statement, word=thing.name, meaning="a thing of this sort has the name; choose another")
        self._put(thing)
        self._note(thing)

    def _put(self, thing: Statement) -> None:
        self._things_like(thing)[_key(thing)] = thing
        if isinstance(thing, Thing):
            thing._owner = self

    def _note(self, thing: Union[Thing, Stimulus]) -> None:
        """Takes note of where a thing was made or changed."""
        self._made_at[type(thing).__name__, _key(thing)] = _caller()
        self._revision += 1

    def _things_like(self, thing: Statement) -> Dict[str, Any]:
        if isinstance(thing, Wire):
            return self._wires
        if isinstance(thing, Module):
            return self._modules
        if isinstance(thing, Stimulus):
            return self._stimuli
        return self._bundles

    def _set_stimulus(self, wire: str, values: Optional[Pairs]) -> None:
        if values is not None:
            self._add(Stimulus(wire, values))
        elif self._stimuli.pop(wire, None) is not None:
            self._revision += 1

    def clear(self, wire: AnyWire) -> None:
        """Takes away what is set on a wire from outside. `Refused` (16 NoStimulus) if nothing is."""
        name = self._wire_name(wire)
        if name not in self._stimuli:
            raise Refused(16, "NoStimulus", statement=f"clear {name}", word=name, meaning="nothing is set on this wire from outside")
        self._set_stimulus(name, None)

    def remove(self, *things: Union[Wire, Module, Bundle]) -> None:
        """Takes things away, all or none; with a wire what is set on it from outside.

        `UnknownName` for one that the netlist doesn't have, or no longer, and `Refused` (14 StillUsed) for a wire that a module or a bundle
        names which stays.
        """
        for thing in things:
            self._need(thing)
        self._need_unused(things)
        for thing in things:
            self._things_like(thing).pop(thing.name, None)
            self._made_at.pop((type(thing).__name__, thing.name), None)
            thing._owner = None
            if isinstance(thing, Wire):
                self._stimuli.pop(thing.name, None)
        self._revision += 1

    def _need(self, thing: Union[Wire, Module, Bundle]) -> None:
        if not isinstance(thing, Thing):
            raise TypeError(f"a thing is removed as an object, as n.remove(n.module('m')), and not {thing!r}")
        if thing._owner is not self:
            sort = type(thing).__name__.lower()
            raise not_there(thing.name, sort, f"the netlist doesn't have this {sort}: it is another netlist's, or was removed")

    def _need_unused(self, gone: Iterable[Thing]) -> None:
        """`Refused` if a module or a bundle that stays names a wire that goes."""
        going = set(map(id, gone))
        wires = {thing.name for thing in gone if isinstance(thing, Wire)}
        if not wires:
            return
        users: List[Union[Module, Bundle]] = [*self._modules.values(), *self._bundles.values()]
        for user in users:
            used = next((name for name in _wires_of(user) if name in wires), None)
            if used is not None and id(user) not in going:
                meaning = f"{type(user).__name__.lower()} {user.name} names this wire; remove both at once, or change that first"
                raise Refused(14, "StillUsed", statement=f"remove wire {used}", word=used, meaning=meaning)

    def _take(self, other: Contents) -> None:
        """Takes copies of all that another netlist has."""
        for thing in other._things():
            self._put(type(thing)(*thing._fields()) if isinstance(thing, Thing) else thing)
        self._made_at.update(other._made_at)

    # ---- its text

    def _things(self) -> Iterator[Statement]:
        yield from self._wires.values()
        yield from self._modules.values()
        yield from (self._stimuli[name] for name in self._wires if name in self._stimuli)
        yield from (stimulus for name, stimulus in self._stimuli.items() if name not in self._wires)
        yield from self._bundles.values()

    def _least_form(self, size: int) -> int:
        # (as the program writes it; it reads these kinds in no other form)
        if any(module.kind in LATER_KINDS for module in self._modules.values()):
            return 4
        many = len(self._wires) > _WIRES or len(self._modules) > _MODULES or len(self._bundles) > _BUNDLES
        if self._form is not None:
            return self._form
        if many or self._horizon > _LONG or size > _BYTES:
            return 4
        return 2 if self._horizon > _SHORT else 1

    def __str__(self) -> str:
        """The netlist's text, as the program writes it."""
        lines = [f"horizon {self._horizon}", *(thing.statement for thing in self._things())]
        text = "\n".join(lines) + "\n"
        form = self._least_form(len(text))
        return text if form == 1 else f"format {form}\n{text}"

    def __repr__(self) -> str:
        return f"<netlist of {len(self._wires)} wires, {len(self._modules)} modules and {len(self._bundles)} bundles>"

    def origin(self, line: int) -> Optional[Origin]:
        """Where a line of the text, counted from 1, comes from; `None` if no method made it."""
        before = len(str(self).split("horizon", 1)[0].splitlines()) + 1
        place = line - before - 1
        things = list(self._things())
        if not 0 <= place < len(things):
            return None
        thing = things[place]
        return Origin(thing.statement, self._made_at.get((type(thing).__name__, _key(thing))))

    @classmethod
    def written(cls: type[C], text: str, *, program: Optional[Program] = None) -> C:
        """The netlist of a text as the program writes it, which isn't asked. `AnswerError` for another text."""
        lines = text.splitlines()
        form = None
        if lines and lines[0].startswith("format "):
            form = int(lines.pop(0).split()[1])
        if not lines or not lines[0].startswith("horizon "):
            raise AnswerError("text", lines[0] if lines else "")
        netlist = cls(int(lines[0].split()[1]), program=program, form=form if form == 4 else None)
        for line in lines[1:]:
            netlist._put(statement_of(line))
        return netlist

    def __getstate__(self) -> Any:
        slots = [name for kind in type(self).__mro__ for name in getattr(kind, "__slots__", ()) if name != "__weakref__"]
        return getattr(self, "__dict__", {}), {name: getattr(self, name) for name in slots}

    def __setstate__(self, state: Any) -> None:
        for part in state:
            for name, value in part.items():
                setattr(self, name, value)
        for thing in self._things():
            if isinstance(thing, Thing):
                thing._owner = self


def _key(thing: Union[Thing, Stimulus]) -> str:
    return thing.wire if isinstance(thing, Stimulus) else thing.name


def _wires_of(user: Union[Module, Bundle]) -> List[Optional[str]]:
    """The wires that a module or a bundle names."""
    if isinstance(user, Bundle):
        return [user.req, user.ack, user.data]
    return [wire for wire, _ in (*user.inputs, *user.outputs)]


def _caller() -> Place:
    """The file and the line that called this package."""
    frame = sys._getframe(1)
    while frame is not None and frame.f_code.co_filename.startswith(_PACKAGE):
        if frame.f_back is None:
            return None
        frame = frame.f_back
    return frame.f_code.co_filename, frame.f_lineno
