"""What wires, modules and bundles have in common: each is an object that may be a netlist's, and then whoever changes it changes the netlist."""

from __future__ import annotations

from abc import ABC, abstractmethod
from operator import index
from typing import TYPE_CHECKING, Any, Callable, Generic, Optional, Tuple, TypeVar

if TYPE_CHECKING:
    from .contents import Contents

G = TypeVar("G")
S = TypeVar("S")


def whole(number: int) -> int:
    """A whole number of any type. `TypeError` for one that isn't, as 2.0."""
    return int(index(number))


class Settable(Generic[G, S]):
    """A property that may be set to more than it gives, as to a wire where it gives the wire's name."""

    def __init__(self, get: Callable[[Any], G], put: Callable[[Any, S], None]) -> None:
        self._get, self._put = get, put
        self.__doc__ = get.__doc__

    def __get__(self, thing: Any, kind: Any = None) -> G:
        return self._get(thing) if thing is not None else self  # type: ignore[return-value]

    def __set__(self, thing: Any, value: S) -> None:
        self._put(thing, value)


class Thing(ABC):
    """A wire, a module or a bundle. Its name stays.

    Two are equal if their statements are. What was removed, or is made by its class alone, is no netlist's: changes of it change nothing else.
    """

    __slots__ = ("_name", "_owner")

    def __init__(self, name: str) -> None:
        self._name = name
        self._owner: Optional[Contents] = None

    @property
    def name(self) -> str:
        """Its name in the netlist."""
        return self._name

    @property
    @abstractmethod
    def statement(self) -> str:
        """The line that adds it."""

    @abstractmethod
    def _fields(self) -> Tuple[Any, ...]:
        """What its class makes it of, in order."""

    def _changed(self) -> None:
        """Tells the netlist that it isn't what it was."""
        if self._owner is not None:
            self._owner._note(self)

    def __eq__(self, other: object) -> bool:
        if not isinstance(other, Thing):
            return NotImplemented
        return type(self) is type(other) and self._fields() == other._fields()

    def __hash__(self) -> int:
        return hash((type(self).__name__, self._name))

    def __reduce__(self) -> Tuple[Any, ...]:
        # (its netlist takes it again, where that is copied or sent as a whole)
        return type(self), self._fields()

    def __repr__(self) -> str:
        return f"<{self.statement}>"
