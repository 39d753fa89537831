"""Answers as rows of a table: a dict for each row, and the same keys in all of them."""

from __future__ import annotations

from dataclasses import fields
from typing import TYPE_CHECKING, Any, Dict, List, Tuple, TypeVar

if TYPE_CHECKING:
    from ..modules import Module

Row = Dict[str, Any]
T = TypeVar("T")


def cell(value: Any) -> Any:
    """What a cell of a table has: several values are a text, with commas between them."""
    return ", ".join(map(str, value)) if isinstance(value, (tuple, list)) else value


def row_of(item: Any) -> Row:
    """The row of an answer: its fields by their names."""
    return {each.name: cell(getattr(item, each.name)) for each in fields(item) if each.repr}


class Items(Tuple[T, ...]):
    """A tuple of answers of one sort, which is a table too."""

    __slots__ = ()

    def rows(self) -> List[Row]:
        """A row for each of them: its fields by their names."""
        return [row_of(each) for each in self]


def module_row(module: Module) -> Row:
    """The row of a module: its ports as a statement has them."""
    before, _, outputs = module.statement.partition(" > ")
    _, _, inputs = before.partition(" : ")
    return {"name": module.name, "kind": module.kind, "params": " ".join(map(str, module.params)), "inputs": inputs, "outputs": outputs}
