"""Names of wires, modules and bundles."""

from __future__ import annotations

import difflib
import re
from typing import Iterable, TypeVar, Mapping

from .errors import Refused, UnknownName

T = TypeVar("T")

_NAME = re.compile(r"[A-Za-z][A-Za-z0-9_]{0,31}")


def plain_name(name: str) -> str:
    """The name as the program knows it: a dot, as in `stage.q`, is written `_`. `Refused` (2 BadName) if it can't be one."""
    if not isinstance(name, str):
        raise TypeError(f"a name is a str, and not {name!r}")
    plain = name.replace(".", "_")
    if not _NAME.fullmatch(plain):
        meaning = "a name is a letter, then letters, digits and `_`, 32 at most; choose another, or a shorter prefix"
        raise Refused(2, "BadName", word=name, meaning=meaning)
    return plain


def asked_name(name: str) -> str:
    """A name to ask for, with `_` for dots. Nothing may have it."""
    if not isinstance(name, str):
        raise TypeError(f"a name is a str, and not {name!r}")
    return name.replace(".", "_")


_NOTHING = {"wire": (3, "NoSuchWire"), "module": (4, "NoSuchModule"), "bundle": (5, "NoSuchBundle")}


def find(things: Mapping[str, T], name: str, sort: str) -> T:
    """The thing of this name. `UnknownName`, with the nearest name, if there is none; `sort` is "wire", "module" or "bundle"."""
    plain = asked_name(name)
    if plain in things:
        return things[plain]
    raise unknown(name, things, sort)


def unknown(name: str, names: Iterable[str], sort: str) -> UnknownName:
    """The exception that tells that there is no wire, module or bundle of this name."""
    near = difflib.get_close_matches(asked_name(name), list(names), 1)
    return not_there(name, sort, f"there is no {sort} of this name" + (f"; did you mean {near[0]!r}?" if near else ""))


def not_there(name: str, sort: str, meaning: str) -> UnknownName:
    """The exception for a wire, a module or a bundle that isn't there."""
    code, title = _NOTHING[sort]
    return UnknownName(code, title, word=name, meaning=meaning)
