"""A counterexample with as few delays moved as can be found: units are put back to their nominal values, in halves first, while the fault stays.

This is delta debugging (Zeller and Hildebrandt, Simplifying and isolating failure-inducing input, 2002).
"""

from __future__ import annotations

from typing import Collection, List

from .confirm import Fault, Runs
from .refine import Deadline
from .space import Point, Space


def shrink(space: Space, runs: Runs, fault: Fault, likely: Collection[int], over: Deadline) -> Fault:
    """The same fault with fewer delays moved. All units but the `likely` ones are put back first."""
    units = [unit for unit, places in enumerate(space.units) if any(fault.point[place] != space.nominal[place] for place in places)]
    others = [unit for unit in units if unit not in likely]
    fault, left = _pass(space, runs, fault, others, max(1, len(others)), over)
    units = [unit for unit in units if unit in likely or unit in left]
    size = max(1, len(units) // 2)
    while units:
        before = len(units)
        fault, units = _pass(space, runs, fault, units, size, over)
        if over() or (size == 1 and len(units) == before):
            break
        size = max(1, min(size // 2, len(units)))
    return fault


def _pass(space: Space, runs: Runs, fault: Fault, units: List[int], size: int, over: Deadline) -> "tuple[Fault, List[int]]":
    """One pass over the units, so many at a time."""
    at = 0
    while at < len(units) and not over():
        part = units[at : at + size]
        found = runs.fault(_without(space, fault.point, part))
        if found is not None and found.sort == fault.sort:
            fault, units = found, units[:at] + units[at + size :]
        else:
            at += size
    return fault, units


def _without(space: Space, point: Point, units: List[int]) -> Point:
    back = list(point)
    for unit in units:
        for place in space.units[unit]:
            back[place] = space.nominal[place]
    return tuple(back)
