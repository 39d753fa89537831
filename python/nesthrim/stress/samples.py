"""A search without a graph: runs of the program at points of the ranges, for netlists whose run has no graph.

It follows the causes of each bundle's least margin, as `why` tells them, and then tries corners by chance. It proves nothing: what it finds is
certain, and if it finds nothing, nothing is known.
"""

from __future__ import annotations

import random
from bisect import bisect_left
from typing import Dict, Iterator, List, Optional, Tuple

from .confirm import Fault, Runs
from .refine import Deadline
from .space import Point, Space
from ..wires import Bundle

# how many steps of causes are followed, how often a point is moved, and how many corners are tried by chance
_STEPS, _MOVES, _CORNERS = 200, 6, 200


def sampled(space: Space, runs: Runs, over: Deadline) -> Optional[Fault]:
    """A fault at a point of a space, if one is found."""
    for point in _points(space, runs):
        if over():
            return None
        fault = runs.fault(point)
        if fault is not None:
            return fault
    return None


def _points(space: Space, runs: Runs) -> Iterator[Point]:
    for bundle in space.timing.netlist.known_bundles.values():
        point = space.nominal
        for _ in range(_MOVES):
            moved = _towards(space, runs, bundle, point)
            if moved == point:
                break
            yield moved
            point = moved
    chance = random.Random(1)
    places = range(1, len(space.timing.delays) + 1)
    for _ in range(_CORNERS):
        factor = chance.choice(space.factors)
        yield space.corner({place: chance.choice((-1, 1)) for place in places}, factor)


def _towards(space: Space, runs: Runs, bundle: Bundle, point: Point) -> Point:
    """A point with the delays before the data of a bundle's least margin higher, and those before the request lower."""
    session = runs.session(point)
    data, requests = session.wave(bundle.data).times, session.wave(bundle.req).times
    pairs = [(requests[number] - time, time, requests[number]) for time in data for number in [bisect_left(requests, time)] if number < len(requests)]
    if not pairs:
        return point
    _, early, late = min(pairs)
    chains: List[Dict[Tuple[str, int], Optional[str]]] = []
    for wire, time in ((bundle.data, early), (bundle.req, late)):
        chains.append({(step.wire, step.time): step.module for step in session.why(wire, time, _STEPS)})
    weights: Dict[int, int] = {}
    for own, other, sign in ((chains[0], chains[1], 1), (chains[1], chains[0], -1)):
        for (wire, time), module in own.items():
            if module is not None and (wire, time) not in other:
                place = _place(space, module, wire)
                weights[place] = weights.get(place, 0) + sign
    return space.moved(point, weights, space.factors[0])


def _place(space: Space, module: str, wire: str) -> int:
    outputs = space.timing.netlist.known_modules[module].outputs
    return space.timing.place_of(module, next(port for port, (name, _) in enumerate(outputs) if name == wire), False)
