"""A netlist in finer units, in which it behaves the same.

A tenth of a delay of 2 units is nothing in whole units. So delays, setups, stimuli and the horizon are multiplied by one number. Whole times stay
whole, and each time of the run is that of the netlist, multiplied.
"""

from __future__ import annotations

import math
from dataclasses import dataclass
from typing import TYPE_CHECKING

from ..modules import LATER_KINDS

if TYPE_CHECKING:
    from ..netlist import Netlist
    from .delays import Spread

# the longest delay of a netlist, its longest horizon, and the longest one of the formats before `format 4`
_MOST_DELAY, _MOST_HORIZON, _LONG = 65_535, 2**30, 1_048_576

# with fewer than this many units a per cent of a short delay isn't a whole number
UNITS = 100

# a horizon above this is made one of `format 4`: its blocks are so long that an edit of all delays costs one evaluation instead of hundreds
_MANY_BLOCKS = 300_000


@dataclass(frozen=True)
class Scale:
    """How fine units are: `units` for one of the netlist. `until` is the time, in units of the netlist, up to which faults count."""

    units: int
    until: int

    def horizon(self, spread: Spread) -> int:
        """The horizon, in finer units, of a run in which each event of the range before `until` happens: events come at most so much sooner."""
        return min(_MOST_HORIZON, math.ceil(self.until * self.units / spread.fastest) + 1)


def scale_for(netlist: Netlist, spread: Spread, until: int) -> Scale:
    """The units for a spread: 100 for one, more where `format 4` makes edits cheap, fewer where a delay would be too long."""
    units, horizon = UNITS, until / spread.fastest
    if horizon * units > _MANY_BLOCKS:
        units = max(units, math.ceil((_LONG + 1) / horizon / UNITS) * UNITS)
    longest = max([longest_time(netlist), 1])
    while units > 1 and (longest * units * spread.slowest > _MOST_DELAY or horizon * units >= _MOST_HORIZON):
        units //= 2
    return Scale(units, until)


def longest_time(netlist: Netlist) -> int:
    """The longest delay or setup of a netlist."""
    modules = netlist.known_modules.values()
    outputs = [delay for module in modules for wire, delay in module.outputs if wire]
    inputs = [delay for module in modules for _, delay in module.inputs]
    return max([*outputs, *inputs, *(bundle.setup for bundle in netlist.known_bundles.values())], default=0)


def scaled_text(netlist: Netlist, units: int, horizon: int) -> str:
    """The netlist's text with all times multiplied by `units`, and with this horizon."""
    lines = [wire.statement for wire in netlist.known_wires.values()]
    for module in netlist.known_modules.values():
        ins = [f"{wire}/{delay * units}" if delay else wire for wire, delay in module.inputs]
        outs = [f"{wire}/{delay * units}" if wire else f"-/{delay}" for wire, delay in module.outputs]
        lines.append(" ".join(["module", module.name, module.kind, *map(str, module.params), ":", *ins, ">", *outs]))
    for stimulus in netlist.known_stimuli.values():
        lines.append(" ".join(["stim", stimulus.wire, *(f"{time * units}={level}" for time, level in stimulus.values)]))
    for bundle in netlist.known_bundles.values():
        lines.append(f"bundle {bundle.name} {bundle.req} {bundle.ack} {bundle.data} {bundle.setup * units}")
    text = f"horizon {horizon}\n" + "\n".join(lines) + "\n"
    needs_form = any(module.kind in LATER_KINDS for module in netlist.known_modules.values())
    if needs_form or horizon > _LONG or len(lines) > 8_000 or len(text) > 4_000_000:
        return f"format 4\n{text}"
    return f"format 2\n{text}" if horizon > 65_536 else text
