"""Random netlists over a few names, so that two of them have much in common and much that differs."""

from __future__ import annotations

import random
from typing import Callable, Dict, List, Optional

from nesthrim import Netlist
from nesthrim.modules import SHAPES

HORIZON = 120

# the width of each wire, and its level at time 0: both are the same in all netlists
WIDTHS: Dict[str, int] = {**{f"w{number}": 1 for number in range(9)}, **{f"x{number}": 8 for number in range(4)}, **{f"y{number}": 4 for number in range(3)}}
LEVELS: Dict[str, int] = {name: number % 3 % 2 ** min(width, 2) for number, (name, width) in enumerate(WIDTHS.items())}

# the kind that a module of each number mostly has: so most modules of two netlists that share a name differ in their ports alone
_KINDS = ("BUF", "C", "XOR", "REG", "BUF", "SUM", "TOGGLE", "C")

# of the kinds with data, how wide each port is, if not 1: "w" is the width of the module
_WIDE = {"BUF": "a y", "REG": "d q", "ADDC": "a y", "XORC": "a y", "SUM": "a b y", "BIT": "a"}


def random_netlist(numbers: random.Random) -> Netlist:
    """A netlist that the program takes."""
    return _Maker(numbers).netlist


class _Maker:
    def __init__(self, numbers: random.Random) -> None:
        self.numbers = numbers
        self.netlist = Netlist(HORIZON)
        names = [name for name in WIDTHS if numbers.random() < 0.7 or name in ("w0", "x0", "y0")]
        numbers.shuffle(names)
        for name in names:
            self.netlist.wire(name, WIDTHS[name], LEVELS[name])
        self.free = list(names)
        for number in numbers.sample(range(len(_KINDS)), numbers.randint(3, len(_KINDS))):
            self.module(number)
        for name in [name for name in self.free if numbers.random() < 0.5]:
            self.stimulus(name)
        for number in numbers.sample(range(3), numbers.randint(0, 2)):
            self.bundle(f"b{number}")

    def wire(self, width: int) -> str:
        return self.numbers.choice([name for name in self.netlist.known_wires if WIDTHS[name] == width])

    def driven(self, width: int) -> Optional[str]:
        free = [name for name in self.free if WIDTHS[name] == width]
        if not free or self.numbers.random() < 0.2:
            return None
        self.free.remove(found := self.numbers.choice(free))
        return found

    def module(self, number: int) -> None:
        numbers = self.numbers
        kind = _KINDS[number] if numbers.random() < 0.8 else numbers.choice(list(SHAPES))
        shape, wide = SHAPES[kind], _WIDE.get(kind, "").split()
        width = (8 if number % 2 else 1) if numbers.random() < 0.8 else 4
        size: Callable[[str], int] = lambda port: width if port in wide else 1
        ins = [self.netlist[self.wire(size(port))] / numbers.choice([0, 0, 3, 7]) for port in shape.inputs]
        outs = [self.driven(size(port)) for port in shape.outputs]
        ends = [None if wire is None else self.netlist[wire] / numbers.randint(1, 9) for wire in outs]
        # (bit 0 and the number 1 are there in any width)
        params = [int(kind != "BIT" and numbers.random() < 0.1) for _ in shape.params]
        self.netlist.module(f"m{number}", kind, ins, ends, params, delay=numbers.randint(1, 4))

    def stimulus(self, name: str) -> None:
        times = sorted(self.numbers.sample(range(1, HORIZON), self.numbers.randint(0, 6)))
        self.netlist.stim(name, [(time, self.numbers.randrange(2 ** WIDTHS[name])) for time in times])

    def bundle(self, name: str) -> None:
        wires: List[str] = [self.wire(1), self.wire(1), self.wire(self.numbers.choice([1, 4, 8]))]
        self.netlist.bundle(name, wires[0], wires[1], wires[2], self.numbers.randint(0, 3))


def without_a_part(numbers: random.Random, netlist: Netlist) -> Netlist:
    """A copy with some small changes."""
    changed = netlist.copy()
    for module in list(changed.known_modules.values()):
        chance = numbers.random()
        if chance < 0.2:
            changed.remove(module)
        elif chance < 0.4:
            module.delay = numbers.randint(1, 9)
        elif chance < 0.6 and module.inputs:
            name, delay = module.inputs[0]
            module[module.shape.inputs[0]].wire = changed[numbers.choice([wire for wire in changed.known_wires if WIDTHS[wire] == WIDTHS[name]])] / delay
    for name in list(changed.known_stimuli):
        if numbers.random() < 0.4:
            changed[name].stimulus = numbers.choice([None, {5: 1, 50: 0}])
    return changed
