"""A netlist that is edited by names (`docs/FORMATS.md`, "Why an edit is refused"), read once more in Python."""
import re

from reference import KINDS

NAMES = dict(
    enumerate(
        """NameTaken BadName NoSuchWire NoSuchModule NoSuchBundle BadWidth BadLevel BadDelay BadPort WrongPorts BadParam WidthMismatch
        AlreadyDriven StillUsed BadStimulus NoStimulus TableFull HistoryFull OutOfMemory BadBatch InBatch""".split(),
        1,
    )
)
GREATEST = 65535
# how many wires, modules and bundles there may be, and with `format 4`
LIMITS = {False: (8192, 4096, 1024), True: (2_097_152, 1_048_576, 262_144)}


class Refused(Exception):
    """An edit is refused, with the number of the reason, and for a batch the place of its edit and that one's reason."""

    def __init__(self, number, place=None, inner=None):
        super().__init__(number)
        self.number, self.place, self.inner = number, place, inner

    def __str__(self):
        told = f"{self.number} {NAMES[self.number]}"
        return told if self.place is None else f"{told} {self.place} {self.inner} {NAMES[self.inner]}"


def check(number, holds):
    if not holds:
        raise Refused(number)


def place_of(names, things, name):
    """The number of the thing that stands and has the name, or None."""
    return next((number for number, (found, thing) in enumerate(zip(names, things)) if thing and found == name), None)


class Circuit:
    """Each method is an edit: it is made, or `Refused` is raised. After that the circuit may be half made, so edits go to a copy."""

    def __init__(self, horizon, is_large=False):
        self.horizon, self.is_large = horizon, is_large
        self.most_wires, self.most_modules, self.most_bundles = LIMITS[is_large]
        self.wires, self.modules, self.module_names, self.bundles, self.stimuli = [], [], [], [], {}

    def wire(self, name):
        return place_of([wire and wire[0] for wire in self.wires], self.wires, name)

    def module(self, name):
        return place_of(self.module_names, self.modules, name)

    def bundle(self, name):
        return place_of([bundle and bundle[0] for bundle in self.bundles], self.bundles, name)

    def width(self, wire):
        return self.wires[wire][1]

    def driven(self):
        """The wires that outputs drive."""
        return [wire for found in self.modules if found for wire, _ in found[3] if wire is not None]

    def check_name(self, name, taken):
        check(2, re.fullmatch(r"[A-Za-z][A-Za-z0-9_]{0,31}", name))
        check(1, taken is None)

    def check_ports(self, wires, widths):
        check(12, all(wire is None or self.width(wire) == width for wire, width in zip(wires, widths)))

    def add_wire(self, name, width, level):
        self.check_name(name, self.wire(name))
        check(6, 1 <= width <= 64)
        check(7, level < 1 << width)
        check(17, len(self.wires) < self.most_wires)
        self.wires.append((name, width, level))

    def remove_wire(self, name):
        wire = self.wire(name)
        check(3, wire is not None)
        read = [found for module in self.modules if module for found, _ in module[2]]
        bundled = [found for bundle in self.bundles if bundle for found in bundle[1:4]]
        check(14, wire not in read + self.driven() + bundled)
        self.wires[wire] = None
        self.stimuli.pop(wire, None)

    def add_module(self, name, kind, params, inputs, outputs):
        self.check_name(name, self.module(name))
        _, read, driven = KINDS[kind](1)
        check(10, len(inputs) == len(read) and len(outputs) == len(driven))
        inputs = [(self.wire(wire), delay) for wire, delay in inputs]
        check(3, all(wire is not None for wire, _ in inputs))
        check(3, all(wire is None or self.wire(wire) is not None for wire, _ in outputs))
        outputs = [(None if wire is None else self.wire(wire), delay) for wire, delay in outputs]
        bounds, read, driven = KINDS[kind](self.width(inputs[0][0]))
        self.check_ports([wire for wire, _ in inputs + outputs], read + driven)
        check(11, len(params) == len(bounds) and all(param < bound for param, bound in zip(params, bounds)))
        check(8, all(1 <= delay <= GREATEST for _, delay in outputs) and all(delay <= GREATEST for _, delay in inputs))
        new = [wire for wire, _ in outputs if wire is not None]
        check(13, len(set(new)) == len(new) and not set(new) & (set(self.driven()) | set(self.stimuli)))
        check(17, len(self.modules) < self.most_modules)
        self.modules.append((kind, params, inputs, outputs))
        self.module_names.append(name)

    def remove_module(self, name):
        module = self.module(name)
        check(4, module is not None)
        self.modules[module] = None

    def add_bundle(self, name, request, acknowledge, data, setup):
        self.check_name(name, self.bundle(name))
        wires = [self.wire(wire) for wire in (request, acknowledge, data)]
        check(3, None not in wires)
        check(12, all(self.width(wire) == 1 for wire in wires[:2]))
        check(11, setup <= GREATEST)
        check(17, len(self.bundles) < self.most_bundles)
        self.bundles.append((name, *wires, setup))

    def remove_bundle(self, name):
        bundle = self.bundle(name)
        check(5, bundle is not None)
        self.bundles[bundle] = None

    def port(self, name, side, port):
        """The module's number, and its port as wire and delay, among its inputs (2) or outputs (3)."""
        module = self.module(name)
        check(4, module is not None)
        check(9, port < len(self.modules[module][side]))
        return module, self.modules[module][side][port]

    def set_port(self, module, side, port, value):
        record = list(self.modules[module])
        record[side] = record[side][:port] + [value] + record[side][port + 1 :]
        self.modules[module] = tuple(record)

    def width_of_port(self, module, side, port):
        kind, _, inputs, _ = self.modules[module]
        return KINDS[kind](self.width(inputs[0][0]))[side - 1][port]

    def rewire_input(self, name, port, to):
        module, (_, delay) = self.port(name, 2, port)
        wire = self.wire(to)
        check(3, wire is not None)
        self.check_ports([wire], [self.width_of_port(module, 2, port)])
        self.set_port(module, 2, port, (wire, delay))

    def rewire_output(self, name, port, to):
        module, (old, delay) = self.port(name, 3, port)
        wire = None if to is None else self.wire(to)
        check(3, to is None or wire is not None)
        self.check_ports([wire], [self.width_of_port(module, 3, port)])
        check(13, wire is None or wire == old or wire not in self.driven() and wire not in self.stimuli)
        self.set_port(module, 3, port, (wire, delay))

    def set_input_delay(self, name, port, delay):
        module, (wire, _) = self.port(name, 2, port)
        check(8, delay <= GREATEST)
        self.set_port(module, 2, port, (wire, delay))

    def set_delay(self, name, port, delay):
        module, (wire, _) = self.port(name, 3, port)
        check(8, 1 <= delay <= GREATEST)
        self.set_port(module, 3, port, (wire, delay))

    def set_stimulus(self, name, pairs):
        wire = self.wire(name)
        check(3, wire is not None)
        check(13, wire not in self.driven())
        times = [time for time, _ in pairs]
        rising = all(one < other for one, other in zip(times, times[1:]))
        check(15, rising and all(0 < time < self.horizon and value < 1 << self.width(wire) for time, value in pairs))
        self.stimuli[wire] = pairs

    def clear_stimulus(self, name):
        wire = self.wire(name)
        check(3, wire is not None)
        check(16, wire in self.stimuli)
        del self.stimuli[wire]

    def batch(self, edits):
        """Edits as methods' names and arguments, made in turn."""
        check(20, 1 <= len(edits) <= 256)
        for place, (edit, arguments) in enumerate(edits, 1):
            try:
                getattr(self, edit)(*arguments)
            except Refused as refused:
                raise Refused(21, place, refused.number) from None
