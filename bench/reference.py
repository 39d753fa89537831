"""The model (`docs/MODEL.md`) read once more, in Python: the waves, the findings and the work of a netlist, computed unit by unit from time 0."""
import bisect

# kind: the bounds of its parameters, and the widths of its inputs and outputs, as functions of the module's width
KINDS = {
    "BUF": lambda w: ([], [w], [w]),
    "NOT": lambda w: ([], [1], [1]),
    "XOR": lambda w: ([], [1, 1], [1]),
    "C": lambda w: ([2, 2, 2], [1, 1], [1]),
    "TOGGLE": lambda w: ([], [1], [1, 1]),
    "SELECT": lambda w: ([], [1, 1], [1, 1]),
    "CALL": lambda w: ([], [1, 1, 1], [1, 1, 1]),
    "ARBITER": lambda w: ([], [1, 1, 1, 1], [1, 1]),
    "REG": lambda w: ([1 << w], [w, 1, 1], [w, 1, 1]),
    "ADDC": lambda w: ([1 << w], [w], [w]),
    "XORC": lambda w: ([1 << w], [w], [w]),
    "SUM": lambda w: ([], [w, w], [w]),
    "BIT": lambda w: ([w], [w], [1]),
    "AND": lambda w: ([], [w, w], [w]),
    "OR": lambda w: ([], [w, w], [w]),
    "SUB": lambda w: ([], [w, w], [w]),
    "LESS": lambda w: ([], [w, w], [1]),
    "MUX": lambda w: ([], [w, w, 1], [w]),
    "JOIN": lambda w: ([], [min(w, 63), 1], [w + 1]),
}

# the kinds that a text has only in the format 4
LATER = {"AND", "OR", "SUB", "LESS", "MUX", "JOIN"}

# the codes of findings, by number
CODES = """merge-collision withdrawn select-unstable call-overlap done-without-call repeat-request done-without-grant capture-while-held
pass-while-open data-at-capture data-while-busy setup request-while-busy ack-while-idle""".split()


def event(before, now, port):
    """Whether an input has an event; there is none at time 0."""
    return before is not None and before[port] != now[port]


class Module:
    """A module between two units. A step gives its outputs, and adds what it finds to `found`."""

    def __init__(self):
        self.found = set()

    def find(self, code, holds):
        if holds:
            self.found.add(code)


class Combination(Module):
    """A module whose output is a function of its inputs."""

    def __init__(self, function):
        super().__init__()
        self.function = function

    def step(self, before, now):
        return [self.function(*now)]


class Merge(Module):
    def step(self, before, now):
        self.find("merge-collision", event(before, now, 0) and event(before, now, 1))
        return [now[0] ^ now[1]]


class CElement(Module):
    def __init__(self, init, bubble_a, bubble_b):
        super().__init__()
        self.q, self.bubbles = init, (bubble_a, bubble_b)

    def step(self, before, now):
        for port, bubble in enumerate(self.bubbles):
            self.find("withdrawn", event(before, now, port) and before[port] ^ bubble != self.q)
        a, b = (1 - level if bubble else level for level, bubble in zip(now, self.bubbles))
        if a == b:
            self.q = a
        return [self.q]


class Toggle(Module):
    def __init__(self):
        super().__init__()
        self.outputs, self.turn = [0, 0], 0

    def step(self, before, now):
        if event(before, now, 0):
            self.outputs[self.turn] ^= 1
            self.turn ^= 1
        return list(self.outputs)


class Select(Module):
    def __init__(self):
        super().__init__()
        self.outputs = [0, 0]

    def step(self, before, now):
        self.find("select-unstable", event(before, now, 0) and event(before, now, 1))
        if event(before, now, 0):
            self.outputs[0 if now[1] == 1 else 1] ^= 1
        return list(self.outputs)


class Call(Module):
    def __init__(self):
        super().__init__()
        self.outputs, self.served = [0, 0, 0], None

    def step(self, before, now):
        self.find("done-without-call", event(before, now, 2) and self.served is None)
        if event(before, now, 2) and self.served is not None:
            self.outputs[1 + self.served] ^= 1
            self.served = None
        for client in (0, 1):
            self.find("call-overlap", event(before, now, client) and self.served is not None)
            if event(before, now, client) and self.served is None:
                self.outputs[0] ^= 1
                self.served = client
        return list(self.outputs)


class Arbiter(Module):
    def __init__(self):
        super().__init__()
        self.outputs, self.owner, self.waits = [0, 0], None, None

    def grant(self, port):
        self.outputs[port] ^= 1
        self.owner = port

    def step(self, before, now):
        waited = self.waits
        for port in (0, 1):
            self.find("done-without-grant", event(before, now, 2 + port) and self.owner != port)
        if self.owner is not None and event(before, now, 2 + self.owner):
            self.owner = None
        if self.owner is None and waited is not None:
            self.grant(waited)
            self.waits = None
        for port in (0, 1):
            self.find("repeat-request", event(before, now, port) and port in (self.owner, self.waits))
            if event(before, now, port) and self.owner != port and self.waits != port:
                if self.owner is None:
                    self.grant(port)
                else:
                    self.waits = port
        return list(self.outputs)


class Register(Module):
    def __init__(self, init):
        super().__init__()
        self.q = init

    def step(self, before, now):
        data, capture, pass_on = now
        was_open = before is not None and before[1] == before[2]
        self.find("capture-while-held", event(before, now, 1) and not was_open)
        self.find("pass-while-open", event(before, now, 2) and was_open)
        self.find("data-at-capture", event(before, now, 0) and was_open and capture != pass_on)
        if capture == pass_on:
            self.q = data
        return [self.q, capture, pass_on]


def built(kind, params, width):
    """The module of a kind before time 0."""
    modulus = 1 << width
    combinations = {
        "BUF": lambda a: a,
        "NOT": lambda a: 1 - a,
        "ADDC": lambda a: (a + params[0]) % modulus,
        "XORC": lambda a: a ^ params[0],
        "SUM": lambda a, b: (a + b) % modulus,
        "BIT": lambda a: a >> params[0] & 1,
        "AND": lambda a, b: a & b,
        "OR": lambda a, b: a | b,
        "SUB": lambda a, b: (a - b) % modulus,
        "LESS": lambda a, b: int(a < b),
        "MUX": lambda a, b, s: b if s else a,
        "JOIN": lambda a, b: 2 * a + b,
    }
    if kind in combinations:
        return Combination(combinations[kind])
    stateful = {"XOR": Merge, "C": CElement, "TOGGLE": Toggle, "SELECT": Select, "CALL": Call, "ARBITER": Arbiter, "REG": Register}
    return stateful[kind](*params)


def state_of(module, now, outputs):
    """All that a module's next step can depend on, and what it shows."""
    return tuple(now), tuple(outputs), getattr(module, "served", getattr(module, "owner", None)), getattr(module, "waits", None)


def evaluated(netlist):
    """The levels of each wire by number and time, and the inputs and states of each module by number and time; None where none stands; and
    what is found at modules, as time, number and codes. A netlist has `horizon`, `wires` (name, width, level), `modules` (kind, params, inputs, outputs; an input is a wire's number and a delay, an
    output a wire's number or None and a delay) and `stimuli` (by wire's number, a list of pairs); None is a place without wire or module."""
    levels = [wire and [wire[2]] * netlist.horizon for wire in netlist.wires]
    for wire, pairs in netlist.stimuli.items():
        for time, value in pairs:
            levels[wire][time:] = [value] * (netlist.horizon - time)
    modules = [(number, *found) for number, found in enumerate(netlist.modules) if found]
    modules = [(number, built(kind, params, netlist.wires[inputs[0][0]][1]), inputs, outputs) for number, kind, params, inputs, outputs in modules]
    states, findings = [found and [] for found in netlist.modules], []
    for time in range(netlist.horizon):
        for number, module, inputs, outputs in modules:
            now = [levels[wire][time - delay] if time >= delay else netlist.wires[wire][2] for wire, delay in inputs]
            before = states[number][-1][0] if time else None
            given = module.step(before, now)
            for (wire, delay), level in zip(outputs, given):
                if wire is not None and time + delay < netlist.horizon:
                    levels[wire][time + delay] = level
            states[number].append(state_of(module, now, given))
            findings += [(time, number, module.found)] if module.found else []
            module.found = set()
    return levels, states, findings


def found_at(bundle, levels):
    """What is found at a bundle, as pairs of a time and a code."""
    request, acknowledge, data = (levels[wire] for wire in bundle[1:4])
    changes = [[time for time in range(1, len(line)) if line[time] != line[time - 1]] for line in (request, acknowledge, data)]
    requests = changes[0] + [len(request) + bundle[4]]
    was_busy = lambda time: request[time - 1] != acknowledge[time - 1]
    found = [(time, "data-while-busy") for time in changes[2] if was_busy(time)]
    found += [(time, "setup") for time in changes[2] if requests[bisect.bisect_left(requests, time)] - time <= bundle[4]]
    found += [(time, "request-while-busy") for time in changes[0] if was_busy(time)]
    return found + [(time, "ack-while-idle") for time in changes[1] if not was_busy(time)]


def findings(netlist, levels, at_modules):
    """All findings in order, as time, sort, number and code, from those at modules. A netlist has `bundles` too (name, request, acknowledge,
    data, setup)."""
    found = [(time, "module", number, code) for time, number, codes in at_modules for code in codes]
    for number, bundle in enumerate(netlist.bundles):
        found += [(time, "bundle", number, code) for time, code in (found_at(bundle, levels) if bundle else [])]
    return sorted(found, key=lambda one: (one[0], one[1] == "bundle", one[2], CODES.index(one[3])))


def windows(netlist):
    """The windows of a netlist, each with the begin of its block."""
    units = 1024 if netlist.horizon <= 1_048_576 else 1_048_576
    delays = [delay for found in netlist.modules if found for wire, delay in found[3] if wire is not None]
    least = min(delays, default=netlist.horizon)
    start = 0
    while start < netlist.horizon:
        block = start - start % units
        end = min(start + least, block + units, netlist.horizon)
        yield block, start, end
        start = end


def work(old, old_states, new, new_states):
    """What is evaluated again where one netlist was made of another: (module, from, to) in order. In no window twice; a module whose record
    isn't the same in both always, another from where its inputs differ, or its states before a block."""
    numbers = [number for number, found in enumerate(new.modules) if found]
    same = {number for number in numbers if number < len(old.modules) and old.modules[number] == new.modules[number]}
    entries, at_work = [], set()
    for block, start, end in windows(new):
        if start == block:
            differ = {number for number in same if block and old_states[number][block - 1] != new_states[number][block - 1]}
            at_work = {number for number in numbers if number not in same} | differ
        apart = {n for n in same - at_work if any(old_states[n][t][0] != new_states[n][t][0] for t in range(start, end))}
        entries += [(number, start if number in at_work else block, end) for number in sorted(at_work | apart)]
        at_work = at_work | apart
    return entries
