"""Netlist texts to measure the program on."""
import random


def control_pipeline(stages, horizon):
    """A control pipeline with a source and a sink of its own, so that tokens flow up to the horizon."""
    wires = ["r"] + [f"q{i}" for i in range(1, stages + 1)] + ["ack"]
    lines = [f"horizon {horizon}"] + [f"wire {name} 1 0" for name in wires]
    lines.append("module source NOT : q1 > r/1")
    for i in range(1, stages + 1):
        lines.append(f"module c{i} C 0 0 1 : {wires[i - 1]} {wires[i + 1]} > q{i}/2")
    lines.append(f"module sink BUF : q{stages} > ack/3")
    return "\n".join(lines) + "\n"


def slow_pipeline(stages, delay, horizon):
    """A control pipeline with a source and a sink of its own, in which all delays are the same."""
    lines = control_pipeline(stages, horizon).splitlines()
    return "\n".join(line.rpartition("/")[0] + f"/{delay}" if "/" in line else line for line in lines) + "\n"


def mixed_pipeline(stages, horizon):
    """The same with delays from 1 to 9, in no order."""
    lines = control_pipeline(stages, horizon).splitlines()
    numbers = random.Random(1)
    return "\n".join(line.rpartition("/")[0] + f"/{numbers.randint(1, 9)}" if "/" in line else line for line in lines) + "\n"


def ring(modules, delay, horizon):
    """A ring of one inverter and buffers: one event runs round it."""
    lines = [f"horizon {horizon}"] + [f"wire w{i} 1 0" for i in range(modules)]
    lines.append(f"module m0 NOT : w{modules - 1} > w0/{delay}")
    lines += [f"module m{i} BUF : w{i - 1} > w{i}/{delay}" for i in range(1, modules)]
    return "\n".join(lines) + "\n"


def rings(count, size, delay, horizon):
    """Rings of so many inverters, an odd number: each is always busy."""
    lines = [f"horizon {horizon}"] + [f"wire r{i}_{j} 1 {j % 2}" for i in range(count) for j in range(size)]
    for i in range(count):
        lines += [f"module n{i}_{j} NOT : r{i}_{j} > r{i}_{(j + 1) % size}/{delay}" for j in range(size)]
    return "\n".join(lines) + "\n"


def oscillators(modules, horizon, delay=1):
    """Inverters that each read their own output: each changes whenever its delay has passed."""
    lines = [f"horizon {horizon}"] + [f"wire w{i} 1 0" for i in range(modules)]
    lines += [f"module m{i} NOT : w{i} > w{i}/{delay}" for i in range(modules)]
    return "\n".join(lines) + "\n"


def data_pipeline(stages, horizon):
    """A pipeline of registers of 32 bits with its control; behind each register 1 is added to the data."""
    wires = ["r"] + [f"q{i}" for i in range(1, stages + 1)] + ["ack"]
    lines = [f"horizon {horizon}"] + [f"wire {name} 1 0" for name in wires]
    lines += [f"wire d{i} 32 0" for i in range(stages + 1)] + [f"wire x{i} 32 0" for i in range(1, stages + 1)]
    lines += ["module source NOT : q1 > r/1", "module sink BUF : q%d > ack/3" % stages]
    for i in range(1, stages + 1):
        before, here, after = wires[i - 1], wires[i], wires[i + 1]
        lines.append(f"module c{i} C 0 0 1 : {before} {after} > {here}/4")
        lines.append(f"module g{i} REG 0 : d{i - 1} {here} {after} > x{i}/1 - -")
        lines.append(f"module a{i} ADDC 1 : x{i} > d{i}/2")
    lines.append("module first ADDC 3 : d0 > d0/7")
    return "\n".join(lines) + "\n"


def fifo(stages, horizon):
    """A pipeline of registers of 32 bits. Behind each register 1 is added to the data, the request goes on behind a matched delay, and both are a
    bundle. A register in front holds what it takes of a counter from each request to its acknowledge."""
    acks = [f"q{i}" for i in range(1, stages + 1)] + ["ack"]
    lines = ["format 2"] * (horizon > 65536) + [f"horizon {horizon}", "wire take 1 0", "wire n 32 0"]
    for i in range(stages + 1):
        lines += [f"wire r{i} 1 0", f"wire d{i} 32 {i}", f"wire {acks[i]} 1 0"] + ([f"wire x{i} 32 {i - 1}"] if i else [])
    lines += ["module source NOT : q1 > take/3", "module count ADDC 3 : n > n/7", "module hold REG 0 : n take q1 > d0/1 - -"]
    lines += ["module match0 BUF : take > r0/3", f"module sink BUF : r{stages} > ack/4", "bundle b0 r0 q1 d0 1"]
    for i in range(1, stages + 1):
        lines.append(f"module c{i} C 0 0 1 : r{i - 1} {acks[i]} > q{i}/2")
        lines.append(f"module g{i} REG {i - 1} : d{i - 1} q{i} {acks[i]} > x{i}/1 - -")
        lines.append(f"module a{i} ADDC 1 : x{i} > d{i}/2")
        lines.append(f"module match{i} BUF : q{i} > r{i}/5")
        lines.append(f"bundle b{i} r{i} {acks[i]} d{i} 1")
    return "\n".join(lines) + "\n"


def arbiter_tree(levels, horizon):
    """Oscillators as clients of a tree of arbiters: what a node grants is a request of the node above it."""
    lines, modules = [], 0

    def client(name, delay):
        lines.append(f"wire {name} 1 0")
        lines.append(f"module o{name} NOT : {name} > {name}/{delay}")

    for i in range(2 ** levels):
        client(f"r{levels}_{i}", 7 + i % 11)
        modules += 1
    for level in range(levels - 1, -1, -1):
        for i in range(2 ** level):
            below = [f"r{level + 1}_{2 * i}", f"r{level + 1}_{2 * i + 1}"]
            node = f"{level}_{i}"
            lines += [f"wire {name}{node} 1 0" for name in ("g", "h", "d", "e", "r")]
            lines.append(f"module m{node} ARBITER : {below[0]} {below[1]} d{node} e{node} > g{node}/2 h{node}/2")
            lines.append(f"module x{node} BUF : g{node} > d{node}/5")
            lines.append(f"module y{node} BUF : h{node} > e{node}/5")
            lines.append(f"module z{node} XOR : g{node} h{node} > r{node}/1")
            modules += 4
    return "\n".join([f"horizon {horizon}"] + lines) + "\n", modules


def long_text(size):
    """A text of this many bytes: the full number of wires and modules, stimuli, and comments."""
    lines = ["horizon 2"] + [f"wire w{i} 1 0" for i in range(8192)]
    lines += [f"module m{i} BUF : w{i} > w{i + 4096}/1" for i in range(4096)]
    lines += [f"stim w{i} 1=1" for i in range(4096)]
    text = "\n".join(lines) + "\n"
    comment = "# " + "x" * 60 + "\n"
    text += comment * ((size - len(text)) // len(comment))
    return text + " " * (size - len(text))


def edited_buffers(wires, edits, horizon):
    """A chain of buffers, and behind it a script that changes its stimulus and its delays in turn."""
    lines = [f"horizon {horizon}"]
    lines += [f"wire w{i} 1 0" for i in range(wires)]
    lines += [f"module b{i} BUF : w{i} > w{i + 1}/1" for i in range(wires - 1)]
    lines += ["---"]
    for edit in range(edits):
        if edit % 2 == 0:
            lines.append(f"stim w0 {1 + edit % (horizon - 2)}=1 {horizon - 1}=0")
        else:
            lines.append(f"delay b{edit % (wires - 1)} 0 {1 + edit % 7}")
    return "\n".join(lines) + "\n"


def delayed_pipeline(stages, delay, horizon):
    """A control pipeline whose acknowledges come late: the input of each stage hears of the stage behind it after this delay."""
    return control_pipeline(stages, horizon).replace(" > q", f"/{delay} > q")


def long_horizon(horizon):
    """A buffer of ten changes over a long time."""
    pairs = " ".join(f"{(i + 1) * horizon // 11}={(i + 1) % 2}" for i in range(10))
    return f"format 2\nhorizon {horizon}\nwire a 1 0\nwire y 1 0\nmodule b BUF : a > y/3\nstim a {pairs}\n"


def batched_buffers(wires, batches, horizon):
    """The same chain and edits as in `edited_buffers`, 256 in a batch."""
    front, _, script = edited_buffers(wires, 256 * batches, horizon).partition("---\n")
    edits = script.splitlines()
    lines = ["batch " + " ; ".join(edits[i : i + 256]) for i in range(0, len(edits), 256)]
    return front + "---\n" + "\n".join(lines) + "\n"
