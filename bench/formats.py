"""What is written of a netlist and its levels (`docs/FORMATS.md`), written once more in Python. Netlists are as in `reference.py`; the modules'
names are `module_names`."""
import reference


def wave_line(wire, line):
    """The line of a wire, without its line feed."""
    changes = [f" {time}={line[time]}" for time in range(1, len(line)) if line[time] != line[time - 1]]
    return f"{wire[0]} {line[0]}{''.join(changes)}"


def waves(netlist, levels):
    """What `mpwb waves` writes."""
    return "".join(f"{wave_line(wire, line)}\n" for wire, line in zip(netlist.wires, levels) if wire)


def report(netlist, levels, at_modules):
    """What `mpwb report` writes, from what is found at modules."""
    name = {"module": lambda n: netlist.module_names[n], "bundle": lambda n: netlist.bundles[n][0]}
    found = reference.findings(netlist, levels, at_modules)
    return "".join(f"{time} {sort} {name[sort](number)} {code}\n" for time, sort, number, code in found)


def code_of(number):
    """The identifier code of a wire in a dump: its number in base 94, the least digit first."""
    digits = chr(33 + number % 94)
    while number >= 94:
        number //= 94
        digits += chr(33 + number % 94)
    return digits


def value_line(number, width, level):
    return f"{level}{code_of(number)}\n" if width == 1 else f"b{level:0{width}b} {code_of(number)}\n"


def dump(netlist, levels):
    """What `mpwb dump` writes."""
    wires = [(number, *wire[:2]) for number, wire in enumerate(netlist.wires) if wire]
    lines = ["$timescale 1 ns $end\n", "$scope module top $end\n"]
    lines += [f"$var wire {width} {code_of(number)} {name} $end\n" for number, name, width in wires]
    lines += ["$upscope $end\n", "$enddefinitions $end\n", "#0\n", "$dumpvars\n"]
    lines += [value_line(number, width, levels[number][0]) for number, _, width in wires] + ["$end\n"]
    for time in range(1, netlist.horizon):
        other = [wire for wire in wires if levels[wire[0]][time] != levels[wire[0]][time - 1]]
        if other:
            lines += [f"#{time}\n", *(value_line(number, width, levels[number][time]) for number, _, width in other)]
    return "".join(lines + [f"#{netlist.horizon}\n"])


def needs_fourth(netlist):
    """Whether a module's kind is one that a text has only in the format 4."""
    return any(found and found[0] in reference.LATER for found in netlist.modules)


def text(netlist):
    """The netlist's text."""
    name = lambda wire: netlist.wires[wire][0]
    form = 4 if netlist.is_large or needs_fourth(netlist) else 2 if netlist.horizon > 65536 else 1
    lines = ([f"format {form}"] if form > 1 else []) + [f"horizon {netlist.horizon}"]
    lines += [f"wire {wire[0]} {wire[1]} {wire[2]}" for wire in netlist.wires if wire]
    for number, found in enumerate(netlist.modules):
        if found:
            kind, params, inputs, outputs = found
            read = [name(wire) + (f"/{delay}" if delay else "") for wire, delay in inputs]
            driven = [f"{'-' if wire is None else name(wire)}/{delay}" for wire, delay in outputs]
            lines.append(" ".join(["module", netlist.module_names[number], kind, *map(str, params), ":", *read, ">", *driven]))
    for wire in sorted(netlist.stimuli):
        lines.append(" ".join([f"stim {name(wire)}", *(f"{time}={value}" for time, value in netlist.stimuli[wire])]))
    for bundle in filter(None, netlist.bundles):
        lines.append(" ".join(["bundle", bundle[0], *map(name, bundle[1:4]), str(bundle[4])]))
    return "".join(f"{line}\n" for line in lines)
