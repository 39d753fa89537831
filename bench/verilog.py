"""A netlist as Verilog (`docs/FORMATS.md`), written once more in Python, and the waves of a dump of `vvp`. Netlists are as in `reference.py`; the
modules' names are `module_names`. The modules of the kinds are in `kinds.v`."""
import os
import re

# the names of each kind's parameters, inputs and outputs, and whether it has ports of any width
KINDS = {
    "BUF": ("", "a", "y", True),
    "NOT": ("", "a", "y", False),
    "XOR": ("", "a b", "y", False),
    "C": ("INIT BUBA BUBB", "a b", "y", False),
    "TOGGLE": ("", "a", "dot blank", False),
    "SELECT": ("", "a diamond", "true false", False),
    "CALL": ("", "r1 r2 d", "r d1 d2", False),
    "ARBITER": ("", "r1 r2 d1 d2", "g1 g2", False),
    "REG": ("INIT", "d c p", "q cd pd", True),
    "ADDC": ("K", "a", "y", True),
    "XORC": ("K", "a", "y", True),
    "SUM": ("", "a b", "y", True),
    "BIT": ("K", "a", "y", True),
    "AND": ("", "a b", "y", True),
    "OR": ("", "a b", "y", True),
    "SUB": ("", "a b", "y", True),
    "LESS": ("", "a b", "y", True),
    "MUX": ("", "a b s", "y", True),
    "JOIN": ("", "a b", "y", True),
}

# the reserved words of Verilog-2005 and of SystemVerilog, and those that `iverilog` has besides
RESERVED = set(
    """always and assign automatic begin buf bufif0 bufif1 case casex casez cell cmos config deassign default defparam design disable edge else
    end endcase endconfig endfunction endgenerate endmodule endprimitive endspecify endtable endtask event for force forever fork function
    generate genvar highz0 highz1 if ifnone incdir include initial inout input instance integer join large liblist library localparam macromodule
    medium module nand negedge nmos nor noshowcancelled not notif0 notif1 or output parameter pmos posedge primitive pull0 pull1 pulldown pullup
    pulsestyle_ondetect pulsestyle_onevent rcmos real realtime reg release repeat rnmos rpmos rtran rtranif0 rtranif1 scalared showcancelled signed
    small specify specparam strong0 strong1 supply0 supply1 table task time tran tranif0 tranif1 tri tri0 tri1 triand trior trireg unsigned use uwire
    vectored wait wand weak0 weak1 while wire wor xnor xor
    accept_on alias always_comb always_ff always_latch assert assume before bind bins binsof bit break byte chandle checker class clocking const
    constraint context continue cover covergroup coverpoint cross dist do endchecker endclass endclocking endgroup endinterface endpackage
    endprogram endproperty endsequence enum eventually expect export extends extern final first_match foreach forkjoin global iff ignore_bins
    illegal_bins implements implies import inside int interconnect interface intersect join_any join_none let local logic longint matches modport
    nettype new nexttime null package packed priority program property protected pure rand randc randcase randsequence ref reject_on restrict
    return s_always s_eventually s_nexttime s_until s_until_with sequence shortint shortreal soft solve static string strong struct super
    sync_accept_on sync_reject_on tagged this throughout timeprecision timeunit type typedef union unique unique0 until until_with untyped var
    virtual void wait_order weak wildcard with within
    bool wone wreal""".split()
)


def modules():
    """The module of each kind, with its comment."""
    with open(f"{os.path.dirname(os.path.abspath(__file__))}/kinds.v", encoding="ascii") as text:
        found = re.findall(r"\n// [A-Z]+: .*?\nendmodule\n", text.read(), re.DOTALL)
    return {text.split(":")[0].removeprefix("\n// "): text for text in found}


def identifier(name):
    return f"\\{name} " if name in RESERVED else name


def level_text(width, level):
    return f"{width}'d{level}"


def span(width):
    return "" if width == 1 else f"[{width - 1}:0] "


def register(name, wire):
    return f"  reg {span(wire[1])}{name} = {level_text(wire[1], wire[2])};"


def items(listed):
    return ",".join(f"\n{item}" for item in listed)


def instance(netlist, number):
    """The lines of a module: the copies that its inputs read, and its instance."""
    kind, params, inputs, outputs = netlist.modules[number]
    name, wires = netlist.module_names[number], netlist.wires
    named, read, driven, is_wide = KINDS[kind]
    width = wires[inputs[0][0]][1] + (kind == "JOIN") if is_wide else 1  # a JOIN is as wide as its output
    lines, values, ports = [], [], []
    for port, (wire, delay) in zip(read.split(), inputs):
        source = identifier(wires[wire][0])
        if delay:
            lines.append(f"{register(f'{name}${port}', wires[wire])} always @({source}) {name}${port} <= #{delay} {source};")
        ports.append(f".{port}({f'{name}${port}' if delay else source})")
    for port, (wire, delay) in zip(driven.split(), outputs):
        values.append(f".{port}_delay({delay})")
        if wire is not None:
            values.append(f".{port}_initial({level_text(*wires[wire][1:3])})")
        ports.append(f".{port}({'' if wire is None else identifier(wires[wire][0])})")
    values += [f".{param}({level_text(width, value)})" for param, value in zip(named.split(), params)]
    values += [f".W({width})"] if is_wide else []
    own = f"{name}$" if netlist_has(netlist, name) else identifier(name)
    return [*lines, f"  mp_{kind.lower()} #({', '.join(values)}) {own} ({', '.join(ports)});"]


def netlist_has(netlist, name):
    return any(wire and wire[0] == name for wire in netlist.wires)


def text(netlist):
    """What `mpwb verilog` writes."""
    present = [number for number, found in enumerate(netlist.modules) if found]
    kinds, all_modules = {netlist.modules[number][0] for number in present}, modules()
    name = lambda wire: identifier(netlist.wires[wire][0])
    driven = {wire for number in present for wire, _ in netlist.modules[number][3] if wire is not None}
    standing = [number for number, wire in enumerate(netlist.wires) if wire]
    outside = [number for number in standing if number not in driven]
    lines = ["`timescale 1ns/1ns"] + [all_modules[kind].rstrip("\n") for kind in KINDS if kind in kinds]
    ports = [f"  {'output' if number in driven else 'input'} {span(netlist.wires[number][1])}{name(number)}" for number in standing]
    lines += ["", f"module netlist ({items(ports)}", ");"]
    lines += [line for number in present for line in instance(netlist, number)]
    for bundle in filter(None, netlist.bundles):
        lines.append(f"  // bundle {bundle[0]}: request {name(bundle[1])}, acknowledge {name(bundle[2])}, data {name(bundle[3])}, setup {bundle[4]}")
    lines += ["endmodule", "", "module bench;", "  reg last$ = 1'd0;", *(register(name(number), netlist.wires[number]) for number in outside)]
    lines += [f"  netlist netlist$ ({items(f'    .{name(number)}({name(number)})' for number in outside)}", "  );"]
    lines += ["  initial begin", '    $dumpfile("waves.vcd");', "    $dumpvars(1, netlist$);"]
    for number in sorted(netlist.stimuli):
        lines += [f"    {name(number)} <= #{time} {level_text(netlist.wires[number][1], level)};" for time, level in netlist.stimuli[number]]
    end = [f"    last$ <= #({netlist.horizon} - 1) 1'd1;", "    @(last$) #0 $finish;", "  end", "endmodule", ""]
    return "\n".join([*lines, *end])


def dumped(dump):
    """The waves of a dump of `vvp`, by name: the level at each time at which one is told."""
    names, waves, time = {}, {}, 0
    words = iter(dump.split())
    for word in words:
        if word in ("$date", "$version", "$timescale", "$comment", "$scope", "$upscope", "$enddefinitions"):
            while word != "$end":
                word = next(words)
        elif word == "$var":
            _, _, code, name = (next(words) for _ in range(4))
            names.setdefault(code, []).append(name.removeprefix("\\"))
            while word != "$end":
                word = next(words)
        elif word[0] == "#":
            time = int(word[1:])
        elif word[0] != "$":
            level, code = (word[1:], next(words)) if word[0] == "b" else (word[0], word[1:])
            for name in names[code]:
                waves.setdefault(name, {})[time] = int(level, 2)
    return waves


def wave_lines(netlist, waves):
    """The waves of a netlist's wires as `mpwb waves` writes them."""
    lines = []
    for wire in filter(None, netlist.wires):
        levels = sorted(waves[wire[0]].items())
        changes = [f" {time}={level}" for (_, before), (time, level) in zip(levels, levels[1:]) if level != before]
        lines.append(f"{wire[0]} {levels[0][1]}{''.join(changes)}\n")
    return "".join(lines)
