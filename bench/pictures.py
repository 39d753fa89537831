"""The pictures of a netlist's waves, and the netlist as a graph, computed once more in Python. Netlists are as in `reference.py`; the
modules' names are `module_names`."""
import html
import json

import questions
import reference

decimal = str
hex_digits = "0x{:x}".format

UNICODE = "▁▔╱╲▒═╳"
ASCII = "_-/\\#=X"

SHAPES = {"C": "circle", "XOR": "diamond"}
SHAPES |= dict.fromkeys(["BUF", "NOT"], "triangle orientation=270 margin=0")
SHAPES |= dict.fromkeys(["ADDC", "XORC", "SUM", "BIT", "AND", "OR"], "ellipse")
SHAPES |= dict.fromkeys(["REG", "TOGGLE", "SELECT", "CALL", "ARBITER", "SUB", "LESS", "MUX", "JOIN"], "record")


ROUND = [digit * 10**power for power in range(10) for digit in (1, 2, 5)]


class Columns:
    """A range of units below a horizon, in at most so many columns of the least round number of units, which begin at multiples of it."""

    def __init__(self, horizon, begin, end, most):
        begin = min(begin, horizon - 1)
        self.end = max(min(end, horizon), begin + 1)
        self.units = next(units for units in ROUND if units * most >= self.end - begin // units * units)
        self.begin = begin // self.units * self.units
        self.begins = list(range(self.begin, self.end, self.units))

    def times(self):
        """The columns at which a time stands: each tenth, or each twentieth where two times would touch."""
        tenth = range(0, len(self.begins), 10)
        return tenth[::2] if any(len(str(self.begins[column])) >= 10 for column in tenth[:-1]) else tenth

    def spans(self):
        return [range(begin, min(begin + self.units, self.end)) for begin in self.begins]

    def cells(self, line):
        """How many events a wire has in each column, and its level at the column's end; none counts at the range's first unit."""
        events = [sum(line[time] != line[time - 1] for time in span if time > self.begin) for span in self.spans()]
        return [(count, line[span[-1]]) for count, span in zip(events, self.spans())]


def narrow(cells, units, marks):
    low_high, rise_fall, busy = marks[:2], marks[3:1:-1], marks[4]
    return "".join(low_high[level] if not count or (count == 1 and units == 1) else rise_fall[level] if count == 1 else busy for count, level in cells)


def wide(cells, marks, digits=decimal):
    """Flat columns, crosses at events, and behind each cross, and at the first column, the level where it fits."""
    row = [marks[6] if count else marks[5] for count, _ in cells]
    crosses = [column for column, (count, _) in enumerate(cells) if count]
    starts = [(cross + 1, cells[cross][1]) for cross in crosses] + ([] if cells[0][0] else [(0, cells[0][1])])
    for start, level in starts:
        room = next((cross for cross in crosses if cross >= start), len(row)) - start
        if len(digits(level)) <= room:
            row[start : start + len(digits(level))] = digits(level)
    return "".join(row)


def ruler(columns):
    times = columns.times()
    return "".join(f"{columns.begins[column]:<{times.step}}" for column in times).rstrip()


def picture(netlist, levels, found, columns, wires, marks, digits=decimal):
    """What `show` writes for wires by number, from all findings in order."""
    name = {"module": lambda n: netlist.module_names[n], "bundle": lambda n: netlist.bundles[n][0]}
    found = [one for one in found if columns.begin <= one[0] < columns.end]
    places = list(dict.fromkeys(one[1:3] for one in found))
    places = [place for sort in ("module", "bundle") for place in places if place[0] == sort]
    names = [netlist.wires[wire][0] for wire in wires] + [name[sort](number) for sort, number in places]
    margin = max(map(len, names), default=0) + 2
    lines = [" " * margin + ruler(columns)]
    for wire in wires:
        cells = columns.cells(levels[wire])
        row = narrow(cells, columns.units, marks) if netlist.wires[wire][1] == 1 else wide(cells, marks, digits)
        lines.append(f"{netlist.wires[wire][0]:<{margin}}{row}")
    for sort, number in places:
        times = {one[0] for one in found if one[1:3] == (sort, number)}
        row = "".join("!" if times & set(span) else " " for span in columns.spans())
        lines.append(f"{name[sort](number):<{margin}}{row.rstrip()}")
    lines += [f"{time} {sort} {name[sort](number)} {code}" for time, sort, number, code in found]
    return "".join(f"{line}\n" for line in lines)


def show(netlist, begin=0, end=None, most=72, names=None, marks=UNICODE, digits=decimal):
    """What `show` writes; of wires that are named, each once."""
    levels, _, at_modules = reference.evaluated(netlist)
    columns = Columns(netlist.horizon, begin, netlist.horizon if end is None else end, most)
    standing = [number for number, wire in enumerate(netlist.wires) if wire]
    wires = standing if names is None else list(dict.fromkeys(map(netlist.wire, names)))
    return picture(netlist, levels, reference.findings(netlist, levels, at_modules), columns, wires, marks, digits)


def bit_wave(cells):
    """The wave of a wire of width 1 in WaveJSON: its levels, `x` for several events, and `.` behind the same."""
    symbols = ["x" if count > 1 else str(level) for count, level in cells]
    return "".join("." if symbol == before else symbol for before, symbol in zip([None, *symbols], symbols))


def signal(name, width, cells, digits):
    """A wire in WaveJSON."""
    if width == 1:
        return {"name": name, "wave": bit_wave(cells)}
    starts = [bool(count) or not column for column, (count, _) in enumerate(cells)]
    values = [digits(level) for is_start, (_, level) in zip(starts, cells) if is_start]
    return {"name": name, "wave": "".join("=" if is_start else "." for is_start in starts), "data": values}


def wave_json(netlist, begin=0, end=None, most=72, names=None, digits=decimal):
    """What `show --json` writes."""
    levels, _, _ = reference.evaluated(netlist)
    columns = Columns(netlist.horizon, begin, netlist.horizon if end is None else end, most)
    standing = [number for number, wire in enumerate(netlist.wires) if wire]
    wires = standing if names is None else list(dict.fromkeys(map(netlist.wire, names)))
    signals = [signal(*netlist.wires[wire][:2], columns.cells(levels[wire]), digits) for wire in wires]
    lines = ",".join(f"\n{json.dumps(one)}" for one in signals)
    head = {"text": f"time in units of {columns.units}", "tick": columns.begin // columns.units}
    return f'{{"signal": [{lines}\n],\n"head": {json.dumps(head)}}}\n'


PITCH = 8

# what may be found, by number
CODES = """merge-collision withdrawn select-unstable call-overlap done-without-call repeat-request done-without-grant capture-while-held
pass-while-open data-at-capture data-while-busy setup request-while-busy ack-while-idle""".split()


class Lane:
    """Where the row of a wire stands in an SVG, by number from 0, with its columns from a point on."""

    def __init__(self, left, row, units):
        self.left, self.units = left, units
        self.top, self.middle, self.base, self.bottom = (28 * row + height for height in (40, 48, 52, 56))

    def x(self, column):
        return self.left + PITCH * column

    def y(self, level):
        return self.top if level else self.bottom


def bit_path(lane, cells):
    """The path of a wire of width 1: a start, and a command or two a column."""
    count, level = cells[0]
    path = f"M{lane.x(0)} {lane.y(1 - level if count == 1 else level)}"
    for column, (count, level) in enumerate(cells, 1):
        x, y = lane.x(column), lane.y(level)
        one = f"V{y}H{x}" if lane.units == 1 else f"L{x} {y}"
        path += f"H{x}" if not count else one if count == 1 else f"M{x} {y}"
    return path


def word_path(lane, cells):
    """The path of a wider wire. In columns of several units it has two lines or a cross a column; in those of one unit the middle of a cross
    is at the begin of its column."""
    path = ""
    for column, (count, _) in enumerate(cells):
        x, end = lane.x(column), lane.x(column + 1)
        for begin, over in ((lane.top, lane.bottom), (lane.bottom, lane.top)):
            if lane.units > 1:
                path += f"M{x} {begin}" + (f"L{end} {over}" if count else f"H{end}")
                continue
            crossed = column + 1 < len(cells) and cells[column + 1][0]
            path += f"M{x} {lane.middle}L{x + 3} {begin}" if count else f"M{x} {begin}"
            path += f"L{end - 3} {begin}L{end} {lane.middle}" if crossed else f"H{end}"
    return path


def rectangle(lane, column, columns, start="<rect"):
    return f'{start} x="{lane.x(column)}" y="{lane.top}" width="{PITCH * columns}" height="16"/>'


def values(lane, cells, digits=decimal):
    """The value of the first column and of each with an event, over the columns up to the next."""
    starts = [column for column, (count, _) in enumerate(cells) if count or not column]
    for start, end in zip(starts, [*starts[1:], len(cells)]):
        count, level = cells[start]
        x = lane.x(start) if not count else lane.x(start) + 4 if lane.units == 1 else lane.x(start + 1)
        room = end - start - bool(count or (lane.units == 1 and end < len(cells)))
        text = f'<text x="{x}" y="{lane.base}">{digits(level)}</text>' if len(digits(level)) <= room else ""
        frame = rectangle(lane, start, end - start)
        yield f'<g class="value" data-column="{start}" data-level="{level}"><title>{digits(level)}</title>{frame}{text}</g>'


def wire_group(lane, number, name, width, cells, digits=decimal):
    """The row of a wire in an SVG."""
    if width == 1:
        shape = "".join(rectangle(lane, column, 1, '<rect class="band"') for column, (count, _) in enumerate(cells) if count > 1)
        path = bit_path(lane, cells)
    else:
        shape, path = "".join(values(lane, cells, digits)), word_path(lane, cells)
    heights = f'data-top="{lane.top}" data-bottom="{lane.bottom}"'
    title = f'<title>{name}</title><text x="8" y="{lane.base}">{name}</text>'
    return f'<g class="wire" id="wire-{number}" data-width="{width}" {heights}>{title}{shape}<path class="level" d="{path}"/></g>\n'


LIGHT = """svg{background:#fff}
text{font:13px Menlo,Consolas,'DejaVu Sans Mono',monospace;fill:#1f2328}
.axis text{fill:#59636e}
.axis path{fill:none;stroke:#d1d9e0;shape-rendering:crispEdges}
.level{fill:none;stroke:#0969da;stroke-width:2;stroke-linejoin:round}
.band{fill:#0969da;fill-opacity:.4}
.value rect{fill:none;pointer-events:all}
.value text{paint-order:stroke;stroke:#fff;stroke-width:3}
.finding path{fill:#cf222e}
.leads path{fill:none;stroke:#cf222e;stroke-opacity:.5}
.word text{fill:#cf222e;paint-order:stroke;stroke:#fff;stroke-width:3}"""

DARK = """svg{background:#0d1117}
text{fill:#f0f6fc}
.axis text{fill:#9198a1}
.axis path{stroke:#2f3742}
.level{stroke:#4493f8}
.band{fill:#4493f8}
.value text{stroke:#0d1117}
.finding path{fill:#f85149}
.leads path{stroke:#f85149}
.word text{fill:#f85149;stroke:#0d1117}"""

STYLE = f"<style>{LIGHT}@media (prefers-color-scheme:dark){{{DARK}}}</style>".replace("\n", "") + "\n"


def axis(columns, left, bottom, title):
    """The title, and below it the times, each over an upright line."""
    ticks = [(left + PITCH * column, columns.begins[column]) for column in columns.times()]
    marks = "".join(f'<path d="M{x} 36V{bottom}"/><text x="{x}" y="30">{begin}</text>' for x, begin in ticks)
    shown = "".join(" " if letter < " " else letter for letter in html.escape(title, quote=False))
    return f'<g class="axis"><text x="{left}" y="14">{shown}</text>{marks}</g>\n'


def place_group(left, row, place, code, name, last):
    """The row of a code that is found at a module or a bundle, with its word behind the last mark."""
    y = 28 * row + 52
    word = f'<g class="word"><text x="{left + PITCH * last + 12}" y="{y}">{code}</text></g>'
    return f'<g class="place" id="{place[0]}-{place[1]}-{code}"><title>{name}</title><text x="8" y="{y}">{name}</text>{word}</g>\n'


def finding_group(left, row, column, line):
    """A mark in its row, with the report's line."""
    x, y = left + PITCH * column, 28 * row + 48
    mark = f'<path d="M{x} {y}L{x + 4} {y - 6}L{x + 8} {y}L{x + 4} {y + 6}Z"/>'
    return f'<g class="finding" data-column="{column}"><title>{line}</title>{mark}</g>\n'


def lead(netlist, wires, place, x, row):
    """The lines from a mark up to the wires of its place."""
    found = [wire for wire, _ in netlist.modules[place[1]][2]] if place[0] == "module" else netlist.bundles[place[1]][1:4]
    heights = [28 * wires.index(wire) + 48 for wire in found if wire in wires]
    path = "".join(f"M{x} {28 * row + 48}V{y}M{x - 3} {y}H{x + 3}" for y in heights)
    return f'<path d="{path}"/>'


ARROWS = """<style>.causes path{fill:none;stroke:#8250df;stroke-width:1.5;marker-end:url(#head)}
#head path{fill:#8250df}
@media (prefers-color-scheme:dark){.causes path{stroke:#a371f7}
#head path{fill:#a371f7}}</style>
<defs><marker id="head" viewBox="0 0 8 8" refX="7" refY="4" markerWidth="7" markerHeight="7" orient="auto">
<path d="M0 1L8 4L0 7Z"/></marker></defs>
<g class="causes">""".replace("\n", "")


def arrows(netlist, columns, wires, left, wire, time):
    """An arrow for each cause that `why` names of a wire at a time, to its effect, where both are in the picture."""
    causes = questions.Causes(netlist)
    links = [(cause, effect) for effect, _, events in causes.chain(wire, time) for cause, _ in events]
    place = lambda change: (left + PITCH * ((change[1] - columns.begin) // columns.units) + (0 if columns.units == 1 else 4), 28 * wires.index(change[0]) + 48)
    is_in = lambda change: change[0] in wires and columns.begin <= change[1] < columns.end
    lines = [(*place(cause), *place(effect)) for cause, effect in links if is_in(cause) and is_in(effect)]
    return ARROWS + "".join(f'<path d="M{x} {y}L{to} {below}"/>' for x, y, to, below in lines) + "</g>\n" if lines else ""


def svg(netlist, begin=0, end=None, most=72, names=None, title="time in units", digits=decimal, causes=None):
    """What `show --svg` writes, with the causes of a wire by number at a time."""
    levels, _, at_modules = reference.evaluated(netlist)
    columns = Columns(netlist.horizon, begin, netlist.horizon if end is None else end, min(most, 1200))
    standing = [number for number, wire in enumerate(netlist.wires) if wire]
    wires = standing if names is None else list(dict.fromkeys(map(netlist.wire, names)))
    name = {"module": lambda n: netlist.module_names[n], "bundle": lambda n: netlist.bundles[n][0]}
    found = [one for one in reference.findings(netlist, levels, at_modules) if columns.begin <= one[0] < columns.end]
    places = list(dict.fromkeys(one[1:3] for one in found))
    places = [place for sort in ("module", "bundle") for place in places if place[0] == sort]
    labels = [netlist.wires[wire][0] for wire in wires] + [name[sort](number) for sort, number in places]
    left = PITCH * min(34, max(map(len, labels), default=0) + 2)
    column_of = lambda time: (time - columns.begin) // columns.units
    lines = [(place, code) for place in places for code in CODES if any(one[1:] == (*place, code) for one in found)]
    last = {line: max(column_of(one[0]) for one in found if one[1:] == (*line[0], line[1])) for line in lines}
    count, rows = len(columns.begins), len(wires) + len(lines)
    time = columns.times()[-1]
    ends = [left + PITCH * count, left + PITCH * (time + len(str(columns.begins[time]))), left + PITCH * len(title)]
    width = max(ends + [left + PITCH * (last[line] + 1) + 4 + PITCH * len(line[1]) for line in lines]) + 8
    height = 28 * rows + 44
    head = f'<svg xmlns="http://www.w3.org/2000/svg" width="{width}" height="{height}" viewBox="0 0 {width} {height}"'
    data = {"from": columns.begin, "to": columns.end, "units": columns.units, "columns": count, "left": left, "pitch": PITCH}
    text = head + "".join(f' data-{key}="{value}"' for key, value in data.items()) + ">\n" + STYLE + axis(columns, left, height - 8, title)
    row_of = lambda one: len(wires) + lines.index((one[1:3], one[3]))
    x_of = lambda one: left + PITCH * column_of(one[0]) + (0 if columns.units == 1 else 4)
    text += '<g class="leads">' + "".join(lead(netlist, wires, one[1:3], x_of(one), row_of(one)) for one in found) + "</g>\n"
    for row, wire in enumerate(wires):
        text += wire_group(Lane(left, row, columns.units), wire, *netlist.wires[wire][:2], columns.cells(levels[wire]), digits)
    for row, (place, code) in enumerate(lines, len(wires)):
        text += place_group(left, row, place, code, name[place[0]](place[1]), last[place, code])
    for one in found:
        time, sort, number, code = one
        text += finding_group(left, row_of(one), column_of(time), f"{time} {sort} {name[sort](number)} {code}")
    if causes:
        text += arrows(netlist, columns, wires, left, *causes)
    return text + "</svg>\n"


CELLS = {
    "TOGGLE": ("a", "dot blank"),
    "SELECT": ("a diamond", "true false"),
    "CALL": ("r1 r2 d", "r d1 d2"),
    "ARBITER": ("r1 r2 d1 d2", "g1 g2"),
    "REG": ("d c p", "q cd pd"),
    "SUB": ("a b", "y"),
    "LESS": ("a b", "y"),
    "MUX": ("a b s", "y"),
    "JOIN": ("a b", "y"),
}


def module_node(name, kind, params):
    """A module with its kind and its parameters, and with its ports where those of its kind differ."""
    label = f"{name}\\n{' '.join([kind, *map(str, params)])}"
    if kind in CELLS:
        ins, outs = ("|".join(f"<{side}{port}>{of}" for port, of in enumerate(ports.split())) for side, ports in zip("io", CELLS[kind]))
        label = f"{{{{{ins}}}|{label}|{{{outs}}}}}"
    return f'  "module {name}" [label="{label}" shape={SHAPES[kind]}];'


def graph(netlist):
    """What `graph` writes."""
    name = lambda wire: netlist.wires[wire][0]
    modules = [(number, *found) for number, found in enumerate(netlist.modules) if found]
    lines = [
        "digraph netlist {",
        "  rankdir=LR;",
        "  node [fontname=Helvetica fontsize=12 margin=0.05 height=0.3];",
        "  edge [fontname=Helvetica fontsize=10 arrowsize=0.7];",
    ]
    lines += [module_node(netlist.module_names[number], kind, params) for number, kind, params, _, _ in modules]
    driver = {wire: (number, port, delay) for number, *_, outputs in modules for port, (wire, delay) in enumerate(outputs) if wire is not None}
    reads = [(wire, number, port, delay) for number, _, _, inputs, _ in modules for port, (wire, delay) in enumerate(inputs)]
    end = lambda number, side, port, at: f'"module {netlist.module_names[number]}"' + (f":{side}{port}:{at}" if netlist.modules[number][0] in CELLS else "")
    tail = lambda wire: end(driver[wire][0], "o", driver[wire][1], "e") if wire in driver else f'"wire {name(wire)}"'
    for wire in (number for number, found in enumerate(netlist.wires) if found):
        if wire not in driver or not any(read[0] == wire for read in reads):
            lines.append(f'  "wire {name(wire)}" [label="{name(wire)}" shape=plaintext];')
            if wire in driver:
                lines.append(f'  {tail(wire)} -> "wire {name(wire)}" [label="/{driver[wire][2]}"];')
    for wire, number, port, delay in sorted(reads, key=lambda read: read[0]):
        label = (f"{name(wire)}/{driver[wire][2]}" if wire in driver else "") + (f"+{delay}" if delay else "")
        kind, params = netlist.modules[number][:2]
        bubble = " arrowhead=odot" if kind == "C" and params[port + 1] else ""
        lines.append(f'  {tail(wire)} -> {end(number, "i", port, "w")} [label="{label}"{bubble}];')
    for of, request, acknowledge, payload, setup in filter(None, netlist.bundles):
        label = f"{of}\\nsetup {setup}|<r>{name(request)}|<a>{name(acknowledge)}|<d>{name(payload)}"
        lines.append(f'  "bundle {of}" [label="{label}" shape=record style=dashed];')
        for wire, cell in (request, "r"), (acknowledge, "a"), (payload, "d"):
            lines.append(f'  {tail(wire)} -> "bundle {of}":{cell}:w [style=dashed color=gray50 arrowhead=none];')
    return "".join(f"{line}\n" for line in [*lines, "}"])
