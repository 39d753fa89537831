"""What documents show: listings with the commands that write them, and tables of kinds, commands and examples, for `examples/documents`."""
import glob
import os
import re

TOP = os.path.dirname(os.path.dirname(os.path.abspath(__file__)))

SLOW = "examples/slow-stage.net"
MARGINS = "rows/measures/margins_at_the_edges_measure.in"
LUCK = "rows/measures/measure_late_luck.in"

# for each section of docs/FORMATS.md the commands that write its listings, in order. A command that ends with `<` reads the listing before.
FORMATS = {
    "The netlist text": ["grep -v '^#' examples/two-stage-control.net"],
    "The word at fault": ["mpwb check rows/faults/fault_wire_near.in"],
    "Script lines": [None, "mpwb play <"],
    "Blocks of designers": ["grep -v '^#' examples/two-designers.desk", "mpwb desk --viewers 1 <"],
    "Reports": [None, "cat rows/reports/report_bundle_busy.in", "mpwb report <"],
    "Checks": ["mpwb check --brief rows/checks/check_brief.in", "mpwb check examples/stopped-pipeline.net"],
    "Value change dumps": ["cat rows/dumps/dump.in", "mpwb dump <", "mpwb dump --unit 10ps rows/dumps/dump.in | head -n 1"],
    "Timing diagrams": ["mpwb show examples/late-data.net"],
    "WaveJSON": ["mpwb show --json --columns 10 examples/late-data.net"],
    "Measures": [f"mpwb measure {MARGINS}", f"mpwb measure {LUCK} | grep bundle"],
    "Causes": [f"mpwb why q1 110 {SLOW} --steps 3", f"mpwb path q1 119 {SLOW}", f"mpwb path q1 119 --from 110 {SLOW}"],
    "Explanations": ["mpwb explain BadPort"],
    "Graphs": ["mpwb graph examples/register-pipeline.net"],
    "Verilog": ["mpwb verilog examples/two-stage-control.net | sed -n '/^module netlist /,$p'"],
}


def lines_of(name):
    with open(f"{TOP}/{name}", encoding="utf-8") as file:
        return file.read().splitlines()


def listings(name):
    """The listings of a document by its sections. One begins behind an empty line and may have empty lines in it."""
    found, section, at = {}, None, None
    for line in lines_of(name):
        if line.startswith("## "):
            section, at = line[3:], None
        elif line.startswith("    ") and at is not None:
            at.append(line[4:])
        elif line.startswith("    ") and empty:
            at = [line[4:]]
            found.setdefault(section, []).append(at)
        elif line:
            at = None
        elif at is not None:
            at.append("")
        empty = not line
    return {section: ["\n".join(each).rstrip("\n").split("\n") for each in found[section]] for section in found}


def table(name, section):
    """The rows of the tables of a section, without their heads, each a list of cells."""
    at, rows, begun = None, [], False
    for line in lines_of(name):
        at = line[3:] if line.startswith("## ") else at
        cells = [cell.strip().replace("\\|", "|") for cell in re.split(r"(?<!\\)\|", line)[1:-1]]
        if at == section and cells and begun:
            rows.append(cells)
        begun = bool(cells) and (begun or cells[0].startswith("---"))
    return rows


def compare_formats(run, wrong):
    """The listings of docs/FORMATS.md are what their commands write, and a netlist's text is written as it stands there."""
    shown = listings("docs/FORMATS.md")
    for section, commands in FORMATS.items():
        wanted = shown.get(section, [])
        if len(wanted) != len(commands):
            wrong(f"docs/FORMATS.md, {section}", len(commands), len(wanted))
        for before, below, command in zip([[], *wanted], wanted, commands):
            if not command:
                continue
            text = "\n".join(before)
            found = run(f"{command}<'END'\n{text}\nEND" if command.endswith("<") else command)
            if found != below:
                wrong(f"docs/FORMATS.md, {section}, {command}", below, found)
    if run("mpwb play examples/two-stage-control.net <<<text") != shown["The netlist text"][0]:
        wrong("docs/FORMATS.md, a netlist as it is written", shown["The netlist text"][0], run("mpwb play examples/two-stage-control.net <<<text"))


def compare_readme(run, wrong):
    """README.md shows a talk with `play`, and a picture of a viewer that docs/LIVE.md shows too."""
    shown = listings("README.md")
    talk = [re.split(r" {2,}", line) for line in shown["What if?"][0]]
    command = next(line for line in lines_of("README.md") if "after `./mpwb play " in line).split("./mpwb ")[1].split("`")[0]
    script, answers = ("\n".join(words[place] for words in talk) for place in (0, 1))
    found = run(f"mpwb {command} <<'END'\n{script}\nEND")
    if found != answers.split("\n"):
        wrong("README.md, What if?", answers, found)
    live = "\n".join(line.strip() for line in lines_of("docs/LIVE.md"))
    picture = next(each for each in shown["Several people at one netlist"] if each[0].startswith("version"))
    if "\n".join(line.strip() for line in picture) not in live:
        wrong("README.md, the picture of a viewer", picture, "not in docs/LIVE.md")


def names_of(text):
    """The names of parameters or ports that `explain` lists with what is said of them."""
    return [part.split()[0] for part in text.split(", ") if part.split()[0] not in ("none", "each", "below")]


def compare_kinds(kinds, wrong):
    """The kinds of docs/COMMANDS.md have the parameters and ports that `explain` tells."""
    for kind, *columns, _ in table("docs/COMMANDS.md", "Kinds of module"):
        told = [names_of(kinds[kind.strip("`")].text(heading)) for heading in ("parameters", "inputs", "outputs")]
        if [column.split() for column in columns] != told:
            wrong(f"docs/COMMANDS.md, {kind}", [column.split() for column in columns], told)


def compare_commands(run, wrong):
    """The commands and options of docs/COMMANDS.md are those of `--help`."""
    documented = {}
    for command, _, options in table("docs/COMMANDS.md", "Commands"):
        for name in re.findall(r"`([a-z]+)", command):
            documented[name] = set(re.findall(r"(--[a-z]+)", options))
    help_lines = run(f"{TOP}/mpwb --help 2>/dev/null")
    told = {match[1] for line in help_lines if (match := re.match(r"  ([a-z]+)  +[A-Z]", line))} - {"help"}
    if told != set(documented):
        wrong("docs/COMMANDS.md, Commands", sorted(documented), sorted(told))
    for name in sorted(told & {line.split()[0] for line in run("mpwb --help") if re.match(r"  [a-z]+  +[A-Z]", line)}):
        options = {match[1] for line in run(f"mpwb {name} --help") if (match := re.match(r"\s+(?:-\w, )?(--[a-z]+)", line))}
        options -= {"--workers", "--least", "--help", *(["--at"] if name == "desk" else [])}  # (what all have is said once, and `--at` beside `desk`)
        if options != documented[name]:
            wrong(f"docs/COMMANDS.md, {name}", sorted(documented[name]), sorted(options))


def compare_examples(wrong):
    """The table of examples in docs/COMMANDS.md has each of them, and no other."""
    documented = {name for cells in table("docs/COMMANDS.md", "Examples") for name in re.findall(r"`([^`]+)`", cells[0])}
    there = {os.path.basename(path) for ending in ("net", "play", "desk", "py") for path in glob.glob(f"{TOP}/examples/*.{ending}")}
    if documented != there:
        wrong("docs/COMMANDS.md, Examples", sorted(documented - there), sorted(there - documented))
