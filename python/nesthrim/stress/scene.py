"""The files of a counterexample: the netlist, a script that shows the fault, and pictures of the causes of both events."""

from __future__ import annotations

from typing import TYPE_CHECKING, List, NamedTuple, Optional, Sequence, Tuple

from ..program import find_program
from ..session import Session
from .answer import Worst

if TYPE_CHECKING:
    from ..answers.causes import Step
    from ..netlist import Netlist

# how many steps of causes are followed
_STEPS = 300


class Change(NamedTuple):
    """A wire and the time of a change of it."""

    wire: str
    time: int


class Scene(NamedTuple):
    """Both changes that meet at a fault, the range in which their causes part, and the wires that take part."""

    data: Change
    request: Change
    start: int
    end: int
    wires: Tuple[str, ...]


def script(worst: Worst) -> str:
    """A script for `mpwb play`: the netlist as it stands, the edits that make the worst one of it, and the questions that show the fault."""
    questions = [f"wave {wire}" for wire in _looked_at(worst)] if worst.differs else ["check"]
    lines = [*questions, *map(str, worst.moved), *questions]
    return f"{worst.text}---\n" + "".join(f"{line}\n" for line in lines)


def _looked_at(worst: Worst) -> List[str]:
    """The wires that show that a datum differs: the request or the capture, and the data."""
    from ..netlist import Netlist

    assert worst.differs is not None
    return list(wires_at(Netlist.written(worst.text), worst.differs.sort, worst.differs.name))[::-1]


def wires_at(netlist: Netlist, sort: str, name: str) -> Tuple[str, str]:
    """The two wires that meet at a bundle or a module: of a bundle the data and the request, of a module its first two inputs."""
    if sort == "bundle":
        bundle = netlist.known_bundles[name]
        return bundle.data, bundle.req
    inputs = netlist.known_modules[name].inputs
    return inputs[0][0], inputs[min(1, len(inputs) - 1)][0]


def scene_of(worst: Worst) -> Optional[Scene]:
    """What is to be seen of a fault; `None` for a deadlock, or if nothing has changed."""
    words = worst.line.split()
    if words[1] not in ("bundle", "module"):
        return None
    netlist, time = worst.netlist, int(words[0])
    with Session(netlist) as session:
        wires = wires_at(netlist, words[1], words[2])
        changes = [_change(session, wire, time, words[3] == "setup" and wire == wires[1]) for wire in wires]
        if None in changes:
            return None
        data, request = (change for change in changes if change is not None)
        chains = [session.why(change.wire, change.time, _STEPS) for change in (data, request)]
    since = _parted(chains)
    seen = dict.fromkeys([step.wire for chain in chains for step in chain if step.time >= since] + [*wires])
    end = max(data.time, request.time)
    beside = max(1, (end - since) // 10)
    return Scene(data, request, max(0, since - beside), end + beside, tuple(seen))


def _change(session: Session, wire: str, time: int, behind: bool) -> Optional[Change]:
    """The last change of a wire up to a time, or else, or if it is asked for, the first one from then on."""
    times = session.wave(wire).times
    before, after = [each for each in times if each <= time], [each for each in times if each >= time]
    chosen = (after or before) if behind else (before[::-1] or after)
    return Change(wire, chosen[0]) if chosen else None


def _parted(chains: Sequence[Sequence[Step]]) -> int:
    """The time of the last change that both chains have, or of the first one of them."""
    first, second = ({(step.wire, step.time) for step in chain} for chain in chains)
    both = [time for _, time in first & second]
    return max(both) if both else min(time for _, time in first | second)


def save(worst: Worst, base: str) -> List[str]:
    """Writes BASE.net, BASE.play, BASE-data.svg and BASE-request.svg; their names."""
    worst.netlist.save(f"{base}.net")
    with open(f"{base}.play", "w", encoding="utf-8", newline="\n") as file:
        file.write(script(worst))
    names = [f"{base}.net", f"{base}.play"]
    scene = scene_of(worst)
    for change, word in ((scene.data, "data"), (scene.request, "request")) if scene else ():
        assert scene is not None
        with open(f"{base}-{word}.svg", "w", encoding="utf-8", newline="\n") as file:
            file.write(_drawn(worst, scene, change))
        names.append(f"{base}-{word}.svg")
    return names


def _drawn(worst: Worst, scene: Scene, change: Change) -> str:
    words = ["show", "--svg", "--columns=120", f"--from={scene.start}", f"--to={scene.end}", *(f"--wire={wire}" for wire in scene.wires)]
    unit = f"time in units, {worst.units} for one of the netlist" if worst.units > 1 else "time in units"
    return find_program().run([*words, f"--unit={unit}", "--causes", change.wire, str(change.time)], str(worst.netlist)).written
