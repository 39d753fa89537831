"""How an edit of a session is taken back."""

from __future__ import annotations

from typing import TYPE_CHECKING, Dict, List, Optional, Sequence, Tuple

from .lines import parts_of

if TYPE_CHECKING:
    from .netlist import Netlist

Values = Optional[Tuple[str, ...]]


class Undo:
    """Follows accepted edits of a netlist, and knows the edits that take them back.

    Edits of delays, ports and stimuli are taken back by edits. One that adds or removes something isn't, since numbers of wires, modules and
    bundles are never used again.
    """

    def __init__(self, netlist: Netlist) -> None:
        self._netlist = netlist
        # what was set by an edit: the words behind those of the key
        self._set: Dict[Tuple[str, ...], Values] = {}
        self._edits: Optional[List[str]] = []

    def accepted(self, line: str) -> None:
        """Takes note of an edit that was accepted, which may be a batch."""
        for part in parts_of(line):
            back = None if self._edits is None else self._back(part.split())
            if back is None:
                self._edits = None
                return
            assert self._edits is not None
            self._edits.append(back)

    @property
    def edits(self) -> Optional[List[str]]:
        """The edits that take all back, in this order; `None` if no edits do."""
        return None if self._edits is None else self._edits[::-1]

    def _back(self, words: Sequence[str]) -> Optional[str]:
        """The line that takes back an edit, which is noted."""
        first = words[0]
        if first in ("delay", "indelay", "input", "output"):
            key: Tuple[str, ...] = (first, words[1], str(int(words[2])))
            new: Values = (words[3],)
        elif first in ("stim", "clear"):
            key = ("stim", words[1])
            new = tuple(words[2:]) if first == "stim" else None
        else:
            return None
        before = self._set[key] if key in self._set else self._at_first(key)
        self._set[key] = new
        return f"clear {key[1]}" if before is None else " ".join([*key, *before])

    def _at_first(self, key: Tuple[str, ...]) -> Values:
        """What the netlist itself has for a key."""
        if key[0] == "stim":
            stimulus = self._netlist.known_stimuli.get(key[1])
            return None if stimulus is None else tuple(f"{time}={level}" for time, level in stimulus.values)
        module = self._netlist.known_modules[key[1]]
        ports = module.inputs if key[0] in ("input", "indelay") else module.outputs
        wire, delay = ports[int(key[2])]
        return (str(delay),) if key[0] in ("delay", "indelay") else (wire or "-",)
