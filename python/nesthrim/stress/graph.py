"""The events of a run with their causes: a graph from which the times of the run follow for any delays.

An event is a change of a wire. It happens at `max over causes u of (t(u) + e) + d`, where `e` is the delay of the input that u reaches and `d`
that of the output that drives the wire. The origin, event 0, is at time 0. A change as the run settles has the origin as its cause; one that a
stimulus makes has the one before it, of any stimulus, with the gap between them as a delay that doesn't vary. Events are numbered by their nominal
times, so a cause has a lower number than its effect.

The graph is the run as long as the order constraints of `orders` hold.
"""

from __future__ import annotations

from dataclasses import dataclass, field
from typing import Dict, List, Optional, Sequence, Tuple, TypeVar

# an event, and the place of the delay of the input that it reaches
Cause = Tuple[int, int]

Time = TypeVar("Time", int, float)

# the place of a delay that is 0 and doesn't vary
NONE = 0


class Unfoldable(Exception):
    """The run has no graph of this sort: `name` is the module or the bundle at which, `why` the reason."""

    def __init__(self, name: str, why: str) -> None:
        super().__init__(f"{name} {why}")
        self.name, self.why = name, why


@dataclass
class Graph:
    """The events, by number, and the delays, by place: `NONE`, then the `free` ones, then the gaps of stimuli, which don't vary.

    `lane` tells apart changes of one wire at one time that come from several inputs of one module. `of` has the events of each wire.
    """

    wires: List[str]
    wire: List[int]
    lane: List[int]
    time: List[int]
    causes: List[Tuple[Cause, ...]]
    delay: List[int]
    root: List[bool]
    of: Dict[str, List[int]]
    nominal: List[int]
    free: int
    _times: Dict[str, List[int]] = field(default_factory=dict)

    def times_of(self, wire: str) -> List[int]:
        """The nominal times of the events of a wire."""
        if wire not in self._times:
            self._times[wire] = [self.time[event] for event in self.of[wire]]
        return self._times[wire]

    def wire_of(self, event: int) -> Optional[str]:
        """The wire that changes; `None` for the origin."""
        return self.wires[self.wire[event]] if event else None

    def times(self, delays: Sequence[Time], last: Optional[int] = None) -> List[Time]:
        """The times of the events up to `last`, or of all, for given delays by place."""
        found: List[Time] = [delays[NONE]]
        add = found.append
        stop = len(self.time) if last is None else last + 1
        for delay, causes in zip(self.delay[1:stop], self.causes[1:stop]):
            event, place = causes[0]
            reached = found[event] + delays[place]
            for event, place in causes[1:]:
                other = found[event] + delays[place]
                if other > reached:
                    reached = other
            add(reached + delays[delay])
        return found

    def chain(self, event: int, times: Sequence[int], delays: Sequence[int]) -> List[int]:
        """An event and, again and again, the last of its causes, back to the origin."""
        chain = [event]
        while event:
            event = self.last_cause(event, times, delays)[0]
            chain.append(event)
        return chain

    def last_cause(self, event: int, times: Sequence[int], delays: Sequence[int]) -> Cause:
        """The cause that decides when an event happens."""
        return max(self.causes[event], key=lambda cause: times[cause[0]] + delays[cause[1]])
