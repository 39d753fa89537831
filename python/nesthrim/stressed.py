"""Questions about a netlist whose delays vary."""

from __future__ import annotations

from typing import TYPE_CHECKING, Mapping, Optional, Sequence, Tuple, cast

from .stress.answer import Limit, Stress
from .stress.ask import Question, say_nothing
from .stress.delays import Spread
from .stress.fit import Fit, fit
from .stress.races import Races, races

if TYPE_CHECKING:
    from .netlist import Netlist

Groups = Sequence[Sequence[str]]
Ranges = Mapping[str, Tuple[float, float]]


class Stressed:
    """What can be asked of a netlist whose delays vary; `docs/STRESS.md` says what the answers promise.

    `ranges` has other changes than the spread, as `{"sink": (-50, 200)}`, for a module, a kind, or the words of an edit, as "delay sink 0". The
    delays of the modules of a group of `together` have one factor. `corner` has the ends, in per cent, of one more factor of all delays. A
    counterexample is looked for, and bounds are sharpened, for about so many `seconds`. `UnknownName` for a module that isn't there, `ValueError`
    for a wrong range.
    """

    __slots__ = ()

    def stress(
        self,
        spread: float = 10,
        *,
        ranges: Optional[Ranges] = None,
        together: Groups = (),
        corner: Tuple[float, float] = (100, 100),
        reading: str = "same",
        seconds: float = 60,
    ) -> Stress:
        """Whether it works while each delay varies by up to `spread` per cent, and the margins of its bundles then.

        With the reading "same" a delay isn't known, and is the same all through the run; with "each" it may be another one at each event.
        """
        asked = Spread(spread, dict(ranges or {}), together, corner)
        return Question(self._own(), asked, reading, seconds).at(spread)

    def limit(
        self,
        most: int = 60,
        *,
        ranges: Optional[Ranges] = None,
        together: Groups = (),
        corner: Tuple[float, float] = (100, 100),
        reading: str = "same",
        seconds: float = 60,
    ) -> Limit:
        """The greatest spread, in whole per cents and at most `most`, at which it works, and the least one at which it doesn't."""
        asked = Spread(0, dict(ranges or {}), together, corner)
        return Question(self._own(), asked, reading, seconds).limit(most)

    def races(self) -> Races:
        """For each bundle the transfer that tolerates least: both chains of delays from their last common cause, and the spread up to which it
        holds."""
        return races(self._own())

    def fit(
        self,
        spread: float = 10,
        *,
        ranges: Optional[Ranges] = None,
        together: Groups = (),
        corner: Tuple[float, float] = (100, 100),
        seconds: float = 60,
    ) -> Fit:
        """A netlist whose matched delays, each a BUF that drives the request of a bundle, are lengthened until all bundles hold, and the price."""
        return fit(self._own(), Spread(spread, dict(ranges or {}), together, corner), seconds, say_nothing)

    def _own(self) -> Netlist:
        return cast("Netlist", self)
