"""Whether bundles hold while delays vary.

`check` answers for one value of each delay; `stress` answers for ranges. The nominal run is unfolded to a graph of events (`unfold`, `settling`),
which says the run's times for other delays too, as long as some orders of events hold (`orders`). The margin of each order is bounded over all
delays in their ranges (`windows`, `separation`, `refine`). What isn't above 0 is searched for a counterexample (`search`, `samples`), and each
counterexample is run by the program (`confirm`), and made as small as can be (`shrink`).

What is found is certain, since the program says it. What holds is computed by this package, which is tested and isn't proved.
"""

from .answer import BundleStress, Limit, Moved, OpenOrder, Stress, Worst
from .ask import Question
from .confirm import Differs
from .delays import Delay, Spread
from .fit import Fit, Fitted
from .races import Link, Race, Races

__all__ = [
    "BundleStress", "Delay", "Differs", "Fit", "Fitted", "Limit", "Link", "Moved", "OpenOrder", "Question", "Race", "Races", "Spread", "Stress",
    "Worst",
]  # fmt: skip
