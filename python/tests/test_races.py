"""Races of bundles, sized delays, and the commands over both."""

from __future__ import annotations

import contextlib
import io
import os
import tempfile
from typing import Tuple

from nesthrim import Netlist
from nesthrim.stress.command import main
from nesthrim.stress.delays import Delay
from nesthrim.stress.races import Link, tolerated
from tests.stressed import ADDED, ARBITRATED, GAP, fifo
from tests.support import EXAMPLES, TOP, Case, example

MENDED = "late-by-a-transfer-mended.net"


class Chains(Case):
    def test_both_chains_of_the_example(self) -> None:
        races = Netlist.read(example(MENDED)).races()
        self.assertEqual(["b3", "b4", "b1", "b2"], [race.bundle for race in races.races])
        race = races.bundle("b3")
        data, request = (sum(link.units for link in chain) for chain in (race.data, race.request))
        self.assertEqual(("d0", 9, 27, 34, 6), (race.cause, race.time, data, request, race.slack))
        # 27 units of data slower, and 33 of the request but its stimulus faster: 27 (1 + x) + 1 = 1 + 33 (1 - x)
        self.assertEqual(10, round(race.tolerance or 0, 3))
        self.assertTrue(str(race).startswith("bundle b3 from d0 at 9: data g1 1, a1 2, g2 1, a2 2, g3 1, a3 20 = 27; request r0 after 1, c1 1, "))
        self.assertTrue(str(race).endswith("= 34; slack 6; holds to 10 %"))

    def test_the_race_of_a_fifo_agrees_with_its_limit(self) -> None:
        netlist = fifo(8, 600, 7)
        race = netlist.races().races[0]
        self.assertEqual(("f7", 6.9, 2), (race.bundle, round(race.tolerance or 0, 2), race.slack))
        self.assertEqual(["f7_reg 1", "f7_logic 12"], [str(link) for link in race.data])
        self.assertEqual(int(race.tolerance or 0), netlist.limit().holds)

    def test_a_chain_that_decides_no_more_once_it_is_faster(self) -> None:
        # by their sums alone the longest chains of f7 and f9 would tolerate 1.53 and 4.86 %
        races = fifo(12, 400, 3).races()
        self.assertEqual([15.38, 15.38], [round(races.bundle(name).tolerance or 0, 2) for name in ("f7", "f9")])

    def test_a_delay_on_both_chains_counts_where_it_stands_more_often(self) -> None:
        both, own = (Link(name, units, Delay(name, 0, False, units)) for name, units in (("both", 10), ("own", 5)))
        self.assertEqual(60, tolerated([both], [both, own], 3))
        self.assertEqual(12, tolerated([both], [own, own], 2.4))
        self.assertIsNone(tolerated([both], [both, Link("r", 3)], 1))

    def test_a_race_holds_up_to_its_tolerance(self) -> None:
        netlist = fifo(5, 300, 3)
        for race in netlist.races().races:
            alone = [link for link in (*race.data, *race.request) if link.delay and not (link in race.data and link in race.request)]
            moved = {link.delay.words: -1 if link in race.request else 1 for link in alone if link.delay}
            tolerance = race.tolerance or 0
            under, over = (self.margin(netlist, race.bundle, moved, tolerance + more) for more in (-0.5, 0.5))
            self.assertTrue(under > 0 >= over, (race.bundle, under, over))

    def margin(self, netlist: Netlist, bundle: str, moved: "dict[str, int]", percent: float) -> float:
        """The least margin of a bundle with these delays alone moved to their ends."""
        ranges = {words: (0.0, percent) if sign > 0 else (-percent, 0.0) for words, sign in moved.items()}
        bound = netlist.stress(0, ranges=ranges).bundle(bundle).bound
        assert bound is not None
        return bound

    def test_netlists_at_fault_and_without_bundles(self) -> None:
        broken = Netlist.read(example("late-data.net")).races()
        self.assertEqual((5, str(Netlist.read(example("late-data.net")).check())), (broken.status, str(broken)))
        self.assertEqual((0, ""), (Netlist.read(ARBITRATED).races().status, str(Netlist.read(ARBITRATED).races())))


class Sizes(Case):
    def test_a_fifo_is_sized(self) -> None:
        netlist = fifo(8, 600, 7)
        fit = netlist.fit(10)
        self.assertTrue(fit.holds)
        self.assertEqual(["delay f7_match 0 14"], fit.edits)
        self.assertEqual((38, 38), (fit.period_before, fit.period))
        self.assertEqual("holds", fit.netlist.stress(10).verdict)
        with netlist.edited("delay f7_match 0 13") as m:
            self.assertEqual("breaks", Netlist.written(m.text()).stress(10).verdict)

    def test_a_pipeline_with_unequal_logic_that_is_late_at_first(self) -> None:
        fit = Netlist.read(example("late-by-a-transfer.net")).fit(10)
        self.assertEqual((True, ["m3"]), (fit.holds, [each.module for each in fit.changes]))
        self.assertEqual(["delay m3 0 23"], fit.edits)

    def test_what_no_matched_delay_can_mend(self) -> None:
        fit = Netlist.read(ARBITRATED).fit(30)
        self.assertEqual((False, (), "open"), (fit.holds, fit.changes, fit.stress.verdict))


def told(*words: str) -> Tuple[int, str, str]:
    """The status of a command, and what it writes and says."""
    with contextlib.redirect_stdout(io.StringIO()) as out, contextlib.redirect_stderr(io.StringIO()) as said:
        status = main(words)
    return status, out.getvalue(), said.getvalue()


class Commands(Case):
    def setUp(self) -> None:
        self.folder = tempfile.TemporaryDirectory()
        self.addCleanup(self.folder.cleanup)

    def file(self, text: str) -> str:
        path = os.path.join(self.folder.name, "given.net")
        with open(path, "w", encoding="utf-8") as file:
            file.write(text)
        return path

    def test_verdicts_and_their_statuses(self) -> None:
        added = self.file(ADDED)
        self.assertEqual((0, "bundle t margin 2 worst 0.98\nholds\n", ""), told("stress", added, "--spread", "6"))
        status, text, _ = told("stress", added, "--limit")
        self.assertEqual((5, "holds up to 11, breaks at 12"), (status, text.splitlines()[0]))
        self.assertEqual((6, "open turn request-order r1 21 before r2 31 worst -5\n"), told("stress", self.file(ARBITRATED), "--spread", "30")[:2])
        status, text, _ = told("stress", self.file(GAP), "--spread", "43")
        self.assertEqual((5, "differs"), (status, text.splitlines()[1].split()[0]))
        broken = os.path.join(EXAMPLES, "late-data.net")
        for command in ("stress", "races"):
            self.assertEqual((5, str(Netlist.load(broken).check()), ""), told(command, broken))

    def test_options(self) -> None:
        path, base = os.path.join(EXAMPLES, MENDED), os.path.join(self.folder.name, "worst")
        groups = os.path.join(self.folder.name, "groups")
        with open(groups, "w", encoding="utf-8") as file:
            file.write("c1 m1 g1 a1\nc2 m2 g2 a2\nc3 m3 g3 a3\nc4 m4 g4 a4\n")
        self.assertEqual(0, told("stress", path, "--together", groups)[0])
        self.assertEqual(5, told("stress", path, "--out", base, "--plot", f"{base}.svg")[0])
        made = sorted(os.listdir(self.folder.name))
        self.assertEqual(["groups", "worst-data.svg", "worst-request.svg", "worst.csv", "worst.net", "worst.play", "worst.svg"], made)
        with open(f"{base}.svg", encoding="utf-8") as drawn, open(os.path.join(TOP, "docs", "margins.svg"), encoding="utf-8") as shown:
            self.assertEqual(shown.read(), drawn.read())
        with open(f"{base}.csv", encoding="utf-8") as table:
            rows = table.read().splitlines()
        self.assertEqual(("spread,b1,b2,b3,b4", "0,2,4,6,8", "10,1.2,2.4,0,1.2"), (rows[0], rows[1], rows[-1]))
        self.assertEqual(0, told("stress", path, "--range", "a3=-10..10", "--spread", "4", "--corner", "90..110", "--each")[0])
        status, text, _ = told("stress", path, "--fit", "--out", base)
        self.assertEqual((0, ["delay m3 0 23  # of 22", "holds"]), (status, text.splitlines()[:2]))
        self.assertEqual("holds", Netlist.load(f"{base}.net").stress(10).verdict)

    def test_wrong_words_and_netlists(self) -> None:
        given = self.file(ADDED)
        wrong = [["stress", "--flip"], ["stress", "--spread", "x"], ["stress", "a", "b"], ["races", "--spread", "3"]]
        for words in (*wrong, ["stress", given, "--limit", "--most", "100"], ["stress", given, "--spread", "100"], ["stress", given, "--corner", "70"]):
            self.assertEqual(2, told(*words)[0], words)
        self.assertEqual((2, ""), told("stress", given, "--spread", "12", "--out", given[: -len(".net")])[:2])
        self.assertEqual((2, ""), told("stress", given, "--plot", given)[:2])
        with open(given, encoding="utf-8") as file:
            self.assertEqual(ADDED, file.read())
        self.assertEqual((3, ""), told("stress", "/nothing/there")[:2])
        status, _, said = told("races", self.file("horizon 10\nmodule b BUF : x > -\n"))
        self.assertEqual((1, "mpwb: line 2: 7 Refused: 3 NoSuchWire"), (status, said.splitlines()[0]))
        self.assertEqual(1, told("stress", self.file(ADDED), "--range", "nothing=-1..1")[0])
        self.assertEqual(3, told("stress", self.file(ADDED), "--spread", "12", "--out", "/nothing/there")[0])
