"""What `stress` finds and bounds: against brute force, against the program, and by hand."""

from __future__ import annotations

import itertools
import random
import tempfile
from typing import Iterator, List, Sequence, Tuple

from nesthrim import Netlist, Session, Stress, UnknownName
from nesthrim.stress.ask import Question
from nesthrim.stress.confirm import Runs
from nesthrim.stress.delays import Ranges, Spread, delays_of, read_groups
from nesthrim.stress.judge import Judge
from nesthrim.stress.orders import Order
from nesthrim.stress.refine import until
from nesthrim.stress.scene import save, script
from nesthrim.stress.separation import separation
from nesthrim.stress.timing import Timing
from tests.stressed import ADDED, ARBITRATED, BEGUN, BUSY, CALLED, CAPTURED, GAP, INSIDE, MERGED, MET, STEERED, accumulator, fifo
from tests.support import Case, example, examples, raw

MENDED = "late-by-a-transfer-mended.net"
STAGES = [[f"{part}{stage}" for part in "cmga"] for stage in range(1, 5)] + [["sink"]]


def judged(netlist: Netlist, percent: float, **how: object) -> Judge:
    """The bounds of a netlist at a spread."""
    spread = Spread(percent, **how)  # type: ignore[arg-type]
    timing = Timing(netlist, spread, netlist.horizon)
    timing.unfold()
    runs = Runs(timing, timing.scale.horizon(spread))
    return Judge(timing, spread, runs, until(20), lambda line: None)


def bounds(judge: Judge) -> List[Tuple[Order, float]]:
    """Each order with its bound."""
    return [(order, entry.margin) for entries in judge.entries.values() for entry in entries for order in entry.members]


def corners(judge: Judge, levels: int) -> Iterator[Tuple[int, ...]]:
    """All points at the ends of the ranges, and with three levels those at nominal values too."""
    ends, nominal = judge.space.ends, judge.space.nominal
    choices = [sorted({int(low), int(high), *([value] if levels == 3 else [])}) for low, value, high in zip(ends.low, nominal, ends.high)]
    return itertools.product(*choices)


class Graphs(Case):
    def test_times_are_those_of_the_program_for_other_delays(self) -> None:
        chance = random.Random(1)
        texts = [example(name) for name in (MENDED, "wire-delays.net", "register-pipeline.net", "gcd.net")]
        for text in (*texts, INSIDE, GAP, ADDED, CALLED, STEERED, MERGED, str(fifo(3, 150)), str(accumulator())):
            judge = judged(Netlist.read(text), 2)
            for _ in range(4):
                point = tuple(chance.randint(int(low), int(high)) for low, high in zip(*judge.space.ends))
                self.assert_times(judge, point)

    def assert_times(self, judge: Judge, point: Sequence[int]) -> None:
        """The graph gives the times of the program's waves at a point, those of settling wires among others."""
        graph, settling = judge.timing.graph, judge.timing.settling
        times = graph.times(point)
        with judge.runs as runs:
            waves = runs.session(tuple(point)).waves()
        last = judge.timing.netlist.horizon * judge.timing.units
        for name in graph.wires:
            made = {times[event] for event in graph.of[name] if times[event] < last}
            found = {time for time in waves[name].times if time < last}
            self.assertTrue(found <= made if name in settling else found == made, name)

    def test_examples_have_graphs(self) -> None:
        for name in examples():
            netlist = Netlist.read(example(name))
            answer = netlist.stress(0)
            self.assertEqual(("holds" if netlist.check().ok else "broken"), answer.verdict, name)
            self.assertFalse([note for note in answer.notes if note.startswith("no graph")], name)

    def test_finer_units_change_no_behaviour(self) -> None:
        netlist = Netlist.read(GAP)
        timing = Timing(netlist, Spread(0), netlist.horizon)
        fine = Netlist.written(timing.text(netlist.horizon * timing.units)).waves()
        for name, wave in netlist.waves().items():
            self.assertEqual([(time * timing.units, level) for time, level in wave.changes], list(fine[name].changes))


class Bounds(Case):
    def test_no_margin_of_any_corner_is_below_its_bound(self) -> None:
        for text, levels in ((INSIDE, 2), (ADDED, 3), (ARBITRATED, 3), (CALLED, 3), (STEERED, 3), (MERGED, 3)):
            judge = judged(Netlist.read(text), 12)
            pairs, graph = bounds(judge), judge.timing.graph
            for point in corners(judge, levels):
                times = graph.times(point)
                for order, bound in pairs:
                    self.assertGreaterEqual(order.margin(times, point), bound, (order, point))

    def test_the_sweep_is_exact_where_each_event_has_a_delay_of_its_own(self) -> None:
        for text in (MERGED, CALLED, STEERED, ARBITRATED, BEGUN, MET, CAPTURED):
            judge = judged(Netlist.read(text), 12)
            graph, ends = judge.timing.graph, judge.space.ends
            least = {order: min(self.margins_of_events(judge, order)) for order in judge.timing.orders}
            for order, margin in least.items():
                self.assertEqual(margin, separation(graph, order, ends).margin, order)

    def margins_of_events(self, judge: Judge, order: Order) -> Iterator[float]:
        """The margins of an order at all corners of the delays of single events."""
        graph, ends = judge.timing.graph, judge.space.ends
        own = [sorted({ends.low[place], ends.high[place]}) for place in graph.delay]
        for delays in itertools.product(*own):
            times = [0.0]
            for event in range(1, len(delays)):
                times.append(max(times[cause] for cause, _ in graph.causes[event]) + delays[event])
            yield times[order.late] - times[order.early] - order.slack

    def test_bounds_of_windows_are_reached(self) -> None:
        # what is cut off behind a window has no part in the worst case of these bundles
        judge = judged(fifo(4, 300, 3), 5)
        found = [min(entry.margin for entry in judge.entries[name, "setup"]) / judge.timing.units for name in ("f1", "f2", "f3", "f4")]
        self.assertEqual([1.35, 1.35, 0.55, 1.35], found)

    def test_the_bound_of_a_bundle_is_reached_by_a_corner(self) -> None:
        netlist = Netlist.read(ADDED)
        judge = judged(netlist, 12)
        setups = [order for order in judge.timing.orders if order.rule == "setup"]
        found = min(order.margin(judge.timing.graph.times(point), point) for point in corners(judge, 2) for order in setups)
        answer = netlist.stress(12).bundle("t")
        self.assertEqual((2, found / judge.timing.units, found / judge.timing.units), (answer.margin, answer.worst, answer.bound))

    def test_a_loop_that_computes_holds(self) -> None:
        answer = Netlist.read(example("gcd.net")).stress(6)
        self.assertEqual(("holds", 0.1), (answer.verdict, answer.bundle("step_y").worst))

    def test_bundles_of_the_example(self) -> None:
        answer = Netlist.read(example(MENDED)).stress(10)
        self.assertEqual([(2, 1.2), (4, 2.4), (6, 0), (8, 1.2)], [(each.margin, each.worst) for each in answer.bundles])
        self.assertEqual([each.worst for each in answer.bundles], [each.bound for each in answer.bundles])

    def test_margins_are_those_that_measure_tells(self) -> None:
        netlist = fifo(4, 300, 3)
        measure = netlist.measure()
        for each in netlist.stress(1).bundles:
            self.assertEqual(measure.bundle(each.name).setup, None if each.margin is None else each.margin + 1)

    def test_a_worst_case_inside_a_range(self) -> None:
        netlist = Netlist.read(INSIDE)
        answer = netlist.stress(0, ranges={"p": (0, 22.3)})
        assert answer.worst is not None
        self.assertEqual(("breaks", 1), (answer.verdict, len(answer.worst.moved)))
        self.assertTrue(900 < answer.worst.moved[0].value < 1100)
        for delay, line in ((9, ""), (10, "26 bundle b setup\n"), (11, "")):
            self.assertEqual(line, raw(INSIDE.replace("y/9", f"y/{delay}"), "check"))

    def test_both_readings(self) -> None:
        netlist = Netlist.read(INSIDE)
        self.assertEqual("holds", netlist.stress(0, ranges={"p": (0, 3)}).verdict)
        answer = netlist.stress(0, ranges={"p": (0, 22.3)}, reading="each", seconds=10)
        self.assertIn(answer.verdict, ("breaks", "open"))
        self.assertEqual("holds", fifo(3, 150).stress(5, reading="each").verdict)
        self.fault(ValueError, lambda: netlist.stress(reading="both"))
        self.fault(ValueError, lambda: netlist.stress(reading="each", together=[["p"]]))


class Verdicts(Case):
    def assert_confirmed(self, answer: Stress) -> None:
        """The program's `check` of the worst netlist, and its answer to the script, have the line."""
        assert answer.worst is not None
        self.assertIn(answer.worst.line, str(answer.worst.netlist.check()).splitlines())
        self.assertIn(answer.worst.line, raw(script(answer.worst), "play").splitlines())

    def test_a_fifo_breaks_in_its_slow_stage(self) -> None:
        netlist = fifo(8, 600, 7)
        limit = netlist.limit()
        self.assertEqual((6, 7, "holds up to 6, breaks at 7"), (limit.holds, limit.breaks, limit.line))
        worst = limit.at.worst
        assert worst is not None
        self.assertTrue(all(each.delay.module.startswith("f7") for each in worst.moved))
        self.assert_confirmed(limit.at)
        for each in worst.moved:
            self.assertEqual(7, round(abs(each.percent or 0)))

    def test_each_moved_delay_is_needed(self) -> None:
        answer = fifo(8, 600, 7).stress(7)
        assert answer.worst is not None
        words = answer.worst.line.split()[1:]
        for left in answer.worst.edits:
            with Session(answer.worst.text) as session:
                for edit in answer.worst.edits:
                    if edit != left:
                        session.edit(edit)
                self.assertNotIn(words, [line.split()[1:] for line in str(session.check()).splitlines()])

    def test_other_data_without_a_line_of_check(self) -> None:
        netlist = Netlist.read(GAP)
        self.assertEqual("holds", netlist.stress(42).verdict)
        answer = netlist.stress(43)
        assert answer.worst is not None and answer.worst.differs is not None
        differs = answer.worst.differs
        self.assertEqual(("differs", 5, ()), (answer.verdict, answer.status, answer.worst.check))
        self.assertTrue(answer.worst.netlist.check().ok)
        played = raw(script(answer.worst), "play").splitlines()
        self.assertTrue(played[-1].startswith(f"{differs.wire} "))
        wanted, found = (self.data_at_captures(played, begin) for begin in (0, len(played) - 2))
        self.assertEqual((differs.wanted, differs.level), (wanted[differs.number - 1], found[differs.number - 1]))

    def test_data_that_come_before_the_capture_of_those_before(self) -> None:
        # the capture comes at 1 + 25 (1 + x), the data at 1 + 29 (1 - x)
        limit = Netlist.read(CAPTURED).limit()
        self.assertEqual((7, 8, "differs"), (limit.holds, limit.fails, limit.at.verdict))
        assert limit.at.worst is not None
        self.assertTrue(limit.at.worst.line.endswith(" module reg differs 1 for 0"))

    def data_at_captures(self, played: List[str], begin: int) -> List[int]:
        """The data at each change of the first of two waves."""
        pairs = [[tuple(map(int, word.split("="))) for word in line.split()[2:]] for line in played[begin : begin + 2]]
        first = int(played[begin + 1].split()[1])
        return [([first] + [level for at, level in pairs[1] if at <= time])[-1] for time, _ in pairs[0]]

    def test_what_may_change_its_order_is_open(self) -> None:
        answer = Netlist.read(ARBITRATED).stress(30)
        self.assertEqual(("open", 6, ["turn"]), (answer.verdict, answer.status, [each.name for each in answer.open]))
        self.assertEqual(("request-order", ("r1", 21.0), ("r2", 31.0)), (answer.open[0].rule, answer.open[0].early, answer.open[0].late))
        self.assertEqual("holds", Netlist.read(ARBITRATED).stress(19).verdict)

    def test_orders_of_kinds_that_a_rule_of_check_breaks(self) -> None:
        # a call ends at 28 + 27 x, and the next one comes at 31 - 30 x; a level comes at 21 + 20 x, what it steers at 25 - 24 x; the first of two
        # events comes at 23 + 22 x, the other one at 33 - 12 x; the first event of a C comes at 11 + 10 x, the other one at 15 - 14 x; an
        # acknowledge comes 5 (1 + x) behind a request, the next data 9 (1 - x)
        cases = [(CALLED, "use", "call-overlap", 5), (STEERED, "steer", "select-unstable", 9), (MERGED, "merge", "merge-collision", 29)]
        cases += [(BEGUN, "meet", "withdrawn", 16), (BUSY, "b", "data-while-busy", 28)]
        for text, name, code, holds in cases:
            netlist = Netlist.read(text)
            self.assertEqual("holds", netlist.stress(holds).verdict, name)
            limit = netlist.limit(90)
            self.assertEqual((holds, name), (limit.holds, limit.at.worst.line.split()[2] if limit.at.worst else limit.at.open[0].name))
            if limit.at.worst:
                self.assertIn(code, limit.at.worst.line)

    def test_a_sum_of_words_that_change_together(self) -> None:
        netlist = Netlist.read(ADDED)
        # the sum comes at 7 (1 + x), the request at 10 (1 - x), with a setup of 1
        self.assertEqual((11, 12), (netlist.limit().holds, netlist.limit().breaks))
        self.assert_confirmed(netlist.stress(12))

    def test_a_sum_in_a_loop_of_registers(self) -> None:
        netlist = accumulator()
        self.assertEqual(("holds", ()), (netlist.stress(20).verdict, netlist.stress(20).notes))
        answer = netlist.stress(40)
        self.assertEqual(("open", [("two", "data-after-opening")]), (answer.verdict, [(each.name, each.rule) for each in answer.open]))
        self.assertTrue(all(each.bound is not None and -100 < each.bound <= 0 for each in answer.open))
        judge, chance = judged(netlist, 20), random.Random(2)
        with judge.runs as runs:
            for _ in range(8):
                self.assertIsNone(runs.fault(judge.space.corner({place: chance.choice((-1, 1)) for place in judge.space.units_of}, 100)))

    def test_delays_that_vary_together(self) -> None:
        netlist = Netlist.read(example(MENDED))
        self.assertEqual("breaks", netlist.stress(10).verdict)
        self.assertEqual("holds", netlist.stress(20, together=STAGES).verdict)
        answer = netlist.stress(12, together=[["m3", "c3"], ["a3"]])
        self.assertEqual("breaks", answer.verdict)
        assert answer.worst is not None
        moved = {each.delay.module: each.percent for each in answer.worst.moved}
        self.assertEqual(moved.get("m3"), moved.get("c3"))
        self.assert_confirmed(answer)

    def test_points_keep_the_factor_of_a_group(self) -> None:
        netlist, chance = Netlist.read(example(MENDED)), random.Random(3)
        space = judged(netlist, 20, together=STAGES).space
        for factor in (100, 90):
            for _ in range(5):
                point = space.corner({place: chance.choice((-1, 1)) for place in space.units_of}, factor)
                for places in space.units:
                    self.assertEqual(1, len({round(point[place] / space.nominal[place], 2) for place in places}))

    def test_a_corner_of_the_die(self) -> None:
        # at 70 % a margin of 10 - 7 is 2.1, so a setup of 2 holds and one of 2.2, in finer units, would not
        netlist = Netlist.read(ADDED.replace("sum 1\n", "sum 2\n"))
        self.assertEqual("holds", netlist.stress(0, corner=(70, 140)).verdict)
        once = Netlist.read(ADDED.replace("sum 1\n", "sum 2\n").replace(" 35=9", "").replace(" 35=7", "").replace(" 35=0", ""))
        self.assertEqual(["holds", "breaks"], [once.stress(0, corner=(low, 140)).verdict for low in (67, 66)])
        # and 3 units at 33 % aren't above a setup of 1
        self.assertEqual(["holds", "breaks"], [fifo(3, 120).stress(0, corner=(low, 140)).verdict for low in (34, 33)])
        answer = netlist.stress(0, corner=(60, 140))
        self.assertEqual("breaks", answer.verdict)
        self.assert_confirmed(answer)
        assert answer.worst is not None
        self.assertTrue(all(each.percent == -40 for each in answer.worst.moved))

    def test_ranges_of_their_own(self) -> None:
        netlist = Netlist.read(ADDED)
        self.assertEqual("holds", netlist.stress(0, ranges={"match": (-15, 200)}).verdict)
        self.assertEqual("breaks", netlist.stress(0, ranges={"match": (-25, 0)}).verdict)
        self.assertEqual("breaks", netlist.stress(0, ranges={"SUM": (0, 60)}).verdict)
        self.assertEqual("breaks", netlist.stress(0, ranges={"delay match 0": (-25, 0)}).verdict)
        self.assertEqual("holds", netlist.stress(30, ranges={"BUF": (0, 0), "SUM": (0, 0)}).verdict)

    def test_faults_of_a_question(self) -> None:
        netlist = Netlist.read(ADDED)
        self.fault(UnknownName, lambda: netlist.stress(ranges={"nothing": (0, 1)}))
        self.fault(UnknownName, lambda: netlist.stress(together=[["match", "nothing"]]))
        for spread in (100, -1):
            self.fault(ValueError, lambda: netlist.stress(spread))
        self.fault(ValueError, lambda: netlist.stress(ranges={"match": (5, 9)}))
        self.fault(ValueError, lambda: netlist.stress(corner=(110, 140)))
        self.fault(ValueError, lambda: netlist.stress(together=[["match"], ["match", "add"]]))
        self.assertEqual([["a", "b"], ["c"]], read_groups("a b # both\n\n# none\nc\n"))

    def test_netlists_without_bundles_or_at_fault(self) -> None:
        answer = Netlist.read(example("two-stage-control.net")).stress(5)
        self.assertEqual(("holds", (), "holds\n"), (answer.verdict, answer.bundles, str(answer)))
        netlist = Netlist.read(example("late-data.net"))
        answer = netlist.stress(5)
        self.assertEqual(("broken", 5, 0), (answer.verdict, answer.status, answer.runs))
        self.assertEqual(str(netlist.check()), str(answer))
        limit = netlist.limit()
        self.assertEqual((None, 0, 5), (limit.holds, limit.fails, limit.status))

    def test_a_run_without_a_graph_is_searched(self) -> None:
        # the lowest bit of a sum is merged with events: its steps would be events
        text = ADDED + "wire low 1 0\nwire both 1 0\nmodule bit BIT 0 : sum > low/1\nmodule mix XOR : low s > both/1\n"
        netlist = Netlist.read(text)
        self.assertEqual(("nothing found", 6), (netlist.stress(2).verdict, netlist.stress(2).status))
        answer = netlist.stress(15)
        self.assertEqual("breaks", answer.verdict)
        self.assert_confirmed(answer)
        self.assertIn("mix", answer.notes[0])

    def test_the_files_of_a_counterexample(self) -> None:
        answer = fifo(4, 200, 3).stress(8)
        assert answer.worst is not None
        with tempfile.TemporaryDirectory() as folder:
            names = save(answer.worst, f"{folder}/worst")
            texts = []
            for name in names:
                with open(name, encoding="utf-8") as file:
                    texts.append(file.read())
        self.assertEqual(["net", "play", "data.svg", "request.svg"], [name.split("worst")[1].lstrip(".-") for name in names])
        self.assertIn(answer.worst.line, raw(texts[0], "check").splitlines())
        self.assertTrue(texts[1].endswith("check\n"))
        self.assertTrue(all(text.startswith("<svg") or "<svg" in text[:200] for text in texts[2:]))
        self.assertNotEqual(texts[2], texts[3])

    def test_a_question_that_has_no_time_is_open(self) -> None:
        answer = Question(Netlist.read(INSIDE), Spread(0, {"p": (0, 10)}), seconds=0).at(0)
        self.assertIn(answer.verdict, ("open", "holds"))

    def test_delays_that_vary(self) -> None:
        netlist = Netlist.read(example("wire-delays.net"))
        delays = delays_of(netlist)
        self.assertTrue(any(delay.is_input for delay in delays))
        ranges = Ranges(netlist, delays, Spread(33.3), 10)
        for delay, low, high in zip(delays, ranges.low, ranges.high):
            self.assertTrue(delay.nominal * 6.67 <= low <= delay.nominal * 10 <= high <= delay.nominal * 13.33, delay)
