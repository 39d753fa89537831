"""The circuits of the package, compared with netlists that are written by hand."""

from __future__ import annotations

import math
import random

from nesthrim import FifoStage, Netlist
from tests.support import Case

PIPELINE = """horizon 120
wire r 1 0
wire ack 1 0
wire s1_q 1 0
wire s2_q 1 0
wire s3_q 1 0
module source NOT : s1_q > r/1
module s1 C 0 0 1 : r s2_q > s1_q/2
module s2 C 0 0 1 : s1_q s3_q > s2_q/5
module s3 C 0 0 1 : s2_q ack > s3_q/2
module sink BUF : s3_q > ack/3
"""

FIFO = """horizon 150
wire r 1 0
wire k 1 0
wire d 8 0
wire c1 1 0
wire done1 1 0
wire passed1 1 0
wire r1 1 0
wire x1 8 0
wire y1 8 3
wire c2 1 0
wire done2 1 0
wire passed2 1 0
wire r2 1 0
wire x2 8 3
module m1 C 0 0 1 : r passed1 > c1/2
module g1 REG 0 : d c1 done2 > x1/1 done1/1 passed1/1
module add1 ADDC 3 : x1 > y1/4
module late1 BUF : done1 > r1/6
module m2 C 0 0 1 : r1 passed2 > c2/3
module g2 REG 0 : y1 c2 k > x2/2 done2/2 passed2/2
module late2 BUF : done2 > r2/1
module sink BUF : r2 > k/4
bundle f1 r1 done2 y1 1
bundle f2 r2 k x2 0
stim r 10=1 40=0 70=1
stim d 5=7 35=8 65=200
"""

RING_OF_TWO = """horizon 60
wire t1_q 1 1
wire t2_q 1 0
wire t3_q 1 1
wire t4_q 1 1
module t1 C 1 0 1 : t4_q t2_q > t1_q/2
module t2 C 0 0 1 : t1_q t3_q > t2_q/3
module t3 C 1 0 1 : t2_q t4_q > t3_q/2
module t4 C 1 0 1 : t3_q t1_q > t4_q/2
"""

# an odd number of tokens: the ring is closed by an inversion
RING_OF_ONE = """horizon 60
wire t1_q 1 1
wire t2_q 1 0
wire t3_q 1 0
module t1 C 1 1 1 : t3_q t2_q > t1_q/2
module t2 C 0 0 1 : t1_q t3_q > t2_q/2
module t3 C 0 0 0 : t2_q t1_q > t3_q/2
"""

ARBITRATED = """horizon 80
wire r1 1 0
wire r2 1 0
wire ack 1 0
wire m_g1 1 0
wire m_g2 1 0
wire m_a1 1 0
wire m_a2 1 0
wire m_r 1 0
wire m_q 1 0
module who ARBITER : r1 r2 m_a1 m_a2 > m_g1/2 m_g2/2
module both CALL : m_g1 m_g2 m_q > m_r/2 m_a1/2 m_a2/2
module stage C 0 0 1 : m_r ack > m_q/2
module sink BUF : m_q > ack/5
stim r1 5=1 60=0
stim r2 5=1 40=0
"""

# a fork, three branches of a stage each, and a join
FORK_AND_JOIN = """horizon 80
wire r 1 0
wire ack 1 0
wire go 1 0
wire met 1 0
wire b1_q 1 0
wire b2_q 1 0
wire b3_q 1 0
wire f_t2 1 0
wire f_t3 1 0
wire j_t2 1 0
wire j_t3 1 0
module c1 C 0 0 0 : b1_q b2_q > f_t2/2
module c2 C 0 0 0 : f_t2 b3_q > f_t3/2
module c3 C 0 0 1 : r f_t3 > go/2
module c4 C 0 0 1 : go met > b1_q/3
module c5 C 0 0 1 : go met > b2_q/9
module c6 C 0 0 1 : go met > b3_q/1
module c7 C 0 0 0 : b1_q b2_q > j_t2/1
module c8 C 0 0 0 : j_t2 b3_q > j_t3/1
module c9 C 0 0 1 : j_t3 ack > met/1
module sink BUF : met > ack/4
stim r 2=1 8=0 30=1
"""


class Circuits(Case):
    def test_a_control_pipeline(self) -> None:
        n = Netlist(120)
        r, ack = n.wire("r"), n.wire("ack")
        stages = n.pipeline("s", 3, req=r, ack=ack, delay=[2, 5, 2])
        n.not_("source", stages[0].q, out=r)
        n.buf("sink", stages[-1].q, out=ack, delay=3)
        self.assert_same_waves(n, PIPELINE)
        self.assertEqual(["s1", "s2", "s3"], [stage.name for stage in stages])
        self.assertEqual(5.0 + 2.0, n.measure(60).wire("s2.q").period)

    def test_a_fifo(self) -> None:
        n = Netlist(150)
        r, k, d = n.wire("r"), n.wire("k"), n.wire("d", 8)
        kinds = [FifoStage(match=6, logic=4, add=3, setup=1), FifoStage(control=3, register=2)]
        fifo = n.fifo("f", 2, req=r, ack=k, data=d, stage=kinds)
        n.buf("sink", fifo[-1].r, out=k, delay=4)
        n.events(r, 10, 40, 70)
        n.stim(d, {5: 7, 35: 8, 65: 200})
        by_hand = Netlist.read(FIFO)
        names = {"c": "cap", "done": "cd", "passed": "pd", "r": "r"}
        same = {f"{hand}{at}": f"f{at}.{made}" for hand, made in names.items() for at in (1, 2)}
        same.update({"x1": "f1.q", "y1": "f1.d", "x2": "f2.d", "r": "r", "k": "k", "d": "d"})
        self.assertEqual(len(by_hand.known_wires), len(n.known_wires))
        waves, waves_by_hand = n.waves(), by_hand.waves()
        for hand, made in same.items():
            self.assertEqual(waves_by_hand[hand].changes, waves[made].changes, hand)
        self.assertEqual(str(by_hand.report()), str(n.report()))
        self.assertEqual((7 + 3, 8 + 3, 200 + 3), tuple(level for _, level in waves["f2.d"].changes))
        self.assertEqual(by_hand.measure().bundle("f1"), n.measure().bundle("f1"))

    def test_a_ring_of_an_even_number_of_tokens(self) -> None:
        n = Netlist(60)
        n.ring("t", 4, tokens=2, delay=[2, 3, 2, 2])
        self.assert_same_waves(n, RING_OF_TWO)
        self.assertGreater(n.measure(30).wire("t2.q").events, 2)

    def test_a_ring_of_an_odd_number_of_tokens(self) -> None:
        n = Netlist(60)
        n.ring("t", 3, tokens=1)
        self.assert_same_waves(n, RING_OF_ONE)
        self.assertEqual(6.0, n.measure().wire("t1.q").period)

    def test_a_ring_runs_unless_it_is_empty_or_full(self) -> None:
        for stages in range(1, 8):
            for tokens in range(stages + 1):
                n = Netlist(200)
                ring = n.ring("t", stages, tokens, delay=1)
                runs = n.measure(100).wire(ring[0].q.name).events > 0
                self.assertEqual(0 < tokens < stages, runs, f"{tokens} tokens in {stages} stages")

    def test_an_arbitrated_stage(self) -> None:
        n = Netlist(80)
        r1, r2, ack = n.wires("r1", "r2", "ack")
        stage = n.arbitrated("m", r1, r2, ack)
        n.buf("sink", stage.q, out=ack, delay=5)
        n.events(r1, 5, 60)
        n.events(r2, 5, 40)
        self.assert_same_waves(n, ARBITRATED)
        self.assertEqual((2, 2), (len(n.waves()["m.a1"].changes), len(n.waves()["m.a2"].changes)))
        self.assertFalse(n.report())

    def test_a_fork_and_a_join(self) -> None:
        n = Netlist(80)
        r, ack, go, met = n.wires("r", "ack", "go", "met")
        branches = [n.pipeline(f"b{at}", 1, req=go, ack=met, delay=delay)[0] for at, delay in enumerate((3, 9, 1), 1)]
        for at, branch in enumerate(branches, 1):
            self.assertEqual(f"b{at}1_q", branch.q.name)
        n.fork("f", r, [branch.q for branch in branches], out=go)
        n.join("j", [branch.q for branch in branches], ack, delay=1, out=met)
        n.buf("sink", met, out=ack, delay=4)
        n.events(r, 2, 8, 30)
        self.assert_same_waves(n, FORK_AND_JOIN.replace("_q", "1_q"))
        self.assertEqual([3, 3, 3, 3], [len(n.waves()[name].changes) for name in ("b11.q", "b21.q", "b31.q", "met")])

    def test_a_greatest_common_divisor(self) -> None:
        numbers = random.Random(50)
        pairs = [(numbers.randint(1, 60), numbers.randint(1, 60)) for _ in range(50)]
        n = Netlist(50 * 1200)
        r, k = n.wires("r", "k")
        a, b = n.wires("a", "b", width=8)
        loop = n.gcd("g", r, k, a, b)
        n.buf("sink", loop.done, out=k, delay=15)
        for wire, place in ((a, 0), (b, 1)):
            n.stim(wire, {10 + 1200 * at: pair[place] for at, pair in enumerate(pairs)})
        n.events(r, *(20 + 1200 * at for at in range(50)))
        waves = n.waves()
        found = [waves["g_x"].level(time) for time in waves["g_done"].times]
        self.assertEqual([math.gcd(*pair) for pair in pairs], found)
        self.assertFalse(n.report())

    def test_a_fork_and_a_join_drive_wires_of_their_own(self) -> None:
        n = Netlist(40)
        r, a, ack = n.wires("r", "a", "ack")
        fork = n.fork("f", r, [a])
        join = n.join("j", [fork.q], ack)
        self.assertEqual(["r", "a", "ack", "f_q", "j_q"], list(n.known_wires))
        self.assertEqual("module f C 0 0 1 : r a > f_q/2", n.module_named("f").statement)
        self.assertEqual("module j C 0 0 1 : f_q ack > j_q/2", n.module_named(join.name).statement)

    def test_values_for_another_number_of_stages(self) -> None:
        n = Netlist(40)
        r, ack = n.wires("r", "ack")
        self.fault(ValueError, lambda: n.pipeline("s", 0, r, ack))
        self.fault(ValueError, lambda: n.pipeline("t", 3, r, ack, delay=[1, 2]))
        self.fault(ValueError, lambda: n.ring("u", 3, tokens=4))
        self.fault(ValueError, lambda: n.fork("f", r, []))
        self.fault(ValueError, lambda: n.fifo("v", 2, r, ack, n.wire("d", 8), stage=[FifoStage()]))
