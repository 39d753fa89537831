"""How long changes of one wire take to be answered by changes of another one."""

from __future__ import annotations

from typing import List, Tuple

from nesthrim import Latency, Netlist, Session, UnknownName
from nesthrim.answers.latency import latency_between
from nesthrim.answers.waves import Wave
from nesthrim.questions import END
from tests.support import Case


def wave(name: str, *times: int) -> Wave:
    return Wave(name, 0, tuple((time, place % 2) for place, time in enumerate(times, 1)))


def pairs(first: Tuple[int, ...], second: Tuple[int, ...], start: int = 0, end: int = END) -> Tuple[List[Tuple[int, int]], List[int]]:
    found = latency_between(wave("a", *first), wave("b", *second), start, end)
    return list(found.pairs), list(found.unanswered)


# a pipeline of three stages with three requests, as `python/README.md` has it: r at 1, 4, 12, and s3_q at 7, 15, 23
PIPELINE = """horizon 50
wire r 1 0
wire ack 1 0
wire s1_q 1 0
wire s2_q 1 0
wire s3_q 1 0
module s1 C 0 0 1 : r s2_q > s1_q/2
module s2 C 0 0 1 : s1_q s3_q > s2_q/2
module s3 C 0 0 1 : s2_q ack > s3_q/2
module sink BUF : s3_q > ack/6
stim r 1=1 4=0 12=1
"""

# r1 is granted at once at 10 and 60, and waits at 100 for the other one, who is granted at 93 and done at 113: d2 at 113, g1 3 units later
ARBITER = """horizon 200
wire r1 1 0
wire r2 1 0
wire d1 1 0
wire d2 1 0
wire g1 1 0
wire g2 1 0
module turn ARBITER : r1 r2 d1 d2 > g1/3 g2/3
module use1 BUF : g1 > d1/20
module use2 BUF : g2 > d2/20
stim r1 10=1 60=0 100=1 199=0
stim r2 90=1
"""


class Pairs(Case):
    def test_a_change_is_answered_by_the_next_one_in_order(self) -> None:
        self.assertEqual(([(1, 7), (4, 15), (12, 23)], []), pairs((1, 4, 12), (7, 15, 23)))
        self.assertEqual(([(1, 3), (4, 6)], []), pairs((1, 4), (3, 6)))

    def test_an_answer_comes_later_than_its_change(self) -> None:
        self.assertEqual(([(5, 6)], []), pairs((5,), (5, 6)))
        self.assertEqual(([(5, 7)], [9]), pairs((5, 9), (1, 5, 7, 9)))

    def test_what_answers_nothing_is_passed_over(self) -> None:
        self.assertEqual(([(5, 8), (20, 25)], []), pairs((5, 20), (1, 3, 8, 9, 12, 25, 30)))

    def test_what_is_not_answered(self) -> None:
        self.assertEqual(([(1, 9)], [2, 3]), pairs((1, 2, 3), (9,)))
        self.assertEqual(([], [1]), pairs((1,), ()))
        self.assertEqual(([], []), pairs((), (4,)))

    def test_a_range_is_one_of_changes_that_are_answered(self) -> None:
        first, second = (1, 4, 12, 20, 30), (7, 15, 23, 40)
        self.assertEqual(([(4, 15), (12, 23)], []), pairs(first, second, 4, 20))
        self.assertEqual(([(20, 40)], [30]), pairs(first, second, 13))
        self.assertEqual(([], [30]), pairs(first, second, 25))
        self.assertEqual(([], []), pairs(first, second, 5, 12))
        self.assertEqual(([], []), pairs(first, second, 12, 5))

    def test_figures(self) -> None:
        found = Latency("a", "b", ((1, 7), (4, 15)), (20,))
        self.assertEqual(((6, 11), 6, 11, 8.5), (found.units, found.least, found.most, found.mean))
        wanted = [{"time": 1, "answer": 7, "units": 6}, {"time": 4, "answer": 15, "units": 11}, {"time": 20, "answer": None, "units": None}]
        self.assertEqual(wanted, found.rows())
        nothing = Latency("a", "b", (), (3,))
        self.assertEqual(((), None, None, None), (nothing.units, nothing.least, nothing.most, nothing.mean))


class Programs(Case):
    def test_events_that_are_under_way_at_once(self) -> None:
        n = Netlist.read(PIPELINE)
        found = n.latency("r", "s3.q")
        self.assertEqual(Latency("r", "s3_q", ((1, 7), (4, 15), (12, 23)), ()), found)
        self.assertEqual((6, 11), (found.least, found.most))
        self.assertEqual((11,), n.latency(n["r"], n["s3_q"], 4, 5).units)

    def test_grants(self) -> None:
        n = Netlist.read(ARBITER)
        found = n.latency("r1", "g1")
        self.assertEqual(((3, 3, 16), (199,)), (found.units, found.unanswered))
        self.assertEqual((3,), n.latency("r2", "g2").units)
        with Session(n) as session:
            self.assertEqual(found, session.latency("r1", "g1"))
            session.edit("delay use2 0 40")
            self.assertEqual(36, session.latency("r1", "g1").most)
            with n.edited("delay turn 0 5") as variant:
                self.assertEqual(5, variant.latency("r1", "g1").least)
            self.assertEqual(3, self.fault(UnknownName, lambda: session.latency("r1", "g3")).code)
        for names in (("r1", "g11"), ("r11", "g1")):
            self.assertEqual(3, self.fault(UnknownName, lambda: n.latency(*names)).code)
