"""Sweeps: one question to many variants, in one session and by executors."""

from __future__ import annotations

import operator
import os
from concurrent.futures import Future, ProcessPoolExecutor, ThreadPoolExecutor
from concurrent.futures.process import BrokenProcessPool
from typing import Any, Callable, List, Union

from nesthrim import Measure, Netlist, Refused, Session, Unread, Variant, Wave, sweep
from tests.support import Case
from tests.test_sessions import fifo

EDITS = [f"delay f2_match 0 {delay}" for delay in range(1, 41)]


def setup_of(variant: Variant) -> object:
    """What a worker asks of a variant."""
    return variant.measure().bundle("f2").setup, str(variant.wave("f3.d"))


def processor_seconds() -> float:
    """What this process and those that it has waited for took so far."""
    taken = os.times()
    return taken.user + taken.system + taken.children_user + taken.children_system


def divide_by_zero(variant: Variant) -> object:
    return len(variant.edits) / 0


def end_worker(variant: Variant) -> None:
    """What ends a worker in the midst of its work."""
    if variant.edits[0].endswith(" 20"):
        os._exit(1)


class Losing(ThreadPoolExecutor):
    """An executor that loses what was submitted, as often as is said, and then no more."""

    def __init__(self, count: int) -> None:
        super().__init__(2)
        self.left = count

    def submit(self, call: Callable[..., Any], /, *words: Any, **named: Any) -> "Future[Any]":
        task = super().submit(call, *words, **named)
        if self.left:
            self.left -= 1
            lost: "Future[Any]" = Future()
            lost.set_exception(OSError("lost"))
            return lost
        return task


class Sweeps(Case):
    def test_answers_are_those_of_each_netlist_alone(self) -> None:
        n = fifo(3, 120)
        for question in ("report", "wave f3_r", "measure 0 100", "text"):
            answers = sweep(n, EDITS[:6], question)
            for delay, answer in enumerate(answers, 1):
                alone = Netlist.read(str(n).replace("> f2_r/6", f"> f2_r/{delay}"))
                self.assertEqual(str(alone.answer(question)), str(answer))

    def test_answers_are_objects_or_what_a_function_gives(self) -> None:
        n = fifo(3, 120)
        self.assertIsInstance(sweep(n, EDITS[:1], "wave f3_r")[0], Wave)
        self.assertIsInstance(sweep(n, EDITS[:1], "measure 0 9")[0], Measure)
        for delay, setup in enumerate(sweep(n, EDITS[:4], lambda variant: variant.measure().bundle("f2").setup), 1):
            alone = Netlist.read(str(n).replace("> f2_r/6", f"> f2_r/{delay}"))
            self.assertEqual(alone.measure().bundle("f2").setup, setup)
        self.assertEqual([], sweep(n, [], "report"))
        self.fault(TypeError, lambda: sweep(n, EDITS[0], "report"))
        self.fault(ValueError, lambda: sweep(n, EDITS, "report", ThreadPoolExecutor(1), chunk=0))

    def test_a_variant_has_as_many_edits_as_one_likes(self) -> None:
        n = fifo(3, 120)
        lists: List[Union[str, List[str]]] = [["delay f1 0 4", "batch delay f2 0 3 ; delay f3 0 3"], [], ["wire more 1 0"], "delay f1 0 4"]
        first, none, more, one = sweep(n, lists, "text")
        self.assertEqual(str(n), none)
        self.assertIn("wire more 1 0", more)
        self.assertEqual((str(n).replace("> f1_cap/2", "> f1_cap/4"), 3), (one, first.count("_cap/3") + first.count("_cap/4")))

    def test_any_executor_gives_the_answers_of_one_session(self) -> None:
        n = fifo(3, 200)
        wanted = sweep(n, EDITS, setup_of)
        with n.edited("delay f1 0 9"):  # (a session that is open is none of a worker's)
            with ProcessPoolExecutor(2) as processes, ThreadPoolExecutor(3) as threads:
                for executor in (processes, threads):
                    for chunk in (None, 1, 7, 1000):
                        self.assertEqual(wanted, sweep(n, EDITS, setup_of, executor, chunk=chunk))
                answers = sweep(n, EDITS[:5], operator.methodcaller("report"), processes)
                self.assertEqual(sweep(n, EDITS[:5], "report"), answers)
                self.assertEqual([], sweep(n, [], "report", processes))

    def test_a_variant_that_is_refused(self) -> None:
        n = fifo(3, 120)
        edits = ["delay f1 0 3", "delay f1 0 0", "flip", "delay f1 0 4"]
        with ThreadPoolExecutor(2) as threads:
            for executor in (None, threads):
                fault = self.fault(Refused, lambda: sweep(n, edits, "wave f1_q", executor))
                self.assertEqual((8, "delay f1 0 0"), (fault.code, fault.statement))
                first, refused, unread, last = sweep(n, edits, "wave f1_r", executor, keep_faults=True)
                self.assertEqual((8, 2), (refused.code, unread.code))
                self.assertIsInstance(refused, Refused)
                self.assertIsInstance(unread, Unread)
                self.assertNotEqual(first, last)

    def test_a_fault_comes_back_from_another_process(self) -> None:
        n = fifo(3, 120)
        with ProcessPoolExecutor(1) as processes:
            fault = self.fault(Refused, lambda: sweep(n, ["batch delay f1 0 3 ; delay f9 0 1"], "report", processes))
            self.assertEqual((21, 2, 4), (fault.code, fault.place, fault.reason.code))
            n.buf("wrong", "nothing")
            fault = self.fault(Refused, lambda: sweep(n, EDITS, "report", processes, keep_faults=True))
            self.assertEqual((3, __file__), (fault.code, fault.made_at[0]))

    def test_a_worker_that_ends(self) -> None:
        n = fifo(3, 120)
        with ProcessPoolExecutor(2) as processes:
            self.fault(BrokenProcessPool, lambda: sweep(n, EDITS, end_worker, processes, chunk=5))
        with ProcessPoolExecutor(2) as processes:
            self.assertEqual(len(EDITS), len(sweep(n, EDITS, "report", processes)))

    def test_what_an_executor_loses_is_asked_again(self) -> None:
        n = fifo(3, 120)
        wanted = sweep(n, EDITS, "wave f3_r")
        for count in (1, 3, 8):
            with Losing(count) as executor:
                self.assertEqual(wanted, sweep(n, EDITS, "wave f3_r", executor, chunk=5))
        with Losing(1000) as executor:
            self.assertEqual("lost", str(self.fault(OSError, lambda: sweep(n, EDITS, "report", executor))))

    def test_what_a_question_raises_tells_where(self) -> None:
        n = fifo(3, 120)
        with ProcessPoolExecutor(1) as processes:
            fault = self.fault(ZeroDivisionError, lambda: sweep(n, EDITS, divide_by_zero, processes))
        self.assertIn("divide_by_zero", str(fault.__cause__))

    def test_two_hundred_delays_take_less_than_a_second(self) -> None:
        n = fifo(64, 500)
        edits = [f"delay f7_match 0 {delay}" for delay in range(1, 201)]
        taken: List[float] = []
        while len(taken) < 3 and (not taken or taken[-1] >= 1.0):  # (another program on the machine slows some runs down)
            begin = processor_seconds()
            answers = sweep(n, edits, lambda variant: variant.measure().bundle("f7").setup)
            taken.append(processor_seconds() - begin)
        self.assertLess(min(taken), 1.0)
        with Session(n) as session:
            session.edit(edits[199])
            self.assertEqual((200, session.measure().bundle("f7").setup), (len(answers), answers[199]))
