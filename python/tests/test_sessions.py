"""Sessions, variants of a netlist, and what takes their edits back."""

from __future__ import annotations

import gc
import os
import random
import signal
import threading
import time
from typing import List

from nesthrim import BrokenPipe, Closed, FifoStage, Netlist, Refused, Session, UnknownName, Unread, Work
from nesthrim.lines import parts_of
from nesthrim.undo import Undo
from tests.support import Case, example
from tests.test_netlist import ALL_KINDS


def two_stages() -> Netlist:
    return Netlist.read(example("two-stage-control.net"))


def fifo(stages: int, horizon: int) -> Netlist:
    """A FIFO with logic, its source and its sink."""
    n = Netlist(horizon)
    r, k, d = n.wire("r"), n.wire("k"), n.wire("d", 8)
    made = n.fifo("f", stages, req=r, ack=k, data=d, stage=FifoStage(match=6, logic=4, add=1, setup=1))
    n.events(r, *range(10, horizon, 20))
    n.stim(d, {time: time % 256 for time in range(5, horizon, 20)})
    n.buf("sink", made[-1].r, out=k, delay=3)
    return n


class Sessions(Case):
    def test_edits_and_questions(self) -> None:
        with Session(two_stages()) as session:
            self.assertEqual(0, session.version())
            self.assertEqual(1, session.edit("delay c2 0 6"))
            self.assertEqual("q2 0 9=1 17=0", str(session.wave("q2")))
            self.assertEqual("accepted 2\n", session.ask("delay c1 0 2"))
            self.assertEqual(3, session.batch("wire q3 1 0", "module c3 C 0 0 1 : q2 ack > q3/2", "input c2 1 q3"))
            self.assertEqual("2 delay c1 0 2", str(session.edits()[1]))
            self.assertEqual((3,), tuple(edit.number for edit in session.edits(3)))
            self.assertEqual((), session.edits(4))
            self.assertIn(Work("c3", 0, 2), session.work())
            self.assertEqual(list(session.waves()), ["r", "ack", "q1", "q2", "q3"])
            self.assertEqual("", session.ask("# nothing"))

    def test_what_is_refused_is_an_exception_or_a_result(self) -> None:
        with Session(two_stages()) as session:
            fault = self.fault(Refused, lambda: session.edit("delay c2 0 0"))
            self.assertEqual((8, "BadDelay", "delay c2 0 0"), (fault.code, fault.name, fault.statement))
            fault = self.fault(Unread, lambda: session.edit("delay c2"))
            self.assertEqual((3, "WordCount"), (fault.code, fault.name))
            fault = self.fault(Refused, lambda: session.batch("delay c2 0 9", "delay c2 7 1"))
            self.assertEqual((21, "InBatch", 2), (fault.code, fault.name, fault.place))
            self.assertEqual((9, "BadPort", "delay c2 7 1"), (fault.reason.code, fault.reason.name, fault.reason.statement))
            outcome = session.attempt("remove wire r")
            self.assertFalse(outcome)
            self.assertEqual((None, 14), (outcome.number, outcome.fault.code if outcome.fault else 0))
            self.assertTrue(session.attempt("delay c2 0 6"))
            self.assertEqual(1, session.version())
            for call in (lambda: session.wave("none"), lambda: session.why("none"), lambda: session.show(wires=["r", "none"])):
                self.assertEqual(3, self.fault(UnknownName, call).code)
            self.assertEqual(4, self.fault(Unread, lambda: session.edits(7)).code)
            self.assertEqual(8, self.fault(Unread, lambda: session.ask("#" * 65_537)).code)
            self.assertEqual(1, self.fault(Unread, lambda: session.ask("waves\nwaves")).code)
            self.assertEqual(1, self.fault(Unread, lambda: session.ask("waves # µ")).code)
            self.fault(ValueError, lambda: session.attempt("waves"))
            self.fault(ValueError, lambda: session.edit(""))
            self.assertEqual(1, session.version())

    def test_an_answer_that_looks_like_an_end(self) -> None:
        """Names that are words of answers, and questions whose answers are those that end others."""
        text = "horizon 9\nwire version 8 3\nwire refused 8 3\nwire accepted 1 1\nwire unread 8 2\n"
        with Session(text) as session:
            for _ in range(2):
                self.assertEqual("version 3\nrefused 3\naccepted 1\nunread 2\n", str(session.waves()))
                self.assertEqual("version 3", str(session.wave("version")))
                self.assertEqual(0, session.version())
                self.fault(UnknownName, lambda: session.wave("none"))
                self.fault(UnknownName, lambda: session.ask("wave ."))

    def test_a_netlist_that_is_not_taken(self) -> None:
        fault = self.fault(Refused, lambda: Session("horizon 9\n\nmodule b BUF : x > -\n"))
        self.assertEqual((3, 3, "module b BUF : x > -"), (fault.code, fault.line, fault.statement))

    def test_a_session_that_is_closed(self) -> None:
        session = Session(two_stages())
        session.close()
        session.close()
        self.assertFalse(session.is_open)
        self.assertIn("open another", str(self.fault(Closed, session.waves)))

    def test_a_program_that_goes_away(self) -> None:
        session = Session(two_stages())
        os.kill(session._process.pid, 9)
        fault = self.fault(BrokenPipe, session.waves)
        self.assertEqual(-9, fault.status)
        self.assertIn("open another session", str(fault))
        self.fault(Closed, session.waves)

    def test_threads_share_a_session(self) -> None:
        with Session(two_stages()) as session:
            found: List[bool] = []

            def ask(wire: str) -> None:
                for _ in range(50):
                    found.append(session.wave(wire).name == wire)

            threads = [threading.Thread(target=ask, args=(wire,)) for wire in ("r", "ack", "q1", "q2")]
            for thread in threads:
                thread.start()
            for thread in threads:
                thread.join()
            self.assertEqual([True] * 200, found)

    def test_a_session_that_nobody_holds_ends_its_program(self) -> None:
        session = Session(two_stages())
        process = session._process
        del session
        gc.collect()
        self.assertEqual(0, process.wait(10))


    def test_a_process_that_is_forked_does_not_hold_the_session(self) -> None:
        session = Session(two_stages())
        child = os.fork()
        if child == 0:
            # (the child goes on for a while, and has the parent's session closed)
            time.sleep(20)
            os._exit(0)
        try:
            self.assertEqual(0, session.version())
            session.close()
            self.assertEqual(0, session._process.returncode)
        finally:
            os.kill(child, 9)
            os.waitpid(child, 0)

    def test_an_answer_that_is_interrupted(self) -> None:
        """What comes later isn't taken for the answer to the next line: the session is closed."""
        session = Session(two_stages())
        os.kill(session._process.pid, signal.SIGSTOP)
        self.addCleanup(signal.signal, signal.SIGALRM, signal.signal(signal.SIGALRM, signal.default_int_handler))
        signal.setitimer(signal.ITIMER_REAL, 0.1)
        self.fault(KeyboardInterrupt, session.waves)
        os.kill(session._process.pid, signal.SIGCONT)
        self.fault(Closed, session.waves)
        session.close()
        self.assertIn(session._process.returncode, (0, 3))  # (3: nobody reads what it writes)


class Variants(Case):
    def test_edits_end_with_their_block(self) -> None:
        n = two_stages()
        with n.edited("delay c2 0 6") as variant:
            self.assertEqual("q2 0 9=1 17=0", str(variant.wave("q2")))
            self.assertEqual("q2 0 5=1 12=0", str(n.wave("q2")))
            self.assertIn("delay c2 0 6", variant.edits)
        self.assertIn("taken back", str(self.fault(Closed, variant.waves)))
        with n.edited() as variant:
            self.assertEqual(n.waves(), variant.waves())
            self.assertEqual(str(n), variant.text())

    def test_two_variants_at_once_know_nothing_of_each_other(self) -> None:
        n = two_stages()
        with n.edited("delay c2 0 6") as one, n.edited("delay c1 0 4") as other:
            self.assertIn("> q2/6", one.text())
            self.assertIn("> q2/2", other.text())
            self.assertIn("> q1/4", other.text())

    def test_a_netlist_that_goes_on_has_other_variants(self) -> None:
        n = two_stages()
        with n.edited("delay c2 0 6"):
            n.buf("more", "q2", out=n.wire("late"), delay=3)
        with n.edited("delay c2 0 7") as variant:
            self.assertIn("late", variant.waves())
            self.assertIn("> q2/7", variant.text())

    def test_what_is_refused_leaves_nothing(self) -> None:
        n = two_stages()
        for edits, code in [(["delay c1 0 5", "delay c2 0 0"], 8), (["batch delay c1 0 5 ; delay c2 0 0"], 21), (["stim r 1=2"], 15)]:
            for _ in range(2):
                fault = self.fault(Refused, lambda: n.edited(*edits).__enter__())
                self.assertEqual((code, edits[-1]), (fault.code, fault.statement))
                with n.edited("delay c1 0 3"):
                    pass
                with n.edited() as variant:
                    self.assertEqual(str(n), variant.text())
        for no_edit in ("waves", "", "delay c1 0 1 ; delay c2 0 1"):
            self.fault((ValueError, Unread), lambda: n.edited("delay c1 0 9", no_edit).__enter__())
            with n.edited() as variant:
                self.assertEqual(str(n), variant.text())

    def test_a_program_that_goes_away_between_two_variants(self) -> None:
        n = two_stages()
        with n.edited("delay c1 0 5"):
            pass
        session = n._idle[0]._session
        assert session is not None
        os.kill(session._process.pid, 9)
        self.fault(BrokenPipe, lambda: n.edited("delay c1 0 6").__enter__())
        with n.edited("delay c1 0 6") as variant:
            self.assertIn("> q1/6", variant.text())
        with self.assertRaises(BrokenPipe), n.edited("delay c1 0 7") as variant:
            os.kill(variant._open()._process.pid, 9)
            variant.waves()
        with n.edited() as variant:
            self.assertEqual(str(n), variant.text())

    def test_a_question_is_no_edit(self) -> None:
        n = two_stages()
        with n.edited() as variant:
            for ask in (n.ask, n.answer, variant.ask, variant.answer):
                self.fault(ValueError, lambda: ask("delay c1 0 5"))

    def test_a_failure_within_a_block(self) -> None:
        n = two_stages()
        with self.assertRaises(ZeroDivisionError):
            with n.edited("delay c1 0 5"):
                raise ZeroDivisionError
        with n.edited() as variant:
            self.assertEqual(str(n), variant.text())

    def test_more_variants_than_a_session_has_edits(self) -> None:
        n = Netlist(5)
        n.buf("b", n.wire("a"), out=n.wire("y"))
        with n.edited("delay b 0 9"):
            pass
        session = n._idle[0]._session
        for place in range(4_200):
            with n.edited(f"delay b 0 {1 + place % 3}") as variant:
                if place % 500 == 0 or place > 4_080:
                    self.assertIn(f"> y/{1 + place % 3}\n", variant.text())
        self.assertIsNot(session, n._idle[0]._session)


class TakenBack(Case):
    """Edits that are made and taken back in one session have the answers of a session of their own."""

    EDITS = [
        "delay m1 0 {n}", "delay m5 1 {n}", "indelay m4 1 {n}", "indelay m2 0 {n}", "input m3 0 k", "input m1 0 y2", "input m12 1 d",
        "output m1 0 -", "output m6 0 y1", "output m1 0 y4", "stim a 3=1 {t}=0", "stim k 4=1", "stim b 7=0", "clear a", "clear b", "stim a",
        "remove module m{n}", "wire w{n} 1 0", "module z{n} BUF : a > -", "remove bundle p", "bundle q a k d 1", "delay m1 0 0", "flip",
    ]  # fmt: skip

    def test_random_variants(self) -> None:
        n = Netlist.read(ALL_KINDS)
        numbers = random.Random(7)
        for _ in range(60):
            edits = [self.line(numbers) for _ in range(numbers.randint(1, 4))]
            wanted = self.alone(edits)
            try:
                with n.edited(*edits) as variant:
                    found = variant.text() + str(variant.waves()) + variant.dump()
            except (Refused, Unread) as fault:
                found = str(fault)
            self.assertEqual(wanted, found, edits)

    def line(self, numbers: random.Random) -> str:
        lines = [numbers.choice(self.EDITS).format(n=numbers.randint(1, 13), t=numbers.randint(4, 60)) for _ in range(numbers.choice([1, 1, 3]))]
        return lines[0] if len(lines) == 1 else "batch " + " ; ".join(lines)

    def alone(self, edits: List[str]) -> str:
        """What a session answers that begins with these edits."""
        with Session(ALL_KINDS) as session:
            for edit in edits:
                outcome = session.attempt(edit)
                if outcome.fault is not None:
                    return str(outcome.fault)
            return session.text() + str(session.waves()) + session.dump()

    def test_each_edit_of_settings_is_taken_back_by_edits(self) -> None:
        n = Netlist.read(ALL_KINDS)
        undo = Undo(n)
        for line in ["delay m1 0 5 # slower", "batch  delay m1 0 6 ;  indelay m4 01 2", "stim b 7=0", "clear a", "output m1 0 -", "input m3 0 k"]:
            undo.accepted(line)
        wanted = ["input m3 0 a", "output m1 0 y1", "stim a 2=1 9=0 12=1", "stim b", "indelay m4 1 4", "delay m1 0 5", "delay m1 0 2"]
        self.assertEqual(wanted, undo.edits)
        undo.accepted("wire w 1 0")
        self.assertIsNone(undo.edits)
        undo.accepted("delay none 0 3")
        self.assertIsNone(undo.edits)
        self.assertEqual(["delay a 0 1", "clear b"], parts_of("batch delay  a 0 1 ; clear b # now"))
