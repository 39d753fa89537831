"""Answers as objects, compared with what the program writes."""

from __future__ import annotations

import os
import tempfile
import unittest
import xml.etree.ElementTree
from fractions import Fraction
from typing import Any, Callable, List, Tuple

from nesthrim import END, AnswerError, BundleMeasure, Event, Finding, Netlist, PathPart, ProgramFailed, Session, Step, Unread, Wait, WireMeasure
from nesthrim.answers.causes import read_path, read_waits, read_why
from nesthrim.answers.measure import read_measure
from nesthrim.answers.report import BusyNote, Check, Deadlock, Late, Note, Report, read_check, read_report
from nesthrim.answers.steady import Cycle
from nesthrim.answers.waves import read_waves
from nesthrim.answers.work import read_edits, read_version, read_work
from tests.support import TOP, Case, example, examples, needs, raw
from tests.test_netlist import ALL_KINDS


# a FIFO that the slow side sets the pace of: 5 units in c2 and 4 in sink for each event
FIFO = """horizon 200
wire r 1 0
wire q1 1 0
wire q2 1 0
wire ack 1 0
module src NOT : q1 > r/2
module c1 C 0 0 1 : r q2 > q1/2
module c2 C 0 0 1 : q1 ack > q2/5
module sink BUF : q2 > ack/4
"""


def lines(answers: object) -> str:
    return "".join(f"{answer}\n" for answer in answers)  # type: ignore[attr-defined]


class WhatIsWritten(Case):
    """Each answer, as a text again, is what the program writes: so nothing of it is lost."""

    def test_answers_of_commands(self) -> None:
        for text in [ALL_KINDS, *map(example, examples())]:
            n = Netlist.read(text)
            self.assertEqual(raw(text, "waves"), str(n.waves()))
            self.assertEqual(raw(text, "waves"), lines(n.waves().values()))
            self.assertEqual(raw(text, "report"), str(n.report()))
            self.assertEqual(raw(text, "measure"), str(n.measure()))
            self.assertEqual(raw(text, "measure", "--from", "5", "--to", "30"), str(n.measure(5, 30)))
            self.assertEqual(raw(text, "graph"), n.graph())
            self.assertEqual(raw(text, "show"), n.show())
            self.assertEqual(raw(text, "show", "--svg"), str(n.svg()))
            for time in (0, 12, n.horizon - 1):
                self.assertEqual(raw(text, "waits", str(time)), lines(n.waits(time)))
            for wire in list(n.known_wires)[-3:]:
                self.assertEqual(raw(text, "why", wire, "1000"), lines(n.why(wire)))
                self.assertEqual(raw(text, "why", wire, "30", "--steps", "2"), lines(n.why(wire, 30, steps=2)))
                self.assertEqual(raw(text, "path", wire, "40"), lines(n.path(wire, 40)))

    def test_answers_of_a_session(self) -> None:
        for name in ("register-pipeline.net", "late-data.net"):
            n = Netlist.read(example(name))
            with Session(n) as session:
                wire = list(n.known_wires)[0]
                for question in ("waves", "report", "measure 0 30", "measure 20 10", "waits 20", f"why {wire} 30 3", f"path {wire} 30"):
                    self.assertEqual(session.ask(question), n.ask(question))
                    self.assertEqual(type(n.answer(question)), type(session.answer(question)))
                self.assertEqual(str(n), session.text())
                self.assertEqual(n.show(5, 20, [wire]), session.show(5, 20, [wire]))
                for columns, ascii, hex in ((4, False, False), (72, True, False), (72, False, True), (7, True, True)):
                    self.assertEqual(n.show(5, 30, (), columns, ascii, hex), session.show(5, 30, (), columns, ascii, hex))
                self.assertEqual(n.svg(5, 20, [wire], columns=10), session.svg(5, 20, [wire], columns=10))
                self.assertEqual(str(n), str(session.netlist()))
                session.edit("wire more 3 1")
                self.assertEqual("more 1", str(session.wave("more")))
                self.assertIn("more", session.svg().text)


class WhatIsRead(Case):
    def test_waves(self) -> None:
        waves = Netlist.read(example("register-pipeline.net")).waves()
        wave = waves["d0"]
        self.assertEqual(("d0", 5, ((9, 7), (29, 9)), (9, 29)), (wave.name, wave.initial, wave.changes, wave.times))
        self.assertEqual([5, 5, 7, 7, 9, 9], [wave.level(time) for time in (0, 8, 9, 28, 29, 1000)])
        self.fault(ValueError, lambda: wave.level(-1))
        self.assertEqual(["r", "q1", "q2", "ack", "d0", "x1", "d1", "x2"], list(waves))
        self.assertEqual(waves, Netlist.read(example("register-pipeline.net")).waves())

    def test_report(self) -> None:
        report = Netlist.read(example("late-data.net")).report()
        self.assertEqual([Finding(9, "bundle", "transfer", "setup"), Finding(12, "bundle", "transfer", "data-while-busy")], list(report))
        self.assertEqual((2, "setup"), (len(report), report[0].code))
        self.assertFalse(Netlist.read(example("ring.net")).report())

    def test_measures(self) -> None:
        n = Netlist.read(example("slow-stage-of-six.net"))
        self.assertEqual(WireMeasure("q3", 7, 111, 189, 13, 13), n.measure(100).wire("q3"))
        self.assertEqual(13, n.measure(100).wire("q3").period)
        margins = Netlist.read(example("bundle-margin.play").split("---")[0]).measure()
        self.assertEqual(BundleMeasure("transfer", 3, 1, 8, 8), margins.bundle("transfer"))
        self.assertEqual(WireMeasure("w", 3, 4, 9, 2, 3), read_measure("wire w 3 4 9 2 3\n", "measure").wires["w"])
        self.assertEqual(2.5, read_measure("wire w 3 4 9 2 3\n", "measure").wires["w"].period)
        for few in ("wire w 0\n", "wire w 1 4 4\n"):
            self.assertIsNone(read_measure(few, "measure").wires["w"].period)

    def test_causes(self) -> None:
        n = Netlist.read(example("slow-stage.net"))
        why = n.why("q1", 110, 3)
        self.assertEqual(Step("q1", 105, 1, "events", "c1", "C", 2, (Event("q2", 103, 0),)), why[0])
        self.assertEqual((Event("q2", 89, 1), Event("q4", 89, 0)), why[2].events)
        self.assertEqual(Step("r", 1, 1, "start", "source", "NOT", 1), n.why("q1", steps=1000)[-1])
        self.assertEqual([PathPart("c3", 96, 8), PathPart("c2", 18, 9), PathPart("c1", 4, 2), PathPart("source", 1, 1)], list(n.path("q1", 119)))
        self.assertEqual("stim", Netlist.read(example("two-stage-control.net")).why("r")[0].cause)
        self.assertEqual((Step("q3", 0, 0, "declared"),), Netlist.read(example("stopped-pipeline.net")).why("q3"))
        late = [event for step in Netlist.read(example("wire-delays.net")).why("q1", steps=50) for event in step.events if event.delay]
        self.assertTrue(late)

    def test_waits(self) -> None:
        self.assertEqual((Wait("c1", "C", "waits for", "r", None, 12),), Netlist.read(example("two-stage-control.net")).waits())
        self.assertEqual(Wait("g", "REG", "holds", None, 7, 4), read_waits("g REG holds 7 since 4\n", "waits")[0])
        self.assertEqual(Wait("m", "ARBITER", "keeps", "r2", None, 5), read_waits("m ARBITER keeps r2 since 5\n", "waits")[0])

    def test_pictures_and_files(self) -> None:
        n = Netlist.read(example("late-data.net"))
        with open(os.path.join(TOP, "docs", "late-data.svg"), encoding="utf-8") as file:
            self.assertEqual(file.read(), n.svg()._repr_svg_())
        self.assertEqual("10", xml.etree.ElementTree.fromstring(n.svg(columns=10, wires=["r"]).text).get("data-columns"))
        self.assertIn("_", n.show(ascii=True, columns=20, wires=["r", "data"]))
        self.assertIn("0x8", n.show(hex=True, wires=["data"]))
        with tempfile.TemporaryDirectory() as folder:
            path = os.path.join(folder, "it")
            writers: List[Tuple[Callable[[str], Any], str]] = [(n.dump, raw(str(n), "dump")), (n.svg().save, str(n.svg()))]
            for write, text in writers:
                write(path)
                with open(path, encoding="utf-8", newline="") as file:
                    self.assertEqual(text, file.read())

    def test_numbers_that_are_out_of_range(self) -> None:
        n = Netlist.read(example("ring.net"))
        for ask in (lambda: n.measure(-1), lambda: n.waits(-1), lambda: n.ask("measure 0 x"), lambda: n.ask("why q1 x")):
            self.assertEqual(4, self.fault(Unread, ask).code)
        for question in ("measure 0", "show 0 9 --hex --hex", "show 0 9 --hex q1"):
            self.assertEqual(3, self.fault(Unread, lambda: n.ask(question)).code)
        for count in (lambda: n.why("q1", steps=0), lambda: n.show(columns=0), lambda: n.svg(columns=10_001)):
            self.assertIn("out of its range", str(self.fault(ProgramFailed, count)))
        with Session(n) as session:
            for columns in (0, 10_001):
                self.assertEqual(4, self.fault(Unread, lambda: session.show(columns=columns)).code)

    def test_times_behind_the_horizon(self) -> None:
        n = Netlist.read(example("ring.net"))
        self.assertEqual(n.measure(0, n.horizon).wires, n.measure(0, END).wires)
        self.assertEqual(n.waits(n.horizon - 1), n.waits(END))


class WhatIsNotUnderstood(Case):
    def test_a_line_that_is_strange_is_told(self) -> None:
        readers: List[Tuple[Callable[[str, str], Any], str, str]] = [
            (read_waves, "q 0 3=1\nq2 0 5\n", "q2 0 5"),
            (read_report, "9 bundle b setup\n9 netlist b setup\n", "9 netlist b setup"),
            (read_check, "9 bundle b\n", "9 bundle b"),
            (read_check, "0 deadlock a waits for b, c waits\n", "0 deadlock a waits for b, c waits"),
            (read_measure, "wire q 3 4\n", "wire q 3 4"),
            (read_measure, "wire q 0\nport q 4\n", "port q 4"),
            (read_why, "q 3=1\n", "q 3=1"),
            (read_why, "q 3=1 < c C/2 < q2 1=1 r\n", "q 3=1 < c C/2 < q2 1=1 r"),
            (read_path, "c 4\n", "c 4"),
            (read_waits, "c C waits for 7 since 4\n", "c C waits for 7 since 4"),
            (read_work, "c 4\n", "c 4"),
            (read_edits, "delay\n", "delay"),
            (read_version, "4\n", "4\n"),
        ]
        for read, text, line in readers:
            with self.subTest(text):
                fault = self.fault(AnswerError, lambda: read(text, "what was asked"))
                self.assertEqual(line, fault.line)
                self.assertIn("MPWB", str(fault))
        self.fault(AnswerError, lambda: read_waves("q 0 5=1 5=0\n", "waves")["q"])
        self.fault(AnswerError, lambda: Netlist.written("flip\n"))
        self.fault(AnswerError, lambda: Netlist.written("horizon 5\nmodule b BUF a > y\n"))


LATE = """horizon 100
wire c 1 0
wire q 8 0
wire d 8 0
wire r 1 0
wire k 1 0
module logic ADDC 0 : q > d/12
module match BUF : c > r/8
module recv BUF : r > k/3
bundle b r k d 2
stim c 10=1 50=0
stim q 10=7 50=8
"""


class Checks(Case):
    def test_lines_of_each_sort_are_read(self) -> None:
        text = (
            "9 bundle b setup\n22 bundle b late 4\n0 deadlock c3 waits for q4, c4 waits for q3\n"
            "note wire r is declared 0 and becomes 1 at 1\nnote wire x is unused\n"
        )
        check = read_check(text, "check")
        notes = (Note("r", "is declared 0 and becomes 1 at 1"), Note("x", "is unused"))
        wanted = Check(Report([Finding(9, "bundle", "b", "setup")]), (Late(22, "b", 4),), (Deadlock(0, (("c3", "q4"), ("c4", "q3"))),), notes)
        self.assertEqual(wanted, check)
        self.assertEqual(text, str(check))
        self.assertFalse(check.ok)
        self.assertTrue(read_check("note wire x is unused\n", "check").ok)
        busy = read_check("note bundle t is busy since 30\n", "check")
        self.assertEqual((BusyNote("t", 30),), busy.notes)
        self.assertEqual("note bundle t is busy since 30\n", str(busy))
        with self.assertRaises(AnswerError):
            read_check("note bundle t is idle\n", "check")
        self.assertEqual(4, read_measure("bundle b 2 setup 1 response 3 3 late 4\n", "measure").bundles["b"].late)
        self.assertEqual("bundle b 2 late 4", str(read_measure("bundle b 2 late 4\n", "measure").bundles["b"]))

    def test_the_program_checks(self) -> None:
        check = Netlist.read(LATE).check()
        self.assertEqual((Late(22, "b", 4), Late(62, "b", 4)), check.late)
        self.assertFalse(check.ok)
        stopped = Netlist.read(example("stopped-pipeline.net")).check()
        self.assertEqual((Deadlock(0, (("c3", "q4"), ("c4", "q3"))),), stopped.deadlocks)
        self.assertEqual((Note("r", "is declared 0 and becomes 1 at 1"),), stopped.notes)
        self.assertTrue(Netlist.read(example("oscillator.net")).check().ok)
        self.assertEqual(2, len(Netlist.read(example("late-data.net")).check().findings))

    def test_the_program_measures_how_late_data_are(self) -> None:
        self.assertEqual(4, Netlist.read(LATE).measure().bundle("b").late)
        self.assertIsNone(Netlist.read(LATE.replace("d/12", "d/4")).measure().bundle("b").late)

    def test_what_the_program_checks_is_read_whole(self) -> None:
        for text in [LATE, ALL_KINDS, *map(example, examples())]:
            self.assertEqual(raw(text, "check"), str(Netlist.read(text).check()))

    def test_the_program_checks_in_a_session(self) -> None:
        for text in [LATE, ALL_KINDS, *map(example, examples())]:
            n = Netlist.read(text)
            with Session(n) as session:
                self.assertEqual(n.check(), session.check())
            with n.edited() as variant:
                self.assertEqual(n.check(), variant.check())

    @needs("check", "word")
    def test_a_fault_tells_the_word(self) -> None:
        n = Netlist(30)
        n.wire("request")
        n.buf("b", "reqest", out=n.wire("y"))
        for call in (n.waves, lambda: Session(n), n.check):
            fault = self.fault(Exception, call)
            self.assertEqual((3, "NoSuchWire", 4, "reqest"), (fault.code, fault.name, fault.line, fault.word))
            self.assertIn("request", fault.meaning)

    @needs("steady")
    def test_a_pace_is_exact(self) -> None:
        steady = Netlist.read(FIFO).steady()
        self.assertTrue(steady.repeats)
        self.assertEqual((False, 18, 6, None), (steady.control, steady.period, steady.start, steady.reason))
        self.assertEqual({"r": 2, "q1": 2, "q2": 2, "ack": 2}, steady.events)
        self.assertEqual(Fraction(1, 9), steady.pace("q1"))
        self.assertEqual(Cycle(18, "q2", 189, (PathPart("c2", 10, 2), PathPart("sink", 8, 2))), steady.cycle)

    @needs("steady")
    def test_what_doesnt_repeat_says_why(self) -> None:
        over = Netlist.read(FIFO.replace("module src NOT : q1 > r/2\n", "stim r 3=1\n")).steady()
        self.assertEqual((False, None, None, "nothing changes after 14"), (over.repeats, over.period, over.pace("q1"), over.reason))
        short = Netlist.read(FIFO.replace("horizon 200", "horizon 20")).steady()
        self.assertEqual((False, None, None), (short.repeats, short.cycle, short.events))
        self.assertEqual("doesn't repeat before 20: no period of up to 14", short.reason)

    @needs("steady")
    def test_a_session_tells_its_pace(self) -> None:
        n = Netlist.read(FIFO)
        with Session(n) as session:
            self.assertEqual(n.steady(), session.steady())
            session.edit("delay c2 0 2")
            self.assertEqual(Fraction(1, 6), session.steady().pace("q1"))

    @needs("steady")
    def test_what_the_program_says_of_periods_is_read_whole(self) -> None:
        for text in [FIFO, LATE, ALL_KINDS, *map(example, examples())]:
            self.assertEqual(raw(text, "steady"), str(Netlist.read(text).steady()))

    def test_the_program_writes_verilog(self) -> None:
        n = Netlist.read(example("register-pipeline.net"))
        text = n.verilog()
        self.assertEqual(raw(str(n), "verilog"), text)
        self.assertIn("endmodule", text)

    def test_the_program_writes_verilog_in_a_session(self) -> None:
        n = Netlist.read(example("register-pipeline.net"))
        with Session(n) as session:
            self.assertEqual(n.verilog(), session.verilog())


if __name__ == "__main__":
    unittest.main()
