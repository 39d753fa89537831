"""Netlists that a program makes, and their texts."""

from __future__ import annotations

import inspect
import os
import pickle
import tempfile
from typing import Any, Callable, List, Tuple

from nesthrim import Bundle, Module, Netlist, Refused, Session, UnknownName, Unread, Wire
from tests.support import EXAMPLES, Case, example, examples, raw

# a module of each kind, inputs with delays, outputs without wires, an empty stimulus
ALL_KINDS = """horizon 90
wire a 1 0
wire b 1 1
wire k 1 0
wire d 8 5
wire e 8 0
wire y1 1 0
wire y2 1 0
wire y3 1 0
wire y4 1 0
wire y5 1 0
wire y6 1 0
wire y7 8 0
wire y8 8 0
wire y9 8 0
wire y10 1 0
wire y11 8 0
module m1 BUF : a > y1/2
module m2 NOT : a/3 > y2/1
module m3 XOR : a b > y3/1
module m4 C 1 0 1 : a b/4 > y4/2
module m5 TOGGLE : a > y5/3 -/3
module m6 SELECT : a k > -/1 y6/1
module m7 CALL : a b k > -/1 -/1 -/1
module m8 ARBITER : a b k y1 > -/1 -/1
module m9 REG 7 : d a b > y7/1 -/1 -/1
module m10 ADDC 3 : d > y8/2
module m11 XORC 255 : d > y9/2
module m12 SUM : d e > y11/6
module m13 BIT 2 : d > y10/1
stim a 2=1 9=0 12=1
stim b
stim d 5=255
bundle p a k d 4
"""


# the kinds that need a form of text
COMPUTING = """format 4
horizon 20
wire a 8 200
wire b 8 7
wire s 1 0
wire y1 8 0
wire y2 8 207
wire y3 8 193
wire y4 1 0
wire y5 8 200
wire y6 9 400
module m1 AND : a b > y1/1
module m2 OR : a b/3 > y2/2
module m3 SUB : a b > y3/1
module m4 LESS : a b > y4/1
module m5 MUX : a b s/2 > y5/3
module m6 JOIN : a s > y6/1
stim a 4=9
stim s 6=1
"""


def computing() -> Netlist:
    n = Netlist(20)
    a, b, s = n.wire("a", 8, 200), n.wire("b", 8, 7), n.wire("s")
    n.wire("y1", 8)
    n.wire("y2", 8, 207)
    n.wire("y3", 8, 193)
    n.wire("y4")
    n.wire("y5", 8, 200)
    n.wire("y6", 9, 400)
    n.and_("m1", a, b, out="y1")
    n.or_("m2", a, b / 3, out="y2", delay=2)
    n.sub("m3", a, b, out="y3")
    n.less("m4", a, b, out="y4")
    n.mux("m5", a, b, s / 2, out="y5", delay=3)
    n.join_("m6", a, s, out="y6")
    n.stim(a, {4: 9})
    n.stim(s, {6: 1})
    return n


def all_kinds() -> Netlist:
    n = Netlist(90)
    a, b, k = n.wire("a"), n.wire("b", 1, 1), n.wire("k")
    d, e = n.wire("d", 8, 5), n.wire("e", 8)
    n.wires(*(f"y{number}" for number in range(1, 7)))
    n.wires("y7", "y8", "y9", width=8)
    n.wire("y10")
    n.wire("y11", 8)
    n.buf("m1", a, out="y1", delay=2)
    n.not_("m2", a / 3, out="y2")
    n.xor("m3", a, b, out="y3")
    n.c("m4", a, ~b / 4, out="y4", delay=2, init=1)
    n.toggle("m5", a, dot="y5", delay=3)
    n.select("m6", a, k, false="y6")
    n.call("m7", a, b, k)
    n.arbiter("m8", a, b, k, "y1")
    n.reg("m9", d, a, b, q="y7", init=7)
    n.addc("m10", d, 3, out="y8", delay=2)
    n.xorc("m11", d, 255, out=n["y9"] / 2)
    n.sum("m12", d, e, out="y11", delay=6)
    n.bit("m13", d, 2, out="y10")
    n.stim(d, {5: 255})
    n.stim(b, [])
    n.events(a, 2, 9, 12)
    n.bundle("p", a, k, d, 4)
    return n


class Texts(Case):
    def test_each_kind_is_written_as_by_hand(self) -> None:
        self.assertEqual(ALL_KINDS, str(all_kinds()))
        self.assertEqual(ALL_KINDS, all_kinds().text())

    def test_kinds_that_need_a_form_are_written_in_it(self) -> None:
        self.assertEqual(COMPUTING, str(computing()))
        self.assertEqual(COMPUTING, str(Netlist.read(COMPUTING)))
        self.assertEqual(((5, 18), (7, 19)), computing().waves()["y6"].changes)
        self.assertEqual(((11, 7),), tuple(computing().waves()["y5"].changes)[-1:])

    def test_a_form_that_was_asked_for_is_that_of_the_text_until_a_kind_needs_another(self) -> None:
        for form, first in ((1, ""), (2, "format 2\n")):
            n = Netlist(20, form=form)
            a, y = n.wire("a"), n.wire("y")
            plain = str(n)
            self.assertEqual(f"{first}horizon 20\nwire a 1 0\nwire y 1 0\n", plain)
            n.and_("m", a, a, out=y)
            self.assertEqual("format 4\nhorizon 20\nwire a 1 0\nwire y 1 0\nmodule m AND : a a > y/1\n", str(n))
            self.assertEqual(str(n), str(Netlist.read(str(n))))
            self.assertEqual(str(n), str(n.copy()))
            n.remove(n.module("m"))
            self.assertEqual(plain, str(n))

    def test_a_kind_that_a_session_adds_is_written_in_its_form(self) -> None:
        n = Netlist(20)
        n.wires("a", "y")
        with Session(n) as session:
            session.edit("module m AND : a a > y/1")
            self.assertTrue(session.text().startswith("format 4\nhorizon 20\n"))
            self.assertEqual(session.text(), str(session.netlist()))

    def test_what_is_read_is_written_as_the_program_writes_it(self) -> None:
        for name in examples():
            with self.subTest(name):
                n = Netlist.load(os.path.join(EXAMPLES, name))
                self.assertEqual(raw(example(name) + "---\ntext\n", "play"), str(n))
                self.assertEqual(str(n), n.text())
        again = Netlist.read(ALL_KINDS)
        self.assertEqual(ALL_KINDS, str(again))
        self.assertEqual(Module("m4", "C", (1, 0, 1), (("a", 0), ("b", 4)), (("y4", 2),)), again.module_named("m4"))
        self.assertEqual(Bundle("p", "a", "k", "d", 4), again.known_bundles["p"])
        self.assertEqual(Wire("d", 8, 5), again["d"])

    def test_more_is_added_to_what_was_read(self) -> None:
        n = Netlist.read(example("two-stage-control.net"))
        n.buf("more", n["q2"], out=n.wire("late"), delay=4)
        self.assertEqual(((9, 1), (16, 0)), n.waves()["late"].changes)

    def test_a_long_horizon_and_many_modules_have_their_form(self) -> None:
        self.assertEqual("format 2\nhorizon 65537\n", str(Netlist(65_537)))
        self.assertEqual("format 4\nhorizon 1048577\n", str(Netlist(1_048_577)))
        n = Netlist(10)
        n.wires(*(f"w{number}" for number in range(8_193)))
        self.assertTrue(str(n).startswith("format 4\nhorizon 10\nwire w0 1 0\n"))
        self.assertEqual(8_193, len(n.waves()))
        self.assertEqual("format 4\nhorizon 5\n", str(Netlist.read("format 4\nhorizon 5")))

    def test_a_file_holds_the_text(self) -> None:
        with tempfile.TemporaryDirectory() as folder:
            path = os.path.join(folder, "all.net")
            all_kinds().save(path)
            self.assertEqual(ALL_KINDS, str(Netlist.load(path)))

    def test_a_netlist_goes_to_another_process(self) -> None:
        n = all_kinds()
        with n.edited("delay m1 0 5"):
            self.assertEqual(ALL_KINDS, str(pickle.loads(pickle.dumps(n))))


class Names(Case):
    def test_names_of_a_part_begin_with_its_prefix(self) -> None:
        n = Netlist(30)
        stage = n.part("stage")
        q = stage.wire("q")
        inner = stage.part("core")
        inner.buf("", q, out=inner.wire("y"), delay=2)
        inner.not_("inv", "y", out=stage.wire("z"))
        self.assertEqual(("stage_q", "stage_core_y", "stage_z"), tuple(n.known_wires))
        self.assertEqual(("stage_core", "stage_core_inv"), tuple(n.known_modules))
        self.assertEqual(q, stage.q)
        self.assertEqual(stage.q, n["stage.q"])
        self.assertEqual(stage.core_y, inner["y"])
        self.assertEqual(n.waves()["stage.z"], n.waves()["stage_z"])
        self.assertFalse(hasattr(stage, "nothing"))

    def test_what_is_no_name_is_refused_at_once(self) -> None:
        n = Netlist(30)
        for name in ("", "1a", "a b", "a\n", "é", "a" * 33, "a/b", "a=b", "-"):
            fault = self.fault(Refused, lambda: n.wire(name))
            self.assertEqual((2, "BadName", name), (fault.code, fault.name, fault.word))
            self.assertIn("a letter", str(fault))
        self.fault(Refused, lambda: n.part("p" * 32).wire("q"))
        self.fault(Refused, lambda: n.wave("a b"))
        self.assertEqual("horizon 30\n", str(n))

    def test_a_name_that_is_taken_is_refused_at_once(self) -> None:
        n = Netlist(30)
        n.wire("stage.q")
        fault = self.fault(Refused, lambda: n.wire("stage_q"))
        self.assertEqual((1, "NameTaken", "wire stage_q 1 0"), (fault.code, fault.name, fault.statement))
        n.buf("stage_q", "stage.q")  # (modules have names of their own)
        self.fault(Refused, lambda: n.buf("stage_q", "stage.q"))

    def test_a_name_that_nothing_has_tells_the_nearest(self) -> None:
        n = Netlist(30)
        n.wire("request")
        for call in (lambda: n["reqest"], lambda: n.waves()["reqest"], lambda: n.measure().wire("reqest")):
            fault = self.fault(UnknownName, call)
            self.assertEqual((3, "NoSuchWire", "reqest"), (fault.code, fault.name, fault.word))
            self.assertIn("did you mean 'request'?", str(fault))
        self.assertEqual(4, self.fault(UnknownName, lambda: n.module_named("m")).code)
        self.assertEqual(5, self.fault(UnknownName, lambda: n.measure().bundle("b")).code)
        self.assertNotIn("reqest", n.waves())
        self.assertIsInstance(self.fault(KeyError, lambda: n.waves()["x"]), UnknownName)


class Mistakes(Case):
    def test_the_program_tells_the_fault_and_the_line_that_made_it(self) -> None:
        n = Netlist(30)
        n.wire("a")
        n.buf("b", "a", out="none", delay=2)
        made_at = (__file__, inspect.currentframe().f_lineno - 1)  # type: ignore[union-attr]
        n.wire("c")
        for call in (n.waves, n.text, lambda: n.wave("a"), lambda: n.svg()):
            fault = self.fault(Refused, call)
            self.assertEqual((3, "NoSuchWire", 4), (fault.code, fault.name, fault.line))
            self.assertEqual("module b BUF : a > none/2", fault.statement)
            self.assertEqual(made_at, fault.made_at)
            self.assertIn("refused: 3 NoSuchWire, line 4 of the netlist: `module b BUF : a > none/2`", str(fault))

    def test_each_sort_of_statement_is_told(self) -> None:
        faults: List[Tuple[Callable[[Netlist], Any], int, str]] = [
            (lambda n: n.wire("w", 65), 6, "BadWidth"),
            (lambda n: n.wire("w", 1, 2), 7, "BadLevel"),
            (lambda n: n.buf("m", "a", out="y", delay=0), 8, "BadDelay"),
            (lambda n: n.module("m", "BUF", ["a", "a"], ["y"]), 10, "WrongPorts"),
            (lambda n: n.reg("m", "a", "a", "a", init=2), 11, "BadParam"),
            (lambda n: n.addc("m", "a", 1, out="d"), 12, "WidthMismatch"),
            (lambda n: [n.buf(name, "a", out="y") for name in ("m", "k")], 13, "AlreadyDriven"),
            (lambda n: n.stim("a", {3: 1, 2: 0}), 15, "BadStimulus"),
            (lambda n: n.stim("a", {30: 1}), 15, "BadStimulus"),
            (lambda n: n.bundle("b", "a", "y", "nothing"), 3, "NoSuchWire"),
            (lambda n: n.stim("nothing", {3: 1}), 3, "NoSuchWire"),
        ]
        for add, code, name in faults:
            n = Netlist(30)
            n.wires("a", "y")
            n.wire("d", 8)
            add(n)
            fault = self.fault(Refused, n.report)
            self.assertEqual((code, name), (fault.code, fault.name))
            self.assertEqual(__file__, fault.made_at[0])

    def test_numbers_that_are_none_are_told(self) -> None:
        self.assertEqual((4, "BadNumber", 1), _code(self.fault(Unread, lambda: Netlist(0).waves())))
        n = Netlist(30)
        n.wire("a", -1)
        self.assertEqual((4, "BadNumber", 2), _code(self.fault(Unread, n.waves)))
        self.fault(TypeError, lambda: n.wire("b", 1.5))  # type: ignore[arg-type]
        self.fault(TypeError, lambda: n.buf("b", "a", delay=2.0))  # type: ignore[arg-type]

    def test_a_kind_that_is_none_is_told(self) -> None:
        n = Netlist(30)
        n.module("m", "FLIP", [n.wire("a")], [None])
        self.assertEqual((2, "UnknownStatement", 3), _code(self.fault(Unread, n.waves)))
        self.assertEqual(2, self.fault(Unread, lambda: n.module("k", "BUF : a > -\nwire", ["a"], [None])).code)

    def test_a_text_that_is_not_read_is_told_with_its_line(self) -> None:
        fault = self.fault(Unread, lambda: Netlist.read("horizon 5\n\nflip a\n"))
        self.assertEqual((2, "UnknownStatement", 3), _code(fault))
        self.assertEqual("flip a", fault.statement)
        self.assertEqual((5, "NoHorizon", 0), _code(self.fault(Unread, lambda: Netlist.read(""))))
        self.assertEqual((1, "NotAscii", 1), _code(self.fault(Unread, lambda: Netlist.read("horizon 5 # µ"))))
        fault = self.fault(Refused, lambda: Netlist.read("horizon 5\nwire a 1 0\nwire a 1 0\n---\n"))
        self.assertEqual((1, "NameTaken", 3), _code(fault))

    def test_bubbles_stand_only_at_a_c(self) -> None:
        n = Netlist(30)
        a = n.wire("a")
        self.fault(ValueError, lambda: n.not_("m", ~a))
        self.fault(ValueError, lambda: n.c("m", a, a, out=~a))
        n.c("m", a, ~~a)
        self.assertEqual((0, 0, 0), n.module_named("m").params)


def _code(fault: object) -> object:
    return fault.code, fault.name, fault.line  # type: ignore[attr-defined]
