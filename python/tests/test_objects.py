"""Wires, modules and bundles as objects that are changed and removed."""

from __future__ import annotations

import copy
import inspect
import pickle
import re
from typing import Any, Callable, List

from nesthrim import Bundle, Module, Netlist, Refused, UnknownName, Wire, find_program
from nesthrim.modules import SHAPES
from tests.support import Case, example
from tests.test_netlist import ALL_KINDS, all_kinds


def two_stages() -> Netlist:
    return Netlist.read(example("two-stage-control.net"))


class Changes(Case):
    def test_each_change_is_in_the_text(self) -> None:
        changes: List[Any] = [
            (lambda n: setattr(n.module("m1"), "delay", 50), "module m1 BUF : a > y1/2", "module m1 BUF : a > y1/50"),
            (lambda n: setattr(n.module("m9"), "delay", 4), "> y7/1 -/1 -/1", "> y7/4 -/4 -/4"),
            (lambda n: setattr(n.module("m4"), "bubbles", (True, False)), "m4 C 1 0 1", "m4 C 1 1 0"),
            (lambda n: setattr(n.module("m4"), "init", 0), "m4 C 1 0 1", "m4 C 0 0 1"),
            (lambda n: setattr(n.module("m9"), "init", 8), "m9 REG 7", "m9 REG 8"),
            (lambda n: setattr(n.module("m10"), "k", 9), "m10 ADDC 3", "m10 ADDC 9"),
            (lambda n: setattr(n.module("m11"), "k", 9), "m11 XORC 255", "m11 XORC 9"),
            (lambda n: setattr(n.module("m13"), "params", [1]), "m13 BIT 2", "m13 BIT 1"),
            (lambda n: setattr(n.module("m4")["b"], "delay", 0), "a b/4 > y4", "a b > y4"),
            (lambda n: setattr(n.module("m4")["b"], "wire", n["k"]), "a b/4 > y4", "a k/4 > y4"),
            (lambda n: setattr(n.module("m4")["b"], "wire", n["k"] / 2), "a b/4 > y4", "a k/2 > y4"),
            (lambda n: setattr(n.module("m6")["true"], "wire", "y4"), "> -/1 y6/1", "> y4/1 y6/1"),
            (lambda n: setattr(n.module("m6")["false"], "wire", None), "> -/1 y6/1", "> -/1 -/1"),
            (lambda n: setattr(n.module("m5")["blank"], "delay", 9), "y5/3 -/3", "y5/3 -/9"),
            (lambda n: setattr(n["d"], "width", 9), "wire d 8 5", "wire d 9 5"),
            (lambda n: setattr(n["d"], "level", 6), "wire d 8 5", "wire d 8 6"),
            (lambda n: setattr(n["d"], "stimulus", {7: 1, 9: 0}), "stim d 5=255", "stim d 7=1 9=0"),
            (lambda n: setattr(n["d"], "stimulus", None), "stim d 5=255\n", ""),
            (lambda n: n.clear("b"), "stim b\n", ""),
            (lambda n: setattr(n.bundle("p"), "setup", 0), "bundle p a k d 4", "bundle p a k d 0"),
            (lambda n: setattr(n.bundle("p"), "req", n["b"]), "bundle p a k d 4", "bundle p b k d 4"),
            (lambda n: setattr(n.bundle("p"), "ack", "b"), "bundle p a k d 4", "bundle p a b d 4"),
            (lambda n: setattr(n.bundle("p"), "data", "y9"), "bundle p a k d 4", "bundle p a k y9 4"),
            (lambda n: setattr(n, "horizon", 4000), "horizon 90", "horizon 4000"),
            (lambda n: n.remove(n.module("m12")), "module m12 SUM : d e > y11/6\n", ""),
            (lambda n: n.remove(n.bundle("p")), "bundle p a k d 4\n", ""),
            (lambda n: n.remove(n["y11"], n.module("m12"), n["e"]), None, None),
        ]
        for change, old, new in changes:
            n = all_kinds()
            before = n.revision
            change(n)
            self.assertLess(before, n.revision)
            if old is not None:
                self.assertEqual(1, ALL_KINDS.count(old), old)
                self.assertEqual(ALL_KINDS.replace(old, new), str(n))
        self.assertEqual([], [line for line in str(n).splitlines() if {"e", "y11", "m12"} & set(line.split())])

    def test_what_is_read_of_objects(self) -> None:
        n = all_kinds()
        self.assertEqual((2, "BUF", (("a", 0),), (("y1", 2),)), (n.module("m1").delay, n.module("m1").kind, n.module("m1").inputs, n.module("m1").outputs))
        self.assertEqual((1, (False, True)), (n.module("m4").init, n.module("m4").bubbles))
        self.assertEqual(("b", 4), (n.module("m4")["b"].wire, n.module("m4")["b"].delay))
        self.assertEqual((None, 3), (n.module("m5")["blank"].wire, n.module("m5")["blank"].delay))
        self.assertEqual(((5, 255),), n["d"].stimulus)
        self.assertEqual(((), None), (n["b"].stimulus, n["k"].stimulus))
        n.module("m5")["blank"].delay = 7
        self.assertIn("3, 7", str(self.fault(ValueError, lambda: n.module("m5").delay)))
        self.assertIs(n.module("m1"), n.module("m.1".replace(".", "")))

    def test_objects_that_methods_return_are_those_of_the_netlist(self) -> None:
        n = Netlist(50)
        r, y = n.wires("r", "y")
        stage = n.part("stage")
        b = stage.buf("", r, out=y)
        b.delay = 5
        stage.module("").delay += 1
        self.assertIs(b, n.module("stage"))
        y.level = 1
        self.assertEqual("horizon 50\nwire r 1 0\nwire y 1 1\nmodule stage BUF : r > y/6\n", str(n))

    def test_waves_follow_changes(self) -> None:
        n = two_stages()
        with n.edited() as variant:
            self.assertEqual("q2 0 5=1 12=0", str(variant.wave("q2")))
        n.module("c2").delay = 6
        self.assertEqual("q2 0 9=1 17=0", str(n.wave("q2")))
        with n.edited() as variant:
            self.assertEqual("q2 0 9=1 17=0", str(variant.wave("q2")))
        n.horizon = 15
        with n.edited("delay c1 0 2") as variant:
            self.assertEqual("q2 0 9=1", str(variant.wave("q2")))

    def test_the_program_tells_where_a_change_was_made(self) -> None:
        n = two_stages()
        n.module("c2").delay = 0
        fault = self.fault(Refused, n.waves)
        self.assertEqual((8, (__file__, inspect.currentframe().f_lineno - 2)), (fault.code, fault.made_at))  # type: ignore[union-attr]

    def test_names_that_are_misspelt(self) -> None:
        n = all_kinds()
        part = n.part("stage")
        cases: List[Callable[[], Any]] = [
            lambda: setattr(n, "horizn", 9), lambda: setattr(n.module("m4"), "bubles", (True, True)), lambda: setattr(n["a"], "levl", 1),
            lambda: setattr(n.bundle("p"), "setp", 1), lambda: setattr(n.module("m4")["a"], "dely", 1), lambda: setattr(part, "q", n["a"]),
            lambda: n.module("m1").bubbles, lambda: setattr(n.module("m1"), "init", 1), lambda: setattr(n.module("m4"), "k", 1),
            lambda: setattr(n.module("m4"), "name", "m44"), lambda: setattr(n.module("m4"), "kind", "XOR"), lambda: setattr(n["a"], "name", "z"),
            lambda: setattr(n.module("m4"), "inputs", ()),
        ]  # fmt: skip
        for case in cases:
            self.fault(AttributeError, case)
        for code, name in ((4, lambda: n.module("m44")), (5, lambda: n.bundle("q")), (3, lambda: n["zz"]), (9, lambda: n.module("m4")["c"])):
            self.assertEqual(code, self.fault(UnknownName, name).code)
        self.assertIn("a, b, y", str(self.fault(UnknownName, lambda: n.module("m4")["c"])))
        self.assertEqual(ALL_KINDS, str(n))

    def test_values_that_are_none(self) -> None:
        n = all_kinds()
        a: Any = n["a"]
        cases: List[Callable[[], Any]] = [
            lambda: setattr(n.module("m1"), "delay", 2.0), lambda: setattr(n, "horizon", 9.5), lambda: setattr(a, "level", "1"),
            lambda: n.bundle("q", "a"), lambda: n.remove("m1"), lambda: n.remove(3),  # type: ignore[call-overload, arg-type]
        ]  # fmt: skip
        for case in cases:
            self.fault(TypeError, case)
        for wrong in (lambda: setattr(n.module("m4")["a"], "wire", ~a), lambda: setattr(n.module("m4")["a"], "wire", None)):
            self.fault(ValueError, wrong)
        self.fault(ValueError, lambda: setattr(n.module("m4"), "bubbles", (True,)))
        self.assertEqual(ALL_KINDS, str(n))


class Removals(Case):
    def test_a_wire_that_is_used_stays(self) -> None:
        n = two_stages()
        text = str(n)
        fault = self.fault(Refused, lambda: n.remove(n.module("c2"), n["q1"]))
        self.assertEqual((14, "StillUsed", "q1"), (fault.code, fault.name, fault.word))
        self.assertIn("module c1", str(fault))
        self.assertEqual(text, str(n))
        n.bundle("b", "r", "ack", "q2")
        self.assertIn("bundle b", str(self.fault(Refused, lambda: n.remove(n["q2"], n.module("c1"), n.module("c2")))))

    def test_what_the_netlist_does_not_have(self) -> None:
        n, other = two_stages(), two_stages()
        c2 = n.module("c2")
        n.remove(c2)
        for case in (lambda: n.remove(c2), lambda: n.remove(other.module("c1")), lambda: n.remove(Wire("r"))):
            self.fault(UnknownName, case)
        self.fault(UnknownName, lambda: n.module("c2"))
        c2.delay = 9
        self.assertNotIn("c2", str(n))
        self.assertIn("c2", str(other))
        self.assertIsNone(Wire("r").stimulus)
        self.fault(UnknownName, lambda: setattr(Wire("r"), "stimulus", {1: 1}))
        self.assertEqual(16, self.fault(Refused, lambda: n.clear("q1")).code)

    def test_a_name_is_free_then(self) -> None:
        n = two_stages()
        n.remove(n.module("c2"))
        n.not_("c2", "q1", out="q2", delay=3)
        self.assertIn("module c2 NOT : q1 > q2/3\n", str(n))
        self.assertEqual(str(n), n.text())
        n.remove(n["ack"])
        self.assertNotIn("ack", str(n))


class Copies(Case):
    def test_a_copy_is_a_netlist_of_its_own(self) -> None:
        ways: List[Callable[[Netlist], Netlist]] = [lambda n: n.copy(), copy.copy, copy.deepcopy, lambda n: pickle.loads(pickle.dumps(n))]  # type: ignore[no-any-return]
        for made in ways:
            n = all_kinds()
            copied = made(n)
            self.assertEqual(ALL_KINDS, str(copied))
            copied.module("m1").delay = 9
            copied["d"].stimulus = None
            copied.remove(copied.bundle("p"))
            self.assertEqual(ALL_KINDS, str(n))
            self.assertNotIn("stim d", str(copied))
            n.module("m1").delay = 8
            n.remove(n.module("m1"))
            self.assertIn("y1/9", str(copied))

    def test_things_that_are_equal(self) -> None:
        n, other = all_kinds(), all_kinds()
        self.assertEqual(n.module("m1"), other.module("m1"))
        self.assertEqual(1, len({n["a"], other["a"], pickle.loads(pickle.dumps(n["a"]))}))
        other.module("m1").delay = 9
        self.assertNotEqual(n.module("m1"), other.module("m1"))
        self.assertNotEqual(n["a"], n.module("m1"))
        self.assertEqual(Wire("d", 8, 5), n["d"])
        self.assertEqual(Bundle("p", "a", "k", "d", 4), n.bundle("p"))
        self.assertEqual("<module m1 BUF : a > y1/2>", repr(n.module("m1")))
        self.assertEqual(Module("m1", "BUF", (), (("a", 0),), (("y1", 2),)), n.module("m1"))


class Shapes(Case):
    def test_ports_have_the_names_that_explain_tells(self) -> None:
        listed = find_program().run(["explain"]).written.splitlines()
        self.assertEqual(sorted(line.split()[1] for line in listed if line.startswith("kind ")), sorted(SHAPES))
        for kind, shape in SHAPES.items():
            text = find_program().run(["explain", kind]).written.split(f"kind {kind}\n")[1]
            for heading, names in zip(("parameters", "inputs", "outputs"), shape):
                told = re.search(rf"^  {heading}:\n((?:    .*\n)+)", text, re.MULTILINE)
                assert told is not None
                words = [part.split()[0] for part in " ".join(told[1].split()).split(", ")]
                self.assertEqual([word for word in words if word not in ("none", "each", "below")], list(names), f"{kind} {heading}")
