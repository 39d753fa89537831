"""Answers about a part of a run: some times, some modules and bundles, some wires, and findings in groups."""

from __future__ import annotations

from typing import Any, Callable, List, Tuple

from nesthrim import AnswerError, BriefCheck, Finding, Group, Late, Netlist, PathPart, ProgramFailed, Session, UnknownName, Unread
from nesthrim.answers.causes import read_path
from nesthrim.answers.report import read_brief_check
from tests.support import Case, example, examples, needs, raw
from tests.test_netlist import ALL_KINDS

# data that come one unit late and while the bundle is busy, at 19 and 59, and two events that meet at a XOR, at 50
BAD = """horizon 100
wire c 1 0
wire q 8 0
wire d 8 0
wire r 1 0
wire k 1 0
wire e 1 0
wire z 1 0
module logic ADDC 0 : q > d/9
module match BUF : c > r/8
module recv BUF : r > k/3
module m XOR : c e > z/1
bundle b r k d 2
stim c 10=1 50=0
stim q 10=7 50=8
stim e 50=1
"""

GROUPS = (
    Group("bundle", "b", "data-while-busy", 2, 19, 59),
    Group("bundle", "b", "late", 2, 19, 59, 1),
    Group("module", "m", "merge-collision", 1, 50, 50),
)


def asked(ask: Callable[[Any], Any], text: str) -> List[Any]:
    """What a netlist, a session over it and a variant of it answer."""
    n = Netlist.read(text)
    with Session(n) as session, n.edited() as variant:
        return [ask(n), ask(session), ask(variant)]


class Parts(Case):
    def asked_alike(self, ask: Callable[[Any], Any], text: str) -> Any:
        """What a netlist answers, which is what a session and a variant answer."""
        first, *others = asked(ask, text)
        self.assertEqual([first, first], others)
        return first

    def test_groups_of_each_sort_are_read(self) -> None:
        text = (
            "bundle bs1 late 158 times, first 95, last 5998, worst 47\nmodule c3 withdrawn 12 times, first 40, last 380\n"
            "module c4 withdrawn 1 time, at 40\nbundle bs2 late 1 time, at 95, by 4\n"
            "0 deadlock c3 waits for q4, c4 waits for q3\nnote wire x is unused\nnote bundle t is busy since 30\n"
        )
        check = read_brief_check(text, "check brief")
        wanted = (
            Group("bundle", "bs1", "late", 158, 95, 5998, 47),
            Group("module", "c3", "withdrawn", 12, 40, 380),
            Group("module", "c4", "withdrawn", 1, 40, 40),
            Group("bundle", "bs2", "late", 1, 95, 95, 4),
        )
        self.assertEqual((wanted, 1, 2, False), (check.groups, len(check.deadlocks), len(check.notes), check.ok))
        self.assertEqual(text, str(check))
        self.assertTrue(read_brief_check("note wire x is unused\n", "check brief").ok)
        self.fault(AnswerError, lambda: read_brief_check("19 bundle b late 1\n", "check brief"))

    @needs("check", "brief")
    def test_a_brief_check_has_groups(self) -> None:
        check = self.asked_alike(lambda n: n.check(brief=True), BAD)
        self.assertEqual(BriefCheck(GROUPS, (), ()), check)
        for text in [BAD, ALL_KINDS, *map(example, examples())]:
            self.assertEqual(raw(text, "check", "--brief"), str(Netlist.read(text).check(brief=True)))

    @needs("check", "brief")
    def test_a_range_of_times(self) -> None:
        check = self.asked_alike(lambda n: n.check(20, 60), BAD)
        self.assertEqual([Finding(50, "module", "m", "merge-collision"), Finding(59, "bundle", "b", "data-while-busy")], list(check.findings))
        self.assertEqual((Late(59, "b", 1),), check.late)
        self.assertEqual([Finding(19, "bundle", "b", "data-while-busy")], list(self.asked_alike(lambda n: n.report(end=50), BAD)))
        self.assertEqual([], list(self.asked_alike(lambda n: n.report(20, 50), BAD)))
        groups = self.asked_alike(lambda n: n.check(20, brief=True), BAD).groups
        self.assertEqual(("merge-collision", "data-while-busy", "late"), tuple(group.code for group in groups))

    @needs("check", "at")
    def test_some_modules_and_bundles(self) -> None:
        n = Netlist.read(BAD)
        met = Finding(50, "module", "m", "merge-collision")
        for place in ("m", n.module_named("m")):
            self.assertEqual([met], list(self.asked_alike(lambda asked: asked.report(at=[place]), BAD)))
        check = self.asked_alike(lambda asked: asked.check(at=["b"]), BAD)
        self.assertEqual((2, 2, "b"), (len(check.findings), len(check.late), check.late[0].name))
        self.assertEqual(list(n.report()), list(n.report(at=["m", "b"])))
        self.assertEqual(GROUPS[:2], self.asked_alike(lambda asked: asked.check(at=["b"], brief=True), BAD).groups)
        self.assertTrue(n.check(at=["recv"]).ok)
        fault = self.fault(UnknownName, lambda: n.check(at=["m", "z"]))
        self.assertEqual((4, "z"), (fault.code, fault.word))

    @needs("measure", "wire")
    def test_some_wires(self) -> None:
        measure = self.asked_alike(lambda n: n.measure(0, 40, ["z", "c"]), BAD)
        self.assertEqual("wire z 1 11 11\nwire c 1 10 10\n", str(measure))
        self.assertEqual(3, self.fault(UnknownName, lambda: Netlist.read(BAD).measure(wires=["c", "nothing"])).code)

    @needs("path", "from")
    def test_a_path_from_a_time_on(self) -> None:
        text = example("slow-stage.net")
        parts: Tuple[PathPart, ...] = self.asked_alike(lambda n: n.path("q1", 119, since=110), text)
        self.assertEqual((PathPart("c3", 5, 1), PathPart("c1", 2, 1), PathPart("c2", 2, 1), PathPart("-", 110, 0, 110)), parts)
        self.assertEqual(119, sum(part.units for part in parts))
        n = Netlist.read(text)
        self.assertEqual(n.path("q1", 119), n.path("q1", 119, since=0))
        for since in (119, 120):
            self.assertIn("out of its range", str(self.fault(ProgramFailed, lambda: n.path("q1", 119, since=since))))
            with Session(n) as session:
                self.assertEqual(4, self.fault(Unread, lambda: session.path("q1", 119, since=since)).code)

    def test_what_lies_before_is_read(self) -> None:
        text = "c3 96 8\n- 40 12\n"
        parts = read_path(text, "path")
        self.assertEqual((PathPart("c3", 96, 8), PathPart("-", 12, 0, 40)), parts)
        self.assertEqual(text, "".join(f"{part}\n" for part in parts))
