"""The edits by which one netlist becomes another, and sessions that make them."""

from __future__ import annotations

import random
from typing import Dict, List

from nesthrim import Netlist, NoEdit, Refused, Session, Unread
from tests.pairs import random_netlist, without_a_part
from tests.support import Case, example
from tests.test_netlist import ALL_KINDS

SWAP = """horizon 60
wire a 1 0
wire b 1 0
wire x 1 0
wire y 1 0
wire z 1 0
module m BUF : a > x/2
module n NOT : b > y/3
module k BUF : x > z/4
stim a 3=1 9=0
stim b 5=1
bundle p a b x 1
"""


def records(n: Netlist) -> List[Dict[str, object]]:
    """What a netlist has, by name."""
    return [dict(things) for things in (n.known_wires, n.known_modules, n.known_stimuli, n.known_bundles)]


class Edits(Case):
    def changed(self, text: str, *changes: str) -> List[str]:
        """The edits between a netlist and a copy of it that lines of Python have changed."""
        before = Netlist.written(text)
        n = before.copy()
        for change in changes:
            exec(change, {"n": n})
        return before.edits_to(n)

    def test_only_what_differs_is_edited(self) -> None:
        self.assertEqual([], self.changed(SWAP))
        self.assertEqual(["delay k 0 50"], self.changed(SWAP, "n.module('k').delay = 50"))
        self.assertEqual(["indelay k 0 6"], self.changed(SWAP, "n.module('k')['a'].delay = 6"))
        self.assertEqual(["input k 0 y"], self.changed(SWAP, "n.module('k')['a'].wire = 'y'"))
        self.assertEqual(["output k 0 -"], self.changed(SWAP, "n.module('k')['y'].wire = None"))
        self.assertEqual(["stim a 4=1"], self.changed(SWAP, "n['a'].stimulus = {4: 1}"))
        self.assertEqual(["stim a"], self.changed(SWAP, "n.stim('a', [])"))
        self.assertEqual(["clear b"], self.changed(SWAP, "n.clear('b')"))
        self.assertEqual(["remove bundle p", "bundle p a b z 1"], self.changed(SWAP, "n.bundle('p').data = 'z'"))
        self.assertEqual(["remove module k"], self.changed(SWAP, "n.remove(n.module('k'))"))
        self.assertEqual(["wire q 8 3"], self.changed(SWAP, "n.wire('q', 8, 3)"))
        self.assertEqual(["remove module k", "remove wire z"], self.changed(SWAP, "n.remove(n['z'], n.module('k'))"))

    def test_a_wire_takes_its_stimulus_with_it(self) -> None:
        gone = self.changed(SWAP, "n.remove(n['a'], n.module('m'), n.bundle('p'))")
        self.assertEqual(["remove bundle p", "remove module m", "remove wire a"], gone)

    def test_a_module_of_another_kind_is_another_module(self) -> None:
        other = self.changed(SWAP, "n.remove(n.module('k'))", "n.not_('k', 'x', out='z', delay=4)")
        self.assertEqual(["remove module k", "module k NOT : x > z/4"], other)
        inverted = self.changed(ALL_KINDS, "n.module('m4').bubbles = (True, True)")
        self.assertEqual(["remove module m4", "module m4 C 1 1 1 : a b/4 > y4/2"], inverted)
        wider = self.changed(SWAP, "n.wire('d', 8); n.wire('e', 8); n.remove(n.module('k')); n.buf('k', 'd', out='e')")
        self.assertEqual(["remove module k", "wire d 8 0", "wire e 8 0", "module k BUF : d > e/1"], wider)

    def test_outputs_that_change_places(self) -> None:
        swapped = self.changed(SWAP, "n.module('m')['y'].wire = None; n.module('n')['y'].wire = 'x'; n.module('m')['y'].wire = 'y'")
        self.assertEqual(["output m 0 -", "output n 0 -", "output m 0 y", "output n 0 x"], swapped)

    def test_a_driver_and_a_stimulus_change_places(self) -> None:
        lines = ("n.clear('b')", "n.module('m')['y'].wire = 'b'", "n.stim('x', {7: 1})")
        self.assertEqual(["output m 0 -", "clear b", "output m 0 b", "stim x 7=1"], self.changed(SWAP, *lines))

    def test_what_no_edit_says(self) -> None:
        cases = {
            "n.horizon = 4000": "the horizon is 60, and would be 4000",
            "n['x'].width = 8": "wire x has 1 bits, and would have 8",
            "n['x'].level = 1": "wire x begins at 0, and would begin at 1",
        }
        for change, difference in cases.items():
            fault = self.fault(NoEdit, lambda: self.changed(SWAP, change))
            self.assertEqual((difference,), fault.differences)
            self.assertIn("Session(n)", str(fault))
        every = self.fault(NoEdit, lambda: self.changed(SWAP, *cases))
        self.assertEqual(tuple(cases.values()), every.differences)


class Sessions(Case):
    def reach(self, session: Session, n: Netlist) -> None:
        """The session becomes the netlist, with the waves that it has alone."""
        session.to(n)
        found = session.netlist()
        self.assertEqual(records(n), records(found))
        self.assertEqual(n.horizon, found.horizon)
        wanted = {name: str(wave) for name, wave in n.waves().items()}
        self.assertEqual(wanted, {name: str(wave) for name, wave in session.waves().items()})

    def test_random_netlists_one_after_the_other(self) -> None:
        numbers = random.Random(20)
        for _ in range(4):
            n = random_netlist(numbers)
            with Session(n) as session:
                for place in range(10):
                    n = random_netlist(numbers) if place % 3 else without_a_part(numbers, n)
                    before = session.version()
                    is_other = records(n) != records(session.netlist())
                    self.reach(session, n)
                    # (one batch, and nothing at all where nothing differs)
                    self.assertEqual(before + is_other, session.version())

    def test_what_a_new_user_does(self) -> None:
        n = Netlist.read(example("two-stage-control.net"))
        with Session(n) as session:
            self.assertEqual(0, session.to(n))
            n.module("c2").delay = 6
            self.assertEqual(1, session.to(n))
            self.assertEqual("q2 0 9=1 17=0", str(session.wave("q2")))
            self.assertEqual("1 batch delay c2 0 6", str(session.edits()[0]))
            n.module("c1").bubbles = (False, False)
            n["ack"].stimulus = {12: 1}
            self.assertEqual(2, session.to(n))
            self.assertEqual({name: str(wave) for name, wave in n.waves().items()}, {name: str(wave) for name, wave in session.waves().items()})
            n.horizon = 4000
            self.fault(NoEdit, lambda: session.to(n))
            self.assertEqual(2, session.version())

    def test_edits_by_others_are_seen(self) -> None:
        n = Netlist.written(SWAP)
        with Session(n) as session:
            session.edit("delay k 0 9")
            session.edit("remove bundle p")
            self.reach(session, n)
            self.assertEqual("3 batch delay k 0 4 ; bundle p a b x 1", str(session.edits()[-1]))

    def test_what_the_program_refuses_changes_nothing(self) -> None:
        wrong = Netlist.written(SWAP)
        wrong.module("k").delay = 7
        wrong.module("m")["y"].wire = "y"
        with Session(SWAP) as session:
            fault = self.fault(Refused, lambda: session.to(wrong))
            self.assertEqual((21, 13), (fault.code, fault.reason.code))
            wrong.module("m")["y"].wire = "x"
            wrong.module("q", "FLIP", ["a"], [None])
            self.fault(Unread, lambda: session.to(wrong))
            self.assertEqual((SWAP, 0), (session.text(), session.version()))

    def test_more_than_a_batch_takes(self) -> None:
        n = Netlist.written(SWAP)
        with Session(n) as session:
            n.wires(*(f"more{number}" for number in range(256)))
            self.assertEqual(1, session.to(n))
            n.wires(*(f"again{number}" for number in range(257)))
            fault = self.fault(NoEdit, lambda: session.to(n))
            self.assertIn("it takes 257 edits", str(fault))
            self.assertEqual(1, session.version())
            long = session.netlist()
            for number in range(2):
                long.stim(f"more{number}", [(time, time % 2) for time in range(1, 60)])
            self.assertEqual(2, session.to(long))

    def test_a_line_has_no_room_for_some_batches(self) -> None:
        n = Netlist(60_000)
        n.wire("a")
        with Session(n) as session:
            n.stim("a", [(time, time % 2) for time in range(1, 20_000)])
            self.fault(NoEdit, lambda: session.to(n))
            self.assertEqual(0, session.version())

    def test_variants_by_objects(self) -> None:
        n = Netlist.written(SWAP)
        slower = n.copy()
        slower.module("k").delay = 20
        with n.edited(*n.edits_to(slower)) as variant:
            self.assertEqual(slower.waves()["z"], variant.waves()["z"])
        self.assertEqual(SWAP, str(n))
