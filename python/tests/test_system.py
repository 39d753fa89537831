"""Files, folders and characters that the system or the program doesn't take."""

from __future__ import annotations

import errno
import os
import pickle
import tempfile
from typing import Any, Callable, List
from unittest import mock

from nesthrim import Desk, NesthrimError, Netlist, Seat, Session, SystemFailed, Unread, find_program
from tests.support import Case
from tests.test_sessions import two_stages

NOWHERE = os.path.join(os.sep, "nowhere", "at", "all")
# half of a character, which UTF-8 has no bytes for
HALF = "\ud800"


class Files(Case):
    def test_a_file_that_can_t_be_opened(self) -> None:
        n = two_stages()
        with Session(n) as session:
            asks: List[Callable[[], Any]] = [
                lambda: Netlist.load(NOWHERE),
                lambda: n.save(NOWHERE),
                lambda: n.dump(NOWHERE),
                lambda: session.dump(NOWHERE),
                lambda: session.verilog(NOWHERE),
                lambda: session.svg().save(NOWHERE),
            ]
            for ask in asks:
                fault = self.fault(SystemFailed, ask)
                self.assertIsInstance(fault, NesthrimError)
                self.assertIsInstance(fault, OSError)
                self.assertEqual((errno.ENOENT, NOWHERE), (fault.errno, fault.filename))
                self.assertIn(NOWHERE, str(fault))
                again = pickle.loads(pickle.dumps(fault))
                self.assertEqual((SystemFailed, str(fault)), (type(again), str(again)))
            self.assertEqual(1, session.edit("delay c1 0 4"))

    def test_a_path_that_no_file_can_have(self) -> None:
        self.fault(SystemFailed, lambda: Netlist.load(HALF))
        self.fault(SystemFailed, lambda: two_stages().save(HALF))

    def test_a_disk_that_is_full(self) -> None:
        n = two_stages()
        with Session(n) as session:
            with mock.patch("tempfile.TemporaryFile", side_effect=OSError(errno.ENOSPC, os.strerror(errno.ENOSPC))):
                asks: List[Callable[[], Any]] = [n.waves, session.svg, lambda: Session(n)]
                for ask in asks:
                    self.assertEqual(errno.ENOSPC, self.fault(SystemFailed, ask).errno)
            self.assertIn("<svg", session.svg().text)
            self.assertEqual(0, session.version())

    def test_a_command_line_that_is_too_long(self) -> None:
        fault = self.fault(SystemFailed, lambda: find_program().run(["show", *["--wire=q1"] * 400_000]))
        self.assertEqual(errno.E2BIG, fault.errno)

    def test_folders(self) -> None:
        with tempfile.TemporaryDirectory() as room:
            path = os.path.join(room, "file")
            open(path, "w").close()
            self.assertEqual(errno.EEXIST, self.fault(SystemFailed, lambda: Desk(two_stages(), path)).errno)
            self.fault(SystemFailed, lambda: Desk(two_stages(), os.path.join(path, "below")))
            self.fault(SystemFailed, lambda: Desk(two_stages(), os.path.join(room, HALF)))
            self.fault(SystemFailed, lambda: Seat(os.path.join(room, HALF), "designer-1"))


class Characters(Case):
    def test_a_line(self) -> None:
        with Session(two_stages()) as session:
            for line in (f"wave {HALF}", "wave \udc80", "wave é", "# é"):
                fault = self.fault(Unread, lambda: session.ask(line))
                self.assertEqual((1, "NotAscii", line), (fault.code, fault.name, fault.statement))
                str(fault).encode("utf-8")
            self.assertEqual(1, session.edit("delay c1 0 4"))

    def test_a_text(self) -> None:
        for text in (f"horizon 5\n# {HALF}\n", "horizon 5\n# é\n"):
            fault = self.fault(Unread, lambda: Netlist.read(text))
            self.assertEqual((1, 2), (fault.code, fault.line))
            self.assertIn("line 2: 1 NotAscii", find_program().run(["waves"], text).said)

    def test_a_word_of_a_command_line(self) -> None:
        self.assertNotEqual(0, find_program().run(["explain", HALF]).status)
