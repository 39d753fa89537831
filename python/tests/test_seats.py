"""A live desk and its seats."""

from __future__ import annotations

import fcntl
import os
import signal
import tempfile
import threading
import time
import unittest

from nesthrim import BrokenPipe, Closed, Desk, NoSeat, Program, ProgramFailed, Refused, Seat, UnknownName, Unread, find_program
from tests.support import Case
from tests.test_sessions import two_stages


class Seats(Case):
    def setUp(self) -> None:
        room = tempfile.TemporaryDirectory()
        self.addCleanup(room.cleanup)
        self.folder = os.path.join(room.name, "meeting")

    def test_designers_and_a_viewer(self) -> None:
        with Desk(two_stages(), self.folder, designers=2, viewers=1) as desk:
            with desk.seat("designer-1") as one, Seat(self.folder, "designer-2") as other, desk.seat("viewer-1") as viewer:
                self.assertEqual({"designer-1": True, "designer-2": True, "viewer-1": True}, desk.seats())
                self.assertEqual("q2 0 5=1 12=0", str(viewer.wave("q2")))
                self.assertEqual("    0\nq2  _/\\_\n", viewer.show(wires=["q2"], columns=4, ascii=True))
                self.assertEqual("    0\nq2  ▁╱╲▁\n", viewer.show(wires=["q2"], columns=4))
                self.assertEqual(1, one.edit("delay c1 0 4"))
                self.assertEqual(2, other.batch("delay c2 0 6", "stim ack 16=1"))
                self.assertEqual(["1 delay c1 0 4", "2 batch delay c2 0 6 ; stim ack 16=1"], [str(edit) for edit in viewer.edits()])
                self.assertEqual(["designer-1", "designer-2"], [edit.who for edit in viewer.edits()])
                self.assertEqual(one.waves(), viewer.waves())
                self.assertEqual(other.text(), desk.text())
                self.assertIn("<svg", viewer.svg().text)
                self.assertEqual(str(viewer.netlist()), one.text())
                fault = self.fault(Refused, lambda: other.edit("wire q1 1 0"))
                self.assertEqual((1, "NameTaken"), (fault.code, fault.name))
                fault = self.fault(Refused, lambda: viewer.edit("delay c1 0 9"))
                self.assertEqual((22, "NotADesigner"), (fault.code, fault.name))
                self.assertEqual((23, "NoWork"), (lambda found: (found.code, found.name))(self.fault(Refused, one.work)))
                self.fault(UnknownName, lambda: viewer.wave("none"))
                self.fault(Unread, lambda: viewer.ask("flip"))
                waves = str(viewer.waves())
            # (questions, and what a seat asks of its own, count for nothing)
            self.assertEqual(f"designer 1 accepted 1 refused 0\ndesigner 2 accepted 1 refused 1\nviewer 1 saw 2\n{waves}", desk.end())
        self.fault(Closed, one.waves)

    def test_a_seat_is_left_and_taken_again(self) -> None:
        with Desk(two_stages(), self.folder, designers=1, viewers=0) as desk:
            for number in (1, 2, 3):
                with desk.seat("designer-1") as seat:
                    self.assertEqual(number, seat.edit(f"delay c1 0 {number}"))

    def test_an_edit_that_is_not_kept(self) -> None:
        with Desk(two_stages(), self.folder, designers=1, viewers=0) as desk:
            with desk.seat("designer-1") as seat:
                self.assertEqual(1, seat.edit("delay c1 0 4"))
                os.remove(os.path.join(self.folder, "edits"))
                fault = self.fault(Refused, lambda: seat.edit("delay c1 0 5"))
                self.assertEqual((24, "NotKept", "the desk can't keep it"), (fault.code, fault.name, fault.meaning))
                self.assertEqual(["1 delay c1 0 4"], [str(edit) for edit in seat.edits()])
            self.fault(ProgramFailed, desk.end)

    def test_threads_at_their_seats(self) -> None:
        with Desk(two_stages(), self.folder, designers=2, viewers=2) as desk:

            def sit(name: str) -> None:
                with desk.seat(name) as seat:
                    for number in range(1, 21):
                        if name.startswith("designer"):
                            seat.edit(f"delay c{name[-1]} 0 {number}")
                        self.assertLessEqual(len(seat.edits()), 40)

            threads = [threading.Thread(target=sit, args=(name,)) for name in desk.names]
            for thread in threads:
                thread.start()
            for thread in threads:
                thread.join()
            self.assertEqual(40, desk.version())

    def make_pipes(self) -> None:
        os.makedirs(self.folder)
        for end in ("in", "out"):
            os.mkfifo(os.path.join(self.folder, f"designer-1.{end}"))

    def lock_folder(self, how: int, seconds: float) -> None:
        """Has a lock of the folder for some time, or until the test ends."""
        os.makedirs(self.folder, exist_ok=True)
        lock = os.open(self.folder, os.O_RDONLY)
        self.addCleanup(os.close, lock)
        fcntl.flock(lock, how)
        timer = threading.Timer(seconds, fcntl.flock, [lock, fcntl.LOCK_UN])
        timer.start()
        self.addCleanup(timer.join)
        self.addCleanup(timer.cancel)

    def seconds_until_no_seat(self, wanted: str, seconds: float) -> float:
        begin = time.monotonic()
        self.assertIn(wanted, str(self.fault(NoSeat, lambda: Seat(self.folder, "designer-1", seconds=seconds))))
        return time.monotonic() - begin

    def test_no_desk(self) -> None:
        self.assertLess(self.seconds_until_no_seat("there is no desk at", 60), 10)
        self.make_pipes()
        self.assertLess(self.seconds_until_no_seat("start one by ./mpwb desk FILE --at FOLDER", 60), 10)

    def test_a_desk_that_never_comes_to_a_seat(self) -> None:
        self.make_pipes()
        self.lock_folder(fcntl.LOCK_EX, 60)
        self.assertLess(self.seconds_until_no_seat("nobody serves", 0.05), 10)

    def test_a_desk_that_ends_before_it_comes_to_a_seat(self) -> None:
        self.make_pipes()
        self.lock_folder(fcntl.LOCK_EX, 0.3)
        self.assertLess(self.seconds_until_no_seat("there is no desk at", 60), 10)

    def test_a_desk_that_begins_while_somebody_looks_for_it(self) -> None:
        self.lock_folder(fcntl.LOCK_SH, 0.1)
        with Desk(two_stages(), self.folder) as desk:
            self.assertEqual(0, desk.version())

    def test_a_desk_without_that_seat(self) -> None:
        with Desk(two_stages(), self.folder, designers=1) as desk:
            self.assertIn("there is no seat", str(self.fault(NoSeat, lambda: desk.seat("designer-2"))))

    @unittest.skipIf(find_program().is_script(), "what is stopped would be the script: MPWB names the compiled program")
    def test_a_desk_that_doesn_t_read(self) -> None:
        with Desk(two_stages(), self.folder) as desk, desk.seat("viewer-1", seconds=0.5) as seat:
            desk._process.send_signal(signal.SIGSTOP)
            wake = threading.Timer(20, desk._process.send_signal, [signal.SIGCONT])
            wake.start()
            # (a pipe has room for 65,536 bytes)
            line = "wave " + "x" * 200_000
            begin = time.monotonic()
            self.assertLess(len(str(self.fault(NoSeat, lambda: seat.ask(line)))), 1000)
            self.assertLess(time.monotonic() - begin, 10)
            self.assertFalse(seat.is_open)
            wake.cancel()
            desk._process.send_signal(signal.SIGCONT)

    def test_a_long_line(self) -> None:
        with Desk(two_stages(), self.folder) as desk, desk.seat("viewer-1") as seat:
            self.assertEqual(8, self.fault(Unread, lambda: seat.ask("wave " + "x" * 200_000)).code)
            self.assertEqual("q2 0 5=1 12=0", str(seat.wave("q2")))

    def test_a_desk_of_the_script_on_a_folder_that_is_taken(self) -> None:
        os.makedirs(self.folder)
        script = os.path.join(self.folder, "mpwb")
        with open(script, "w", encoding="utf-8") as file:
            file.write(f"#!/bin/sh\necho 'mpwb: there is a desk at {self.folder}' >&2\nexit 3\n")
        os.chmod(script, 0o755)
        n = two_stages()
        n.program = Program(script)
        self.assertIn("take a seat of it", str(self.fault(NoSeat, lambda: Desk(n, self.folder))))

    def test_a_seat_and_a_folder_are_one_s_own(self) -> None:
        with Desk(two_stages(), self.folder) as desk:
            with desk.seat("designer-1"):
                self.assertIn("designer-1 is taken", str(self.fault(NoSeat, lambda: desk.seat("designer-1"))))
            desk.seat("designer-1").close()
            self.assertIn("there is a desk at", str(self.fault(NoSeat, lambda: Desk(two_stages(), self.folder))))

    def test_a_desk_that_goes_away(self) -> None:
        desk = Desk(two_stages(), self.folder)
        seat = desk.seat("viewer-1")
        self.assertEqual(0, seat.version())
        desk._process.kill()
        self.assertIn("the desk has left the seat viewer-1", str(self.fault(BrokenPipe, seat.waves)))
        self.fault(Closed, seat.waves)
        self.fault(BrokenPipe, desk.version)
        self.assertEqual("", desk.end())

    def test_a_desk_that_does_not_begin(self) -> None:
        self.assertEqual(3, self.fault(Refused, lambda: Desk("horizon 5\nmodule b BUF : x > -\n", self.folder)).code)
        fault = self.fault(ProgramFailed, lambda: Desk(two_stages(), self.folder, designers=9))
        self.assertIn("bad count", str(fault))
        pipe = os.path.join(self.folder, "designer-1.in")
        os.remove(pipe)
        open(pipe, "w").close()
        fault = self.fault(ProgramFailed, lambda: Desk(two_stages(), self.folder))
        self.assertEqual(3, fault.status)
        self.assertIn(f"can't open {pipe}", str(fault))
