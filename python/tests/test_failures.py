"""Programs that are missing, not built, broken or of another version."""

from __future__ import annotations

import os
import pickle
import subprocess
import sys
import tempfile
import unittest
from typing import Any, Callable, List, Optional

from nesthrim import AnswerError, BrokenPipe, Netlist, NoSeat, OutOfMemory, Program, ProgramFailed, ProgramMissing, Refused, Session, SystemFailed
from nesthrim import UnknownName, Unread, find_program
from tests.support import TOP, Case, commands
from tests.test_sessions import two_stages

# a program that is another one: what it writes and says, and how it ends
STAND_IN = """#!/bin/sh
{body}
"""


class StandIns(Case):
    def setUp(self) -> None:
        room = tempfile.TemporaryDirectory()
        self.addCleanup(room.cleanup)
        self.room = room.name

    def stand_in(self, body: str) -> Program:
        path = os.path.join(self.room, "mpwb")
        with open(path, "w", encoding="utf-8") as file:
            file.write(STAND_IN.format(body=body))
        os.chmod(path, 0o755)
        return Program(path)

    def netlist(self, body: str) -> Netlist:
        n = two_stages()
        n.program = self.stand_in(body)
        return n

    def test_an_answer_of_another_program(self) -> None:
        fault = self.fault(AnswerError, lambda: self.netlist("echo hello").waves())
        self.assertEqual(("waves", "hello"), (fault.question, fault.line))
        self.assertIn("MPWB", str(fault))
        self.fault(AnswerError, lambda: self.netlist("printf 'q1 0 3'").waves())
        play = "while read -r line; do case $line in 'wave .') echo refused 3 NoSuchWire ;; version) echo version 0 ;; *) echo what ;; esac; done"
        fault = self.fault(AnswerError, lambda: Session(self.netlist(play)).report())
        self.assertEqual("what", fault.line)

    def test_a_program_without_a_question_that_is_needed(self) -> None:
        play = "while read -r line; do case $line in 'wave .') echo refused 3 NoSuchWire ;; *) echo unread 2 UnknownStatement ;; esac; done"
        self.assertEqual("unread 2 UnknownStatement", self.fault(AnswerError, lambda: Session(self.netlist(play))).line)

    def test_the_word_that_check_marks(self) -> None:
        marked = [
            ("   7 | module b BUF : reqest > y/1\n     |                ^^^^^^\n     no such wire; did you mean `request`?", "reqest", "`request`"),
            ("  12 | wire b 1\n     |         ^\n     too few words", "", "too few words"),
            ("   7 | flip a\n     | ^^^^", "flip", ""),
        ]
        for lines, word, meaning in marked:
            fault = "mpwb: line 7: 7 Refused: 3 NoSuchWire"
            n = self.netlist(f"echo '{fault}' >&2\nif [ $1 = check ]; then echo '{lines}' >&2; fi\nexit 1")
            for call in (n.waves, lambda: Session(n)):
                found = self.fault(Refused, call)
                self.assertEqual((3, 7, word), (found.code, found.line, found.word))
                self.assertIn(meaning, found.meaning)

    def test_a_program_that_ends_otherwise(self) -> None:
        cases = [
            ("echo 'mpwb: out of memory' >&2; exit 4", OutOfMemory, 4, "MPWB_MEMORY"),
            ("echo 'mpwb: command rt not found' >&2; exit 70", ProgramFailed, 70, "command rt not found"),
            ("echo 'error: unrecognized subcommand' >&2; exit 2", ProgramFailed, 2, "from the same checkout"),
            ("echo 'mpwb: read failed' >&2; exit 3", ProgramFailed, 3, "read failed"),
            ("echo 'mpwb: bad count' >&2; exit 1", ProgramFailed, 1, "bad count"),
            ("kill -SEGV $$", ProgramFailed, -11, "signal"),
        ]
        for body, kind, status, words in cases:
            asks: List[Callable[[Netlist], Any]] = [Netlist.waves, Session]
            for ask in asks:
                fault = self.fault(ProgramFailed, lambda: ask(self.netlist(body)))
                self.assertIn((type(fault), fault.status), [(kind, status), (BrokenPipe, status)])
                if status > 0:
                    self.assertIn(words, str(fault))

    def test_a_program_that_ends_well_and_answers_nothing(self) -> None:
        self.fault(BrokenPipe, lambda: Session(self.netlist("exit 0")))
        self.fault(BrokenPipe, lambda: Session(self.netlist("read -r line; echo half")))

    def test_notices_of_the_script_are_passed_on(self) -> None:
        notice = "mpwb: this program is checked at run time and not proved; ./mpwb build proves and builds it, in about an hour"
        self.stand_in(f"echo '{notice}' >&2; echo 'q 0'")
        code = "import nesthrim\nn = nesthrim.Netlist(9)\nprint(str(n.waves()) + str(n.waves()), end='')"
        env = {**os.environ, "MPWB": os.path.join(self.room, "mpwb"), "PYTHONPATH": os.path.join(TOP, "python")}
        run = subprocess.run([sys.executable, "-c", code], env=env, stdout=subprocess.PIPE, stderr=subprocess.PIPE, text=True, check=True)
        self.assertEqual(("q 0\nq 0\n", notice + "\n"), (run.stdout, run.stderr))

    def test_no_program(self) -> None:
        nothing = os.path.join(self.room, "nothing")
        self.assertIn("set MPWB", str(self.fault(ProgramMissing, lambda: Program(nothing))))
        self.assertIn("set MPWB", str(self.fault(ProgramMissing, lambda: Program(self.room))))
        broken = self.stand_in("")
        with open(broken.path, "wb") as file:
            file.write(b"\x7fELF nothing")
        n = two_stages()
        n.program = broken
        self.assertIn("can't be run", str(self.fault(ProgramMissing, n.waves)))

    def test_where_the_program_is_found(self) -> None:
        kept = {name: os.environ.get(name) for name in ("MPWB", "PATH")}
        for name, value in kept.items():
            self.addCleanup(_set, name, value)
        stand_in = self.stand_in("exit 0")
        _set("MPWB", stand_in.path)
        self.assertEqual(stand_in.path, find_program().path)
        _set("MPWB", os.path.join(self.room, "nothing"))
        self.fault(ProgramMissing, find_program)
        _set("MPWB", None)
        self.assertEqual(os.path.join(TOP, "mpwb"), find_program().path)

    def test_a_package_that_is_elsewhere(self) -> None:
        """Installed, the package finds the program of PATH, and else says what to do. It doesn't run one that is in the present folder."""
        code = "import nesthrim\ntry:\n    print(nesthrim.find_program().path)\nexcept nesthrim.ProgramMissing as error:\n    print(error)"
        place = os.path.join(self.room, "lib", "python3", "nesthrim")
        os.makedirs(os.path.dirname(place))
        os.symlink(os.path.join(TOP, "python", "nesthrim"), place)
        self.stand_in("exit 0")
        empty = os.path.join(self.room, "empty")
        os.mkdir(empty)
        for folder, path, wanted in [(self.room, "/usr/bin:/bin", "set MPWB"), (empty, f"{self.room}:/usr/bin:/bin", "/mpwb"), (empty, "/usr/bin:/bin", "set MPWB")]:
            env = {"PATH": path, "PYTHONPATH": os.path.dirname(place), "HOME": self.room}
            run = subprocess.run([sys.executable, "-c", code], env=env, cwd=folder, stdout=subprocess.PIPE, text=True, check=True)
            self.assertIn(wanted, run.stdout)


class Memory(Case):
    @unittest.skipIf(find_program().path == os.path.join(TOP, "mpwb"), "the script bounds memory itself: MPWB names the compiled program")
    def test_want_of_memory(self) -> None:
        n = Netlist(65_536)
        for number in range(400):
            n.not_(f"m{number}", n.wire(f"w{number}"), out=f"w{number}")
        script = f"#!/bin/bash\nulimit -v 60000\nexec {find_program().path} \"$@\"\n"
        with tempfile.TemporaryDirectory() as room:
            bounded = os.path.join(room, "bounded")
            with open(bounded, "w", encoding="utf-8") as file:
                file.write(script)
            os.chmod(bounded, 0o755)
            n.program = Program(bounded)
            self.assertEqual(4, self.fault(OutOfMemory, n.waves).status)
            self.fault(OutOfMemory, lambda: Session(n))


class Exceptions(Case):
    def test_each_goes_to_another_process(self) -> None:
        faults = [
            Refused(21, "InBatch", statement="batch a ; b", place=2, reason=Refused(8, "BadDelay"), made_at=("f.py", 3)),
            Unread(3, "WordCount", line=4, word="", meaning="a word is missing"),
            UnknownName(3, "NoSuchWire", word="q"),
            AnswerError("waves", "what"),
            OutOfMemory("it ran out", 4, "mpwb: out of memory"),
            BrokenPipe("it has gone"),
            SystemFailed(2, "No such file or directory", "nothing.net"),
            NoSeat("nobody"),
        ]
        for fault in faults:
            again = pickle.loads(pickle.dumps(fault))
            self.assertEqual((type(fault), str(fault)), (type(again), str(again)))
        self.assertIn("at the end of the line", str(faults[1]))
        self.assertIn("at 'q'", str(faults[2]))


class Commands(Case):
    def test_help_lists_the_commands(self) -> None:
        self.assertLessEqual({"waves", "report", "check", "dump", "show", "why", "path", "waits", "measure", "graph", "verilog", "play", "desk"}, commands())


def _set(name: str, value: Optional[str]) -> None:
    if value is None:
        os.environ.pop(name, None)
    else:
        os.environ[name] = value
