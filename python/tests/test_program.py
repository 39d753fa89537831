"""Which program answers where the script `./mpwb` is named, and what it runs in."""

from __future__ import annotations

import os
import tempfile
import time
import unittest
from unittest import mock

from nesthrim import Program, built
from tests.support import TOP, Case, example

SCRIPT = "#!/bin/sh\necho script \"$@\"\n"
PROGRAM = "#!/bin/sh\necho program \"$@\" $(ulimit -v) \"$GLIBC_TUNABLES\"\n"


class Checkouts(Case):
    """Stand-ins for a checkout, whose script and whose program say which of them runs."""

    def setUp(self) -> None:
        room = tempfile.TemporaryDirectory()
        self.addCleanup(room.cleanup)
        self.top = room.name
        change = mock.patch.dict(os.environ)
        change.start()
        self.addCleanup(change.stop)
        for name in ("MPWB_MEMORY", "GLIBC_TUNABLES"):
            os.environ.pop(name, None)
        self.write("mpwb", SCRIPT)
        self.write("launcher/words.sh", "")

    def write(self, name: str, text: str) -> str:
        path = os.path.join(self.top, name)
        os.makedirs(os.path.dirname(path), exist_ok=True)
        with open(path, "w", encoding="utf-8") as file:
            file.write(text)
        os.chmod(path, 0o755)
        return path

    def checkout(self) -> Program:
        """A checkout with three crates, one of which the program doesn't need, and a program that is newer than all sources."""
        self.write("crates.txt", "# from the lowest\nlow   :\nother: low\nmpwb: low\n")
        for crate in ("low", "other", "mpwb"):
            self.write(f"crates/{crate}/src/a/b.rs", "")
        path = self.write("crates/mpwb/out/mpwb", PROGRAM)
        os.utime(path, (time.time() + 100, time.time() + 100))
        return Program(os.path.join(self.top, "mpwb"))

    def make_newer(self, name: str) -> None:
        os.utime(os.path.join(self.top, name), (time.time() + 200, time.time() + 200))

    def first_word(self, program: Program, *words: str) -> str:
        return program.run(words or ["waves"]).written.split()[0]

    def test_the_program_answers_where_it_is_current(self) -> None:
        program = self.checkout()
        with open("/proc/meminfo", encoding="ascii") as file:
            total = int(file.readline().split()[1])
        self.assertEqual(f"program waves --workers=2 {total * 9 // 10} glibc.malloc.hugetlb=1\n", program.run(["waves", "--workers=2"]).written)
        self.make_newer("crates/other/src/a/b.rs")
        with mock.patch.object(built, "_SECONDS", 0.0):
            self.assertEqual("program", self.first_word(program))

    def test_the_script_answers_where_a_source_is_newer(self) -> None:
        for newer in ("crates.txt", "crates/low/src/a/b.rs", "crates/mpwb/src/a", "crates/low/src"):
            with self.subTest(newer), mock.patch.object(built, "_SECONDS", 0.0):
                program = self.checkout()
                self.assertEqual("program", self.first_word(program))
                before = os.stat(os.path.join(self.top, newer))
                self.make_newer(newer)
                self.assertEqual("script", self.first_word(program))
                os.utime(os.path.join(self.top, newer), ns=(before.st_atime_ns, before.st_mtime_ns))

    def test_the_script_answers_where_nothing_is_built(self) -> None:
        program = self.checkout()
        os.remove(os.path.join(self.top, "crates/mpwb/out/mpwb"))
        self.assertEqual("script", self.first_word(program))

    def test_sources_are_looked_at_again(self) -> None:
        program = self.checkout()
        self.assertEqual("program", self.first_word(program))
        self.make_newer("crates/low/src/a/b.rs")
        until = time.monotonic() + 10
        while self.first_word(program) == "program" and time.monotonic() < until:
            time.sleep(0.05)
        self.assertEqual("script", self.first_word(program))

    def test_what_is_the_script_s_own(self) -> None:
        program = self.checkout()
        for line in ("--help", "desk --at=meeting", "help waves", "ask meeting viewer-1 text", "page", ""):
            self.assertEqual(f"script {line}".strip() + "\n", program.run(line.split()).written)

    def test_a_bound_and_tunables_of_one_s_own(self) -> None:
        program = self.checkout()
        os.environ.update(MPWB_MEMORY="100", GLIBC_TUNABLES="glibc.malloc.check=0")
        self.assertEqual("program waves 102400 glibc.malloc.check=0\n", program.run(["waves"]).written)
        os.environ.update(MPWB_MEMORY="", GLIBC_TUNABLES="")
        self.assertRegex(program.run(["waves"]).written, r"\Aprogram waves \d+ \n\Z")
        # (the script says what is wrong with a bound)
        for memory in ("7", "a lot", "-100", "1e3", " 100", "100\n"):
            os.environ["MPWB_MEMORY"] = memory
            self.assertEqual("script", self.first_word(program))

    def test_a_bound_that_holds_isn_t_raised(self) -> None:
        self.checkout()
        bounded = self.write("bounded", f"#!/bin/sh\nulimit -v 300000\nexec python3 -c '{ASK}' {self.top}/mpwb\n")
        os.environ.update(PYTHONPATH=os.path.join(TOP, "python"), MPWB_MEMORY="1000")
        self.assertEqual("program waves 300000 glibc.malloc.hugetlb=1\n", Program(bounded).run([]).written)

    def test_an_installed_copy(self) -> None:
        self.write("bin/mpwb", PROGRAM)
        os.symlink(os.path.join(self.top, "mpwb"), os.path.join(self.top, "link"))
        self.assertEqual("program", self.first_word(Program(os.path.join(self.top, "link"))))

    def test_another_script(self) -> None:
        program = self.checkout()
        os.remove(os.path.join(self.top, "launcher/words.sh"))
        os.rmdir(os.path.join(self.top, "launcher"))
        self.assertEqual("script", self.first_word(program))


ASK = "import sys, nesthrim; print(nesthrim.Program(sys.argv[1]).run([\"waves\"]).written, end=\"\")"


class ThisCheckout(Case):
    @unittest.skipIf(built._look(TOP) is None, "the program of this checkout isn't built, or a source is newer")
    def test_the_script_itself_doesn_t_run(self) -> None:
        with mock.patch.dict(os.environ, PATH="/nowhere"):
            self.assertEqual(0, Program(os.path.join(TOP, "mpwb")).run(["waves"], example("two-stage-control.net")).status)
