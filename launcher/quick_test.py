"""The quick test: `quick_test.py FOLDER PROGRAM NAME..` runs the tests of these names in FOLDER over PROGRAM, side by side.

Each ends with a line `N passed, M failed`. What they write is shown one after the other, and the last line has the sums. A test that ends in another
way, or with a status that its last line doesn't say, counts as one more that failed.
"""

from __future__ import annotations

import os
import re
import signal
import subprocess
import sys
import tempfile
from typing import IO, Dict, Tuple

LAST_LINE = re.compile(r"(?:^|\n)(\d+) passed, (\d+) failed\n$")


class Test:
    """A test that runs."""

    def __init__(self, path: str, program: str) -> None:
        self.written: IO[str] = tempfile.TemporaryFile("w+", errors="replace")
        env = {**os.environ, "MPWB": program}
        self.process = subprocess.Popen([path], stdin=subprocess.DEVNULL, stdout=self.written, stderr=subprocess.STDOUT, env=env)

    def ended(self) -> str:
        """What it wrote, once it has ended."""
        self.process.wait()
        self.written.seek(0)
        return self.written.read()

    def end(self) -> None:
        if self.process.poll() is None:
            self.process.terminate()


def counted(written: str, status: int) -> Tuple[int, int]:
    """How many passed and how many failed, by what a test wrote and its status."""
    found = LAST_LINE.search(written)
    if not found:
        return 0, 1
    passed, failed = int(found[1]), int(found[2])
    return passed, failed if (failed > 0) == (status != 0) else failed + 1


def run(tests: Dict[str, Test]) -> int:
    """Shows what the tests write and the sums, and returns the exit status."""
    all_passed, all_failed = 0, 0
    for name, test in tests.items():
        print(f"== {name}\n{test.ended()}", end="", flush=True)
        passed, failed = counted(test.ended(), test.process.returncode)
        all_passed, all_failed = all_passed + passed, all_failed + failed
    print(f"{all_passed} passed, {all_failed} failed")
    return 1 if all_failed else 0


def main(folder: str, program: str, *names: str) -> int:
    signal.signal(signal.SIGTERM, lambda number, _: sys.exit(128 + number))
    tests: Dict[str, Test] = {}
    try:
        for name in names:
            tests[name] = Test(f"{folder}/{name}", program)
        return run(tests)
    except KeyboardInterrupt:
        return 130
    finally:
        for test in tests.values():
            test.end()


if __name__ == "__main__":
    sys.exit(main(*sys.argv[1:]))
