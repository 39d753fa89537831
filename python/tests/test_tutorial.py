"""The tutorial: its Python runs in an empty folder, block after block, and prints what stands below each."""

from __future__ import annotations

import importlib.util
import os
import re
import subprocess
import sys
import tempfile
from typing import Iterator, List, Tuple

from nesthrim import find_program
from tests.support import TOP, Case

# a block, and what it prints if a block of text follows
_BLOCK = re.compile(r"^```python\n(.*?)^```\n(?:\n^```\n(.*?)^```\n)?", re.MULTILINE | re.DOTALL)
# one that needs a package, and is a program of its own
_NEEDS = re.compile(r"^```python needs (\w+)\n(.*?)^```\n\n^```\n(.*?)^```\n", re.MULTILINE | re.DOTALL)
_MARK = "======== the next block"
# what `pytest` does with a file of tests
_RUN_TESTS = """
for name, test in list(globals().items()):
    if name.startswith("test_"):
        test()
"""


def readme() -> str:
    with open(os.path.join(TOP, "python", "README.md"), encoding="utf-8") as file:
        return file.read()


def blocks() -> Iterator[Tuple[str, str]]:
    """The blocks of the tutorial with what they print. The tests of one that has tests are run."""
    for found in _BLOCK.finditer(readme()):
        yield found[1] + (_RUN_TESTS if "def test_" in found[1] else ""), found[2] or ""


class Tutorial(Case):
    def test_each_block_prints_what_stands_below_it(self) -> None:
        every = list(blocks())
        found = self.printed([code for code, _ in every])
        self.assertEqual(len(every), len(found))
        for (code, printed), text in zip(every, found):
            self.assertEqual(printed, text, code)

    def test_blocks_that_need_a_package(self) -> None:
        needing = list(_NEEDS.findall(readme()))
        self.assertEqual(["networkx"], [package for package, _, _ in needing])
        for package, code, printed in needing:
            if importlib.util.find_spec(package):
                self.assertEqual([printed], self.printed([code]))

    def printed(self, codes: List[str]) -> List[str]:
        """What each block prints in a program of all of them."""
        script = f"\nprint({_MARK!r})\n".join(codes)
        with tempfile.TemporaryDirectory() as folder:
            env = {**os.environ, "PYTHONPATH": os.path.join(TOP, "python"), "MPWB": find_program().path}
            how = {"cwd": folder, "env": env, "stdout": subprocess.PIPE, "encoding": "utf-8"}
            run = subprocess.run([sys.executable, "-X", "utf8", "-c", script], check=True, **how)  # type: ignore[call-overload]
        return [text for text in str(run.stdout).split(f"{_MARK}\n")]
