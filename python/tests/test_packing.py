"""What pip installs."""

from __future__ import annotations

import base64
import hashlib
import os
import subprocess
import sys
import tarfile
import tempfile
import unittest
import venv
import zipfile
from typing import Dict, List

import nesthrim
import packing
from tests.support import TOP, Case

try:
    import ensurepip
except ImportError:
    ensurepip = None  # type: ignore[assignment]


class Packing(Case):
    def setUp(self) -> None:
        room = tempfile.TemporaryDirectory()
        self.addCleanup(room.cleanup)
        self.room = room.name

    def wheel(self) -> Dict[str, bytes]:
        with zipfile.ZipFile(os.path.join(self.room, packing.build_wheel(self.room))) as archive:
            self.assertIsNone(archive.testzip())
            return {name: archive.read(name) for name in archive.namelist()}

    def test_a_wheel_has_each_module(self) -> None:
        files = self.wheel()
        modules = {os.path.relpath(os.path.join(at, name), packing.TOP) for at, _, names in os.walk(f"{packing.TOP}/nesthrim") for name in names}
        self.assertEqual({name for name in modules if "__pycache__" not in name}, {name for name in files if name.startswith("nesthrim/")})
        self.assertIn("nesthrim/answers/causes.py", files)
        self.assertIn("nesthrim/py.typed", files)

    def test_the_record_of_a_wheel(self) -> None:
        files = self.wheel()
        about = f"nesthrim-{nesthrim.__version__}.dist-info"
        lines = [line.split(",") for line in files[f"{about}/RECORD"].decode().splitlines()]
        self.assertEqual(sorted(files), sorted(name for name, _, _ in lines))
        for name, digest, size in lines:
            if name != f"{about}/RECORD":
                wanted = base64.urlsafe_b64encode(hashlib.sha256(files[name]).digest()).decode().rstrip("=")
                self.assertEqual((f"sha256={wanted}", str(len(files[name]))), (digest, size))

    def test_sources(self) -> None:
        with tarfile.open(os.path.join(self.room, packing.build_sdist(self.room))) as archive:
            archive.extractall(self.room)
        top = os.path.join(self.room, f"nesthrim-{nesthrim.__version__}")
        # (what is made of them is the same wheel)
        code = "import os, sys; sys.path.insert(0, os.getcwd()); import packing; print(packing.build_wheel(sys.argv[1]))"
        made = subprocess.run([sys.executable, "-c", code, self.room], cwd=top, stdout=subprocess.PIPE, text=True, check=True).stdout.strip()
        with open(os.path.join(self.room, made), "rb") as file:
            found = file.read()
        with open(os.path.join(self.room, packing.build_wheel(self.room)), "rb") as file:
            self.assertEqual(file.read(), found)

    @unittest.skipIf(ensurepip is None, "this Python has no ensurepip")
    def test_pip_in_a_fresh_environment(self) -> None:
        place = os.path.join(self.room, "fresh")
        venv.create(place, with_pip=True)
        python = os.path.join(place, "bin", "python")
        install = [python, "-m", "pip", "install", "--quiet", "--disable-pip-version-check", "--no-index", "--no-build-isolation"]
        ways: List[List[str]] = [[], ["--editable"]]
        for way in ways:
            subprocess.run([*install, *way, os.path.join(TOP, "python")], check=True, cwd=self.room, stdin=subprocess.DEVNULL)
            code = "import nesthrim; print(nesthrim.__file__, nesthrim.__version__)"
            run = subprocess.run([python, "-c", code], check=True, cwd=self.room, stdout=subprocess.PIPE, text=True)
            path, version = run.stdout.split()
            self.assertEqual(nesthrim.__version__, version)
            self.assertEqual(bool(way), path.startswith(TOP))
            listed = subprocess.run([python, "-m", "pip", "--disable-pip-version-check", "show", "nesthrim"], check=True, stdout=subprocess.PIPE, text=True)
            self.assertIn(f"Version: {nesthrim.__version__}\n", listed.stdout)
