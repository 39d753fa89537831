"""Runs a program with a library before the C library in which what a journal is asked for waits (`waiting.c`, which `cc` compiles)."""
import os
import subprocess

from desk_script import until

HERE = os.path.dirname(os.path.abspath(__file__))


class Waiting:
    """The library in a folder, and whether a write of the journal waits there, or a sync."""

    def __init__(self, folder):
        self.folder = folder
        self.library = f"{folder}/waiting.so"
        subprocess.run(["cc", "-O1", "-shared", "-fPIC", f"{HERE}/waiting.c", "-o", self.library, "-ldl"], check=True)

    def environment(self):
        return {**os.environ, "LD_PRELOAD": self.library, "WAITING_WRITE": f"{self.folder}/write", "WAITING_SYNC": f"{self.folder}/sync"}

    def hold(self, kind):
        """From now on each `write` or each `sync` of a journal waits."""
        with open(f"{self.folder}/{kind}", "w", encoding="ascii"):
            pass

    def release(self, kind):
        os.remove(f"{self.folder}/{kind}")
        os.remove(f"{self.folder}/{kind}.begun")

    def until_held(self, kind):
        """Waits until one waits."""
        until(f"a {kind} of the journal", lambda: os.path.exists(f"{self.folder}/{kind}.begun"))
