"""A live desk that the script `./mpwb desk` serves, and those who come to it by the script."""
import contextlib
import os
import shutil
import signal
import subprocess
import tempfile
import time

from seat_checks import SECONDS, Wrong, expect
from terminal import Terminal

TOP = os.path.dirname(os.path.dirname(os.path.abspath(__file__)))
SCRIPT = f"{TOP}/mpwb"
NETLIST = f"{TOP}/examples/two-stage-control.net"
OPENS = """mpwb: to take a seat, run ./mpwb join {} designer-1
mpwb: type seats to list the seats; Ctrl-C ends the desk
"""
ENDS = "mpwb: the desk ends when everybody has left; another interrupt ends it at once\n"
KILLED = "mpwb: the desk was killed; its accepted edits are kept in {}\n"
GREETING = "mpwb: {} is yours until Ctrl-D; ./mpwb play --help lists what to type\n"
UTF8 = {**os.environ, "LC_ALL": "C.UTF-8"}
BEGUN = "mpwb: {} edits of {}/edits are made again\n"
CUT = "mpwb: the last line of {}/edits has no line feed and is cut off: nobody was told that it was accepted\n"


def run(*words, given="", **how):
    """Exit status, standard output and standard error of a run of the script."""
    found = subprocess.run([SCRIPT, *words], input=given, capture_output=True, text=True, timeout=SECONDS, check=False, **how)
    return found.returncode, found.stdout, found.stderr


def read(path):
    with open(path, encoding="utf-8") as file:
        return file.read()


def until(what, holds):
    """Waits until something holds."""
    end = time.monotonic() + SECONDS
    while not holds():
        if time.monotonic() > end:
            raise Wrong(f"{what} doesn't come")
        time.sleep(0.01)


class ScriptDesk:
    """A desk at a terminal, in a folder that is there afterwards too. It is killed when its `with` ends."""

    def __init__(self, folder, netlist=NETLIST, words=(), begun=""):
        self.folder = folder
        self.terminal = Terminal(SCRIPT, "desk", netlist, "--at", folder, *words)
        try:
            self.terminal.type("# nothing\nversion\n")
            shown = self.terminal.until("version ")
            self.terminal.until("\n")
            expect("what the desk shows first", OPENS.format(folder) + begun, shown)
        except BaseException:
            self.terminal.kill()
            raise

    def program(self):
        """The process of the program."""
        return ScriptDesk.program_of(self.terminal.run)

    @staticmethod
    def program_of(script):
        children = read(f"/proc/{script.pid}/task/{script.pid}/children").split()
        return next(int(child) for child in children if os.path.basename(os.readlink(f"/proc/{child}/exe")) != "cat")

    def signal(self, number):
        self.terminal.run.send_signal(number)

    def __enter__(self):
        return self

    def __exit__(self, *what):
        self.terminal.kill()


@contextlib.contextmanager
def folder():
    """The path of a folder for a desk, which isn't there yet."""
    with tempfile.TemporaryDirectory() as room:
        yield f"{room}/meeting"


def started(*words, before=lambda: None):
    """A run of the script with pipes, which an interrupt reaches. What comes before it is done in its process."""

    def begin():
        for stop in (signal.SIGINT, signal.SIGHUP):  # (`nohup` has hangups ignored)
            signal.signal(stop, signal.SIG_DFL)
        before()

    how = {"stdin": subprocess.PIPE, "stdout": subprocess.PIPE, "stderr": subprocess.PIPE}
    return subprocess.Popen([SCRIPT, *words], bufsize=0, start_new_session=True, preexec_fn=begin, **how)


@contextlib.contextmanager
def begun(at, **how):
    """A run of the script that serves a desk. It is killed when its `with` ends."""
    desk = started("desk", NETLIST, "--at", at, **how)
    try:
        desk.stdin.write(b"version\n")
        expect("the desk", b"version 0\n", desk.stdout.readline())
        yield desk
    finally:
        desk.kill()
        desk.wait()


def edited(path):
    """Puts a copy in the place of a file, as many editors do."""
    shutil.copy(path, f"{path}.new")
    os.rename(f"{path}.new", path)
