"""A program at a terminal: what is typed there, and what is shown."""
import fcntl
import os
import pty
import re
import select
import signal
import struct
import subprocess
import termios
import time

from seat_checks import SECONDS, Wrong

CONTROL = re.compile(r"\x1b\[\?*[0-9;]*[A-Za-z]")
CLEAR = "\x1b[H\x1b[J"  # begins a screen


class Terminal:
    """A run of a program at a terminal of its own, whose interrupts reach it."""

    def __init__(self, *words, columns=80, rows=24, env=None, term="xterm"):
        self.ours, theirs = pty.openpty()
        fcntl.ioctl(theirs, termios.TIOCSWINSZ, struct.pack("4H", rows, columns, 0, 0))
        settings = termios.tcgetattr(theirs)
        settings[3] &= ~termios.ECHO
        settings[1] &= ~termios.OPOST
        termios.tcsetattr(theirs, termios.TCSANOW, settings)

        def take_terminal():
            fcntl.ioctl(0, termios.TIOCSCTTY, 0)
            for stop in (signal.SIGINT, signal.SIGHUP):  # (`nohup` has hangups ignored)
                signal.signal(stop, signal.SIG_DFL)

        env = {**(os.environ if env is None else env), "TERM": term}
        self.run = subprocess.Popen(words, stdin=theirs, stdout=theirs, stderr=theirs, env=env, start_new_session=True, preexec_fn=take_terminal)
        os.close(theirs)
        self.shown = ""

    def type(self, text):
        os.write(self.ours, text.encode())

    def interrupt(self):
        self.type("\x03")

    def end_input(self):
        self.type("\x04")

    def add(self, seconds):
        """Adds what is shown within some seconds. False if nothing comes."""
        if self.ours is None or not select.select([self.ours], [], [], seconds)[0]:
            return False
        try:
            more = os.read(self.ours, 65_536)
        except OSError:  # nobody has the terminal any more
            return False
        self.shown += more.decode()
        return bool(more)

    def until(self, text, seconds=SECONDS, keep=False):
        """What is shown up to a text, which is passed over too, if nothing is kept."""
        end = time.monotonic() + seconds
        while text not in self.shown:
            left = end - time.monotonic()
            if left <= 0 or not self.add(left):
                raise Wrong(f"{text!r} isn't shown, but {self.shown!r}")
        before, after = self.shown.split(text, 1)
        if not keep:
            self.shown = after
        return before

    def hang_up(self):
        """Closes the terminal."""
        os.close(self.ours)
        self.ours = None

    def end(self):
        """What is shown up to the end of the run, and its status."""
        end = time.monotonic() + SECONDS
        while self.add(max(0, end - time.monotonic())):
            pass
        shown, self.shown = self.shown, ""
        return shown, self.run.wait(max(0.1, end - time.monotonic()))

    def kill(self):
        self.run.kill()
        self.run.wait()
        if self.ours is not None:
            self.hang_up()


def screen(text):
    """The lines of what stands on a screen that was shown."""
    return CONTROL.sub("", text.rsplit(CLEAR, 1)[-1]).splitlines()
