"""A day at a live desk as a document tells it: what is typed at terminals, and what they show."""
import os
import re
import shlex
import signal
import time

from desk_script import SCRIPT, TOP, UTF8, ScriptDesk, run
from seat_checks import SECONDS, Wrong, expect
from terminal import CLEAR, Terminal, screen


def turns(document):
    """What is typed in a document, with where it is typed and what is shown for it."""
    found = []
    with open(f"{TOP}/{document}", encoding="utf-8") as file:
        for line in file.read().splitlines():
            if re.match(r"    [a-z]+(-\d)? +\S", line):
                where, typed = line.split(None, 1)
                found.append((where, typed, []))
            elif line.startswith("     "):
                found[-1][2].append(line.strip())
    return found


class Day:
    """The terminals of a day, by their names, over a folder that stands for `meeting`."""

    def __init__(self, at, first):
        self.at = at
        self.terminals = {}
        for where, command in first:
            self.start(where, command)

    def here(self, command):
        return [SCRIPT if word == "./mpwb" else word.replace("meeting", self.at) for word in shlex.split(command)]

    def start(self, where, command):
        self.terminals[where] = Terminal(*self.here(command), env=UTF8)
        if where == "desk":
            # (the others need its folder)
            end = time.monotonic() + 30
            while run("ask", self.at, "viewer-2", "version")[0] and time.monotonic() < end:
                time.sleep(0.05)

    def turn(self, where, typed, shown):
        what = f"{where}: {typed}"
        if where == "shell":
            _, written, said = run(*self.here(typed)[1:])
            expect(what, shown, self.lines(written + said))
        elif typed == "(kill -9)":
            os.kill(ScriptDesk.program_of(self.terminals["desk"].run), signal.SIGKILL)
        elif typed == "(Ctrl-D)":
            self.terminals[where].end_input()
            expect(what, 0, self.terminals[where].end()[1])
        elif typed == "(Ctrl-C)" and where != "desk":
            self.terminals[where].interrupt()
            expect(what, 0, self.terminals[where].end()[1])
        else:
            self.type(where, typed)
            self.look(what, where, shown)

    def type(self, where, typed):
        if typed.startswith("./mpwb"):
            self.start(where, typed)
        elif typed == "(Ctrl-C)":
            self.terminals[where].interrupt()
        elif typed != "(shows)":
            self.terminals[where].shown = ""
            self.terminals[where].type(f"{typed}\n")

    def look(self, what, where, shown):
        """Waits until a terminal shows these lines: the last ones of what came, or of its screen."""
        came, end = [], time.monotonic() + SECONDS
        while time.monotonic() < end:
            is_more = self.terminals[where].add(0.2)
            came = self.lines("\n".join(screen(self.terminals[where].shown)))
            if came[len(came) - len(shown) :] == shown:
                break
            if not is_more and self.terminals[where].run.poll() is not None:
                raise Wrong(f"{what}: {shown} was wanted, and {came} shown")
        else:
            raise Wrong(f"{what}: {shown} was wanted, and {came} shown")
        if shown and shown[-1].startswith("accepted") and "viewer-1" in self.terminals:
            # (the next edit is made when this one was looked at)
            self.terminals["viewer-1"].until(f"{CLEAR}\x1b[?7lversion {shown[-1].split()[1]} ", keep=True)

    def lines(self, text):
        """The lines of what is shown, without the names of seats before them."""
        found = [re.sub(r"^((designer|viewer)-\d> ?)+", "", line.replace(self.at, "meeting").strip()) for line in text.splitlines()]
        return [line for line in found if line]

    def __enter__(self):
        return self

    def __exit__(self, *what):
        for terminal in self.terminals.values():
            terminal.kill()


def commands(document):
    """The terminals that a document names, with the command that is typed first in each."""
    with open(f"{TOP}/{document}", encoding="utf-8") as file:
        return re.findall(r"(?m)^\| `(\S+)` \| `(.*)` \|$", file.read())


def as_documented(document, at):
    with Day(at, commands(document)) as day:
        for where, typed, shown in turns(document):
            day.turn(where, typed, shown)
