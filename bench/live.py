"""A live desk, and people who come to it by named pipes, write lines and read what they are answered."""
import contextlib
import errno
import os
import select
import subprocess
import tempfile
import threading
import time

from seat_checks import SECONDS, Played, Wrong, check_all, edits_of, expect

MARK = "version 0"  # a line that isn't read, and what it is answered
MARKED = "unread 3 WordCount"


class Unserved(Wrong):
    """Nobody serves a seat."""


class Unanswered(Wrong):
    """A line has no answer yet."""


class Left(Wrong):
    """The desk has left a seat."""


class Seat:
    """Somebody at a seat, who writes a line and waits for its answer before the next one."""

    def __init__(self, folder, name, seconds=SECONDS):
        self.name = name
        self.seconds = seconds
        self.log = []  # lines with their replies
        self.waiting = b""
        self.output, self.input = opened(os.path.join(folder, name), seconds)

    def write(self, line):
        os.write(self.input, line)

    def has_more(self, seconds):
        """Whether bytes or the end come in so many seconds."""
        poll = select.poll()
        poll.register(self.output, select.POLLIN)
        return bool(poll.poll(seconds * 1000))

    def take(self):
        """Some bytes; none at the end."""
        while self.has_more(self.seconds):
            # (where the desk leaves and serves the same pipes again, there may be nothing)
            with contextlib.suppress(BlockingIOError):
                return os.read(self.output, 65536)
        raise Unanswered(f"{self.name} isn't answered")

    def line(self):
        """The next line of what is answered."""
        while b"\n" not in self.waiting:
            more = self.take()
            if not more:
                raise Left(f"{self.name} is left")
            self.waiting += more
        line, self.waiting = self.waiting.split(b"\n", 1)
        return line.decode()

    def ask(self, line, count=1):
        """The reply to a line, which has so many lines."""
        self.write(line.encode() + b"\n")
        reply = [self.line() for _ in range(count)]
        self.log.append((line, reply))
        return reply

    def ask_all(self, line):
        """The reply to a line, which has any number of lines: they are read up to the answer to another one."""
        self.write(line.encode() + b"\n")
        self.write(MARK.encode() + b"\n")
        reply = []
        while not reply or reply[-1] != MARKED:
            reply.append(self.line())
        self.log.append((line, reply[:-1]))
        self.log.append((MARK, reply[-1:]))
        return reply[:-1]

    def leave(self):
        """Ends the input, and waits until the desk has left the seat too. What comes still is returned."""
        os.close(self.input)
        rest = self.waiting
        while more := self.take():
            rest += more
        os.close(self.output)
        return rest.decode()

    def __enter__(self):
        return self

    def __exit__(self, *what):
        os.close(self.input)
        os.close(self.output)


def opened(seat, seconds):
    """The ends of a seat's pipes: to read what is answered, and to write."""
    while True:
        output = os.open(f"{seat}.out", os.O_RDONLY | os.O_NONBLOCK)
        there = lambda output=output: os.path.samestat(os.fstat(output), os.stat(f"{seat}.out"))  # noqa: E731
        given = opened_to_write(f"{seat}.in", seconds, there)
        if given is not None and there():
            return output, given
        # (when somebody leaves, the desk puts another pipe into the place of the output)
        for end in (output, given):
            if end is not None:
                os.close(end)


def opened_to_write(path, seconds, holds=lambda: True):
    """The end of a pipe to write to, once somebody reads there, in so many seconds at most. None where something doesn't hold before."""
    until = time.monotonic() + seconds
    while True:
        try:
            end = os.open(path, os.O_WRONLY | os.O_NONBLOCK)
            os.set_blocking(end, True)
            return end
        except OSError as error:
            if error.errno != errno.ENXIO or time.monotonic() > until:
                raise Unserved(f"nobody reads {path}") from error
            if not holds():
                return None
            time.sleep(0.001)


class Desk:
    """A desk on a netlist, with its pipes in a folder."""

    def __init__(self, program, netlist, folder, designers, viewers, make=True, more=(), **how):
        self.folder = folder
        self.names = [f"designer-{j + 1}" for j in range(designers)] + [f"viewer-{j + 1}" for j in range(viewers)]
        if make:
            for name in self.names:
                os.mkfifo(os.path.join(folder, f"{name}.in"))
                os.mkfifo(os.path.join(folder, f"{name}.out"))
            # (those who come to a seat read from two pipes by turns)
            os.mkdir(os.path.join(folder, ".desk"))
            for name in self.names:
                os.mkfifo(os.path.join(folder, ".desk", f"{name}.spare"))
        words = ["desk", netlist, "--at", folder, "--designers", str(designers), "--viewers", str(viewers), *more]
        self.log = []
        self.asking = threading.Lock()
        self.run = subprocess.Popen([program, *words], stdin=subprocess.PIPE, stdout=subprocess.PIPE, stderr=subprocess.PIPE, **how)
        self.timer = threading.Timer(4 * SECONDS, self.run.kill)
        self.timer.start()

    def ask(self, line, count=1):
        """The reply to a line of the desk's own, which has so many lines."""
        self.run.stdin.write(line.encode() + b"\n")
        self.run.stdin.flush()
        reply = [self.run.stdout.readline().decode().removesuffix("\n") for _ in range(count)]
        self.log.append((line, reply))
        return reply

    def ask_all(self, line):
        self.run.stdin.write(f"{line}\n{MARK}\n".encode())
        self.run.stdin.flush()
        reply = []
        while not reply or reply[-1] != MARKED:
            came = self.run.stdout.readline()
            if not came:
                raise Wrong("the desk is gone")
            reply.append(came.decode().removesuffix("\n"))
        self.log.append((line, reply[:-1]))
        return reply[:-1]

    def seats(self):
        """Who is there: of each seat, whether it is taken."""
        with self.asking:
            self.run.stdin.write(b"seats\n")
            self.run.stdin.flush()
            told = [self.run.stdout.readline().decode().split() for _ in self.names]
        expect("the seats", self.names, [words[0] for words in told])
        return {words[0]: {"taken": True, "free": False}[words[1]] for words in told}

    def wait_until(self, name, taken):
        until = time.monotonic() + SECONDS
        while self.seats()[name] != taken:
            if time.monotonic() > until:
                raise Wrong(f"{name} stays as it was")
            time.sleep(0.005)

    def close_input(self):
        with contextlib.suppress(BrokenPipeError):
            self.run.stdin.close()

    def end(self):
        """What the desk writes at its end, once its own input has ended and all seats are left."""
        written = self.run.stdout.read().decode().splitlines()
        fault = self.run.stderr.read().decode()
        status = self.run.wait()
        self.timer.cancel()
        return written, fault, status

    def kill(self):
        self.timer.cancel()
        self.run.kill()
        self.run.wait()


class Meeting:
    """A desk on a netlist in a folder of its own, and what was said at its seats."""

    def __init__(self, program, netlist, designers, viewers, **how):
        self.program = program
        self.netlist = netlist
        self.folder = tempfile.TemporaryDirectory()
        self.desk = Desk(program, netlist, self.folder.name, designers, viewers, **how)
        self.logs = {name: [] for name in self.desk.names}

    def seat(self, name):
        """Somebody who takes a seat, which may have been taken before."""
        seat = Seat(self.folder.name, name)
        self.logs[name].append(seat.log)
        return seat

    def leave(self, seat):
        """Leaves a seat, so that it can be taken again. What comes still is returned."""
        rest = seat.leave()
        self.desk.wait_until(seat.name, taken=False)
        return rest

    def end(self, refused=0):
        """Ends the desk, and checks all that was said. So many lines of designers that aren't in the logs were not read."""
        edits = edits_of(self.desk.ask_all("edits 1"))
        self.desk.close_input()
        return self.check_end(edits, refused)

    def check_end(self, edits, refused=0):
        """Checks all that was said, where the desk's own input has ended, all seats are left, and these edits were accepted."""
        written, fault, status = self.desk.end()
        expect("what the desk tells of its end", ("", 0), (fault, status))
        logs = {name: [line for log in parts for line in log] for name, parts in self.logs.items()}
        check_all(Played(self.program, self.netlist, edits), logs, written, refused)
        self.folder.cleanup()
        return written

    def end_input(self, last):
        """Ends the desk's own input, and waits until the desk has told the seats of it. The last seat is free."""
        self.desk.close_input()
        # (nobody else reads what the seat is answered)
        os.close(opened_to_write(os.path.join(self.folder.name, f"{last}.out"), SECONDS))

    def __enter__(self):
        return self

    def __exit__(self, *what):
        self.desk.kill()


def at_once(parts):
    """Runs each of the parts on a thread of its own. The first fault is told."""
    faults = []

    def run(part):
        try:
            part()
        except Exception as fault:  # it is told by the thread that waits
            faults.append(fault)

    threads = [threading.Thread(target=run, args=(part,)) for part in parts]
    for thread in threads:
        thread.start()
    for thread in threads:
        thread.join()
    if faults:
        raise faults[0]


LONG = 400_000
LONG_EDIT = "stim a 1=1 3=0"  # the rings rest for two units, and then run on, so all of them are evaluated again


def long_netlist(folder, horizon=LONG):
    """A netlist whose evaluation takes a while: rings that run to the end of a long horizon where `a` is 0, and rest where it is 1."""
    path = os.path.join(folder, "long.net")
    with open(path, "w", encoding="ascii") as file:
        file.write(f"format 2\nhorizon {horizon}\nwire a 1 0\n")
        for ring in range(8):
            file.write(f"wire w{ring} 1 0\nwire x{ring} 1 0\nmodule n{ring} XOR : w{ring} a > x{ring}/1\nmodule m{ring} NOT : x{ring} > w{ring}/1\n")
    return path
