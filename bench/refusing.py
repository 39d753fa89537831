"""Runs the program with a library before the C library that refuses memory, threads, reads, writes or random numbers (`refusing.c`, which `cc`
compiles)."""
import dataclasses
import os
import signal
import struct
import subprocess

HERE = os.path.dirname(os.path.abspath(__file__))
SECONDS = 60

# what can be refused, and how a read or a write is: as `refusing.c` numbers them
ALLOCATION, START, READ, WRITE, DRAW, NONE = range(6)
FAIL, INTERRUPT, NOTHING, ONE_BYTE = range(4)

# the number of the file with the counts in the program
COUNTS = 9
FORM = "8q"


def built(folder):
    """The library, compiled into the folder."""
    library = f"{folder}/refusing.so"
    subprocess.run(["cc", "-O1", "-shared", "-fPIC", f"{HERE}/refusing.c", "-o", library, "-ldl"], check=True)
    return library


@dataclasses.dataclass
class Refusal:
    """The request of a kind with that number, counted from 1, is refused, and each later one where `later` says so. Where `one_byte` says so,
    each read and each write moves one byte."""

    kind: int = NONE
    first: int = 0
    later: bool = False
    how: int = FAIL
    one_byte: bool = False

    def environment(self, library):
        named = {"KIND": self.kind, "FIRST": self.first, "LATER": int(self.later), "HOW": self.how, "ONE_BYTE": int(self.one_byte)}
        return {"LD_PRELOAD": library, "REFUSING_COUNTS": str(COUNTS), **{f"REFUSING_{name}": str(value) for name, value in named.items()}}


@dataclasses.dataclass
class Done:
    """What a run came to: its status, what it wrote and complained of, how many requests of each kind it made, how many were refused, and how
    many bytes it read and wrote."""

    status: int
    written: bytes
    complaint: bytes
    asked: tuple
    refused: int
    bytes_read: int
    bytes_written: int


def hangs(*_):
    raise TimeoutError(f"the program has run for {SECONDS} seconds")


class Runner:
    """Runs of one program. Each process that runs it has a runner of its own."""

    def __init__(self, program, library):
        self.program, self.library = program, library
        self.source, self.sink, self.complaint, self.counts = (os.memfd_create(name) for name in ["in", "out", "complaint", "counts"])
        signal.signal(signal.SIGALRM, hangs)

    def refill(self, file, text=b""):
        os.ftruncate(file, 0)
        os.pwrite(file, text, 0)
        os.lseek(file, 0, os.SEEK_SET)

    def run(self, words, text, refusal=Refusal(), source=None):
        """A run on a text, or on an open file in its place."""
        self.refill(self.source, text)
        self.refill(self.sink)
        self.refill(self.complaint)
        self.refill(self.counts, bytes(4096))
        files = [(self.source if source is None else source, 0), (self.sink, 1), (self.complaint, 2), (self.counts, COUNTS)]
        actions = [(os.POSIX_SPAWN_DUP2, *pair) for pair in files]
        child = os.posix_spawn(self.program, [self.program, *words], refusal.environment(self.library), file_actions=actions)
        signal.alarm(SECONDS)
        try:
            status = os.waitstatus_to_exitcode(os.waitpid(child, 0)[1])
        except TimeoutError:
            os.kill(child, signal.SIGKILL)
            os.waitpid(child, 0)
            raise
        finally:
            signal.alarm(0)
        *asked, refused, bytes_read, bytes_written = struct.unpack(FORM, os.pread(self.counts, struct.calcsize(FORM), 0))
        written, complaint = (os.pread(file, os.fstat(file).st_size, 0) for file in (self.sink, self.complaint))
        return Done(status, written, complaint, tuple(asked), refused, bytes_read, bytes_written)
