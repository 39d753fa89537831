"""Lines to a program that answers each of them, and what it answers."""

from __future__ import annotations

import os
import re
import select
import subprocess
import threading
import time
import weakref
from typing import Optional

from .errors import AnswerError, Closed, Unread
from .system import as_bytes, asking_the_system

# Two questions follow each line, and their two answers end the answer to the line. No wire has the name `.`. Within an answer the first of these
# two lines is never followed by the second one.
_QUESTIONS = b"\nwave .\nversion\n"
_END = re.compile(rb"(?:\A|\n)(refused 3 NoSuchWire\n(version \d+|unread \d+ \w+)\n)\Z")
_LONGEST_END = 64

_open: "weakref.WeakSet[Channel]" = weakref.WeakSet()


class Ended(Exception):
    """The other end has gone away."""


class Silent(Exception):
    """The other end doesn't answer in time."""


def _poll(end: int, event: int) -> select.poll:
    poll = select.poll()
    poll.register(end, event)
    return poll


def _wait_for(poll: select.poll, until: Optional[float]) -> None:
    """Waits for an event of a pipe. `Silent` if none comes in time."""
    left = None if until is None else max(0.0, until - time.monotonic()) * 1000
    if not poll.poll(left):
        raise Silent


class Channel:
    """A way to write lines, by the file descriptor `to`, and to read answers, by `back`. Each line is written and answered within `seconds`, if they are given.

    Threads may share it: one line is answered after the other. It keeps `lock` open as long as `back`, if it is given.
    """

    def __init__(self, to: int, back: int, seconds: Optional[float] = None, lock: Optional[int] = None) -> None:
        self._to: Optional[int] = to
        self._back: Optional[int] = back
        self._kept = lock
        self._seconds = seconds
        # (whoever writes more than a pipe has room for waits no longer than for an answer)
        os.set_blocking(to, False)
        self._room = _poll(to, select.POLLOUT)
        self._answers = _poll(back, select.POLLIN)
        self._lock = threading.Lock()
        _open.add(self)

    @classmethod
    def of(cls, process: subprocess.Popen[bytes]) -> Channel:
        """The channel to a program with pipes for its input and its output, which are the channel's then."""
        assert process.stdin is not None and process.stdout is not None
        with asking_the_system():
            channel = cls(os.dup(process.stdin.fileno()), os.dup(process.stdout.fileno()))
        process.stdin.close()
        process.stdout.close()
        return channel

    @property
    def is_open(self) -> bool:
        """Whether lines can be asked."""
        return self._to is not None

    def ask(self, line: str) -> str:
        """The answer to a line. `Ended` if the other end goes away before it, `Silent` if it takes too long; the channel is closed then."""
        text = as_bytes(line) + _QUESTIONS
        if "\n" in line:
            raise Unread(1, "NotAscii", statement=line, meaning="a line has no line feed in it: ask one line after the other")
        with self._lock:
            if self._to is None:
                raise Closed("this was closed before: open another session, or take the seat again")
            until = None if self._seconds is None else time.monotonic() + self._seconds
            try:
                self._write(self._to, text, until)
                return self._read(until).decode("utf-8", "replace")
            except BaseException:
                # (what comes still would be taken for the answer to the next line)
                self._close()
                raise

    def _write(self, to: int, text: bytes, until: Optional[float]) -> None:
        rest = memoryview(text)
        while rest:
            _wait_for(self._room, until)
            try:
                rest = rest[os.write(to, rest) :]
            except BlockingIOError:
                continue
            except BrokenPipeError as error:
                raise Ended from error

    def _read(self, until: Optional[float]) -> bytes:
        answer = bytearray()
        while True:
            answer += self.take(until)
            end = _END.search(answer, max(0, len(answer) - _LONGEST_END))
            if end and end[2].startswith(b"unread"):
                raise AnswerError("version", end[2].decode())
            if end:
                return bytes(answer[: end.start(1)])

    def take(self, until: Optional[float] = None) -> bytes:
        """Some bytes of what is answered. `Ended` if there are no more."""
        assert self._back is not None
        while True:
            _wait_for(self._answers, until)
            try:
                more = os.read(self._back, 65_536)
            except BlockingIOError:
                continue
            if not more:
                raise Ended
            return more

    def end_input(self) -> None:
        """Says that no more lines come. What is answered still can be taken."""
        if self._to is not None:
            os.close(self._to)
            self._to = None

    def close(self) -> None:
        """Closes both ends, once an answer that somebody waits for has come."""
        with self._lock:
            self._close()

    def _close(self) -> None:
        self.end_input()
        if self._back is not None:
            os.close(self._back)
            self._back = None
        if self._kept is not None:
            os.close(self._kept)
            self._kept = None
        _open.discard(self)

    def __del__(self) -> None:
        self._close()


def _leave_to_parent() -> None:
    """In a process that was forked: the channels are the parent's, and this process doesn't keep them open."""
    for channel in list(_open):
        channel._lock = threading.Lock()
        channel._close()


os.register_at_fork(after_in_child=_leave_to_parent)
