"""A live desk, at which several people edit one netlist, and its seats."""

from __future__ import annotations

import errno
import fcntl
import os
import subprocess
import time
from typing import TYPE_CHECKING, Dict, List, Optional, Sequence, Tuple, Union

from .channel import Channel, Ended, Silent
from .errors import AnswerError, BrokenPipe, NesthrimError, NoSeat
from .faults import fault_of, no_origin, written_by
from .program import Complaints, Output, Program, find_program
from .questions import Path
from .system import asking_the_system
from .talk import Talk

if TYPE_CHECKING:
    from .netlist import Netlist


# how long a seat may take to be free when somebody is gone
_LONGEST_LEAVE = 2.0

# how long somebody who looks for a desk may hold the lock of its folder
_LONGEST_LOOK = 0.5

# the status by which the script says that it doesn't get that lock
_NO_LOCK = 3


class Seat(Talk):
    """Somebody at a seat of a live desk, as "designer-1" or "viewer-2", that was started by `mpwb desk FILE --at FOLDER`.

    A designer edits and asks; a viewer asks, and edits are refused (22 NotADesigner). Edits that the desk can't keep are refused too (24 NotKept).
    `NoSeat` if no desk runs at the folder, the seat is taken, nobody serves it within `seconds`, or a line isn't written and answered within them.
    """

    def __init__(self, folder: Path, name: str, seconds: float = 60.0, program: Optional[Program] = None) -> None:
        self.name = name
        self.program = program
        path = os.path.join(os.fspath(folder), name)
        until = time.monotonic() + seconds
        with asking_the_system():
            _need_desk(path)
            lock = _locked(f"{path}.lock", name)
            try:
                _wait_until_free(path, name)
                to, back = _sit_down(path, until)
            except BaseException:
                if lock is not None:
                    os.close(lock)
                raise
        super().__init__(Channel(to, back, seconds, lock))
        # (the desk knows that the seat is taken once it answers)
        self.version()

    def _gone(self) -> NesthrimError:
        self._channel.close()
        return BrokenPipe(f"the desk has left the seat {self.name} before it answered: it has ended, or had no memory for the answer; take the seat again")

    def _run(self, words: Sequence[str]) -> str:
        return written_by(self.program or find_program(), words, self.text(), no_origin)

    def close(self) -> None:
        """Leaves the seat: it is free once the desk has seen that, which is waited for."""
        if not self._channel.is_open:
            return
        self._channel.end_input()
        try:
            while True:
                self._channel.take(time.monotonic() + 5.0)
        except (Ended, Silent):
            self._channel.close()

    def __repr__(self) -> str:
        return f"<seat {self.name}, {'taken' if self._channel.is_open else 'left'}>"


def _need_desk(path: str) -> None:
    """`NoSeat` if no desk runs at the folder of a seat. A desk holds the folder's lock as long as it runs."""
    folder = os.path.dirname(path) or "."
    try:
        lock = os.open(folder, os.O_RDONLY | os.O_DIRECTORY)
    except (FileNotFoundError, NotADirectoryError):
        lock = None
    if lock is not None and _is_held(lock):
        return
    raise NoSeat(f"there is no desk at {folder}: start one by ./mpwb desk FILE --at FOLDER")


def _is_held(lock: int) -> bool:
    """Whether somebody holds a lock alone; what was opened for it is closed."""
    try:
        fcntl.flock(lock, fcntl.LOCK_SH | fcntl.LOCK_NB)
    except BlockingIOError:
        return True
    finally:
        os.close(lock)
    return False


def _locked(path: str, name: str) -> Optional[int]:
    """The lock of a seat, which whoever sits there holds. None if the seat has no file for it."""
    if not os.path.exists(path):
        return None
    lock = os.open(path, os.O_RDONLY)
    try:
        fcntl.flock(lock, fcntl.LOCK_EX | fcntl.LOCK_NB)
    except BlockingIOError as error:
        os.close(lock)
        raise NoSeat(f"{name} is taken: somebody else sits there") from error
    return lock


def _wait_until_free(path: str, name: str) -> None:
    """Waits until the desk has left a seat where somebody is gone. `NoSeat` if somebody sits there without its lock."""
    until = time.monotonic() + _LONGEST_LEAVE
    while True:
        try:
            os.close(os.open(f"{path}.in", os.O_WRONLY | os.O_NONBLOCK))
        except OSError:
            return
        if time.monotonic() > until:
            raise NoSeat(f"{name} is taken: somebody else sits there")
        time.sleep(0.01)


def _opened(path: str, flags: int) -> int:
    """An end of a pipe, which is opened without waiting for the other one."""
    try:
        return os.open(path, flags | os.O_NONBLOCK)
    except FileNotFoundError as error:
        raise NoSeat(f"there is no seat {path}: the folder of a desk has pipes for each, as designer-1.in and designer-1.out") from error
    except OSError as error:
        if error.errno == errno.ENXIO:
            raise
        raise NoSeat(f"{path} can't be opened: {error.strerror}") from error


def _sit_down(path: str, until: float) -> Tuple[int, int]:
    """The ends of a seat's pipes to write to and to read from. The desk opens them in this order: so it takes no line before it can be answered."""
    while True:
        back = _opened(f"{path}.out", os.O_RDONLY)
        try:
            to = _opened_to_write(path, back, until)
        except BaseException:
            os.close(back)
            raise
        if to is not None:
            return to, back
        os.close(back)


def _opened_to_write(path: str, back: int, until: float) -> Optional[int]:
    """The end of a pipe to write to, once somebody reads there. None if the desk has put another pipe into the place of the one to read from."""
    while True:
        try:
            end = _opened(f"{path}.in", os.O_WRONLY)
            os.set_blocking(end, True)
            if _is_at(back, path):
                return end
            os.close(end)
            return None
        except OSError as error:
            _need_desk(path)
            if time.monotonic() > until:
                raise NoSeat(f"nobody serves {path}: the desk hasn't come to this seat in time") from error
            if not _is_at(back, path):
                return None
            time.sleep(0.002)


def _is_at(back: int, path: str) -> bool:
    return os.path.samestat(os.fstat(back), os.stat(f"{path}.out"))


class Desk(Talk):
    """A live desk over a netlist: a run of `mpwb desk FILE --at FOLDER`, with its pipes in a folder, which is made if it isn't there.

    The desk answers questions itself, as at a viewer's seat.
    """

    def __init__(self, netlist: Union[Netlist, str], folder: Path, designers: int = 2, viewers: int = 2) -> None:
        self.program: Program = getattr(netlist, "program", None) or find_program()
        self.folder = os.fspath(folder)
        self.names = [f"designer-{number + 1}" for number in range(designers)] + [f"viewer-{number + 1}" for number in range(viewers)]
        self._text = str(netlist)
        self._origin = no_origin if isinstance(netlist, str) else netlist.origin
        words = ["desk", f"--at={self.folder}", f"--designers={designers}", f"--viewers={viewers}"]
        with asking_the_system():
            os.makedirs(self.folder, exist_ok=True)
            locks = self._folder_locked()
            try:
                if locks:
                    self._make_files()
                self._process = self.program.start_on(words, self._text, locks, stdin=subprocess.PIPE)
            finally:
                for lock in locks:
                    os.close(lock)
        self._complaints = Complaints(self._process)
        super().__init__(Channel.of(self._process))
        self.version()

    def _make_files(self) -> None:
        for name in self.names:
            path = os.path.join(self.folder, name)
            for end in ("in", "out"):
                if not os.path.exists(f"{path}.{end}"):
                    os.mkfifo(f"{path}.{end}")
            open(f"{path}.lock", "ab").close()
        self._make_spare_pipes()

    def _make_spare_pipes(self) -> None:
        # (whoever comes to a seat reads from two pipes by turns, so that whoever leaves sees the end)
        own = os.path.join(self.folder, ".desk")
        os.makedirs(own, exist_ok=True)
        for name in self.names:
            path = os.path.join(own, f"{name}.spare")
            if os.path.exists(path):
                os.remove(path)
            os.mkfifo(path)

    def _folder_locked(self) -> List[int]:
        """The lock of the folder, which a desk holds as long as it runs. None where the script holds it itself."""
        if self.program.is_script():
            return []
        lock = os.open(self.folder, os.O_RDONLY)
        # (whoever looks for a desk has the lock for a moment)
        until = time.monotonic() + _LONGEST_LOOK
        while True:
            try:
                fcntl.flock(lock, fcntl.LOCK_EX | fcntl.LOCK_NB)
                return [lock]
            except BlockingIOError as error:
                if time.monotonic() > until:
                    os.close(lock)
                    raise self._taken() from error
            time.sleep(0.01)

    def _taken(self) -> NoSeat:
        return NoSeat(f"there is a desk at {self.folder}: take a seat of it, or choose another folder")

    def seat(self, name: str, seconds: float = 60.0) -> Seat:
        """Takes a seat, as "designer-1"."""
        return Seat(self.folder, name, seconds, self.program)

    def seats(self) -> Dict[str, bool]:
        """Of each seat whether it is taken."""
        found: Dict[str, bool] = {}
        for line in self._say("seats").splitlines():
            name, _, state = line.partition(" ")
            if state not in ("taken", "free"):
                raise AnswerError("seats", line)
            found[name] = state == "taken"
        return found

    def _gone(self) -> NesthrimError:
        status, said = self._complaints.end()
        if status == _NO_LOCK and said.startswith("mpwb: there is a desk at "):
            return self._taken()
        if status <= 0:
            return BrokenPipe("the desk has gone away before it answered; start it again", status, said)
        return fault_of(Output(status, "", said), self.program, self._text, self._origin)

    def _run(self, words: Sequence[str]) -> str:
        return written_by(self.program, words, self.text(), no_origin)

    def end(self) -> str:
        """Ends the desk once all seats are left, and gives what it writes then: what came of each seat, and the waves."""
        written: List[bytes] = []
        if self._channel.is_open:
            self._channel.end_input()
            try:
                while True:
                    written.append(self._channel.take())
            except Ended:
                self._channel.close()
            status, said = self._complaints.end()
            if status != 0:
                raise fault_of(Output(status, "", said), self.program, self._text, self._origin)
        return b"".join(written).decode()

    def close(self) -> None:
        """Ends the desk once all seats are left."""
        self.end()

    def __repr__(self) -> str:
        return f"<desk at {self.folder}, {'open' if self._channel.is_open else 'ended'}>"
