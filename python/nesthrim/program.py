"""The program: where it is, and runs of it."""

from __future__ import annotations

import errno
import os
import re
import shutil
import subprocess
import sys
import threading
from dataclasses import dataclass
from typing import IO, Any, FrozenSet, List, Mapping, Optional, Sequence, Set, Tuple

from .built import command_line
from .errors import OutOfMemory, ProgramFailed, ProgramMissing
from .system import as_bytes, asking_the_system, text_file

# what the script `./mpwb` says of which program answers; each line is passed on once
_NOTICE = re.compile(r"mpwb: .*(isn't proved|not proved|isn't kept)")
_noticed: Set[str] = set()


def find_program() -> Program:
    """The program that answers: that of MPWB, or else `mpwb` of the checkout that this package is in, or of PATH.

    `ProgramMissing` if there is none.
    """
    named = os.environ.get("MPWB")
    if named:
        return Program(named)
    python = os.path.dirname(os.path.dirname(os.path.abspath(__file__)))
    path = os.path.join(os.path.dirname(python), "mpwb")
    # (of a package that is installed, the folder has another name)
    if os.path.basename(python) == "python" and _is_program(path):
        return Program(path)
    found = shutil.which("mpwb")
    if found:
        return Program(found)
    raise ProgramMissing("there is no program mpwb: set MPWB to the path of the script ./mpwb of a checkout of Nesthrim, as MPWB=/home/me/nesthrim/mpwb")


def _is_program(path: str) -> bool:
    return os.path.isfile(path) and os.access(path, os.X_OK)


# how the system says that nothing can be run at a path
_NOT_RUN = {errno.ENOENT, errno.EACCES, errno.ENOTDIR, errno.ENOEXEC}


@dataclass(frozen=True)
class Output:
    """What a run of the program gave."""

    status: int
    written: str
    said: str


class Program:
    """The program at a path: the script `./mpwb` of a checkout, or the compiled program. `ProgramMissing` if nothing can be run there.

    Where the script would have its proved program answer, that one is run in its place.
    """

    def __init__(self, path: str) -> None:
        self.path = os.path.abspath(path)
        if not _is_program(self.path):
            raise ProgramMissing(f"{self.path} is no program: set MPWB to the path of the script ./mpwb of a checkout of Nesthrim")

    def __repr__(self) -> str:
        return f"Program({self.path!r})"

    def start(self, words: Sequence[str], **how: Any) -> subprocess.Popen[bytes]:
        """Starts a run of the program, with standard output and standard error to read. `ProgramMissing` if the system can't run it."""
        line, how["env"] = self._command_line(words, how.get("env"))
        with asking_the_system():
            try:
                return subprocess.Popen([as_bytes(word) for word in line], stdout=subprocess.PIPE, stderr=subprocess.PIPE, bufsize=0, **how)
            except OSError as error:
                if error.errno not in _NOT_RUN:
                    raise
                raise ProgramMissing(f"{self.path} can't be run: {error.strerror}; set MPWB to the path of the script ./mpwb") from error

    def _command_line(self, words: Sequence[str], environment: Optional[Mapping[str, str]]) -> Tuple[Sequence[str], Mapping[str, str]]:
        environment = os.environ if environment is None else environment
        found = command_line(self.path, words, environment) if self.is_script() else None
        return found or ([self.path, *words], environment)

    def start_on(self, words: Sequence[str], text: str, kept: Sequence[int] = (), **how: Any) -> subprocess.Popen[bytes]:
        """Starts a run whose last word, FILE, is a file with this text. It has the file descriptors `kept` too."""
        with text_file(text) as given:
            number = given.fileno()
            return self.start([*words, f"/dev/fd/{number}"], pass_fds=[number, *kept], **how)

    def is_script(self) -> bool:
        """Whether this is the script, and not the compiled program."""
        try:
            with open(self.path, "rb") as file:
                return file.read(2) == b"#!"
        except OSError:
            return False

    def run(self, words: Sequence[str], text: str = "", as_file: bool = False) -> Output:
        """Runs the program to its end, on a text as its standard input, or as FILE."""
        if as_file:
            process = self.start_on(words, text, stdin=subprocess.DEVNULL)
        else:
            with text_file(text) as given:
                process = self.start(words, stdin=given)
        complaints = Complaints(process)
        try:
            assert process.stdout is not None
            # (a raw stream reads to its end)
            written = process.stdout.read()
        except BaseException:
            process.kill()
            raise
        finally:
            status, said = complaints.end()
        return Output(status, written.decode("utf-8", "replace"), said)

    def commands(self) -> FrozenSet[str]:
        """The commands that the program has, as its `--help` lists them."""
        output = self.run(["--help"])
        if output.status != 0:
            raise failure(output.status, output.said)
        return frozenset(re.findall(r"^  ([a-z]+)  +\S", output.written, re.MULTILINE))


class Complaints:
    """What a run of the program writes to standard error, read as it comes, so that the program never waits for its reader."""

    def __init__(self, process: subprocess.Popen[bytes]) -> None:
        self._process = process
        self._said: List[str] = []
        self._thread = threading.Thread(target=self._read, args=(process.stderr,), daemon=True)
        self._thread.start()

    def _read(self, stream: IO[bytes]) -> None:
        rest = b""
        for more in iter(lambda: stream.read(4096), b""):
            *lines, rest = (rest + more).split(b"\n")
            for line in lines:
                self._take(line)
        if rest:
            self._take(rest)

    def _take(self, line: bytes) -> None:
        text = line.decode("utf-8", "replace").rstrip("\r")
        if not _NOTICE.match(text):
            self._said.append(text)
        elif text not in _noticed:
            _noticed.add(text)
            print(text, file=sys.stderr, flush=True)

    def end(self) -> tuple[int, str]:
        """Waits for the end of the run. Its status, and what was said but for notices of the script."""
        status = self._process.wait()
        self._thread.join()
        for stream in (self._process.stdout, self._process.stderr):
            if stream is not None:
                stream.close()
        return status, "\n".join(self._said)


def failure(status: int, said: str) -> ProgramFailed:
    """The exception for a run that gave no answer, whose cause isn't the netlist."""
    if status == 4:
        return OutOfMemory("the program ran out of memory; MPWB_MEMORY says how many MiB it may take", status, said)
    if status < 0:
        return ProgramFailed("the program was ended by a signal", status, said)
    if status == 1 and "bad count" in said:
        return ProgramFailed("a number is out of its range, as --columns of `show` and --steps of `why`: `mpwb COMMAND --help` tells it", status, said)
    if status == 70:
        return ProgramFailed("the script ./mpwb has no program to run, and says what to do", status, said)
    if status == 2:
        return ProgramFailed("the program doesn't know this command line; take the package and the program from the same checkout", status, said)
    return ProgramFailed("the program gave no answer", status, said)
