"""What the package asks of the system: files, and texts as bytes."""

from __future__ import annotations

import errno
import os
import tempfile
from contextlib import contextmanager
from typing import IO, Iterator

from .errors import NesthrimError, SystemFailed


@contextmanager
def asking_the_system() -> Iterator[None]:
    """What the system refuses within this, and a path that it can't have, is raised as `SystemFailed`."""
    try:
        yield
    except NesthrimError:
        raise
    except OSError as error:
        raise SystemFailed(error.errno, error.strerror or str(error), error.filename) from error
    except UnicodeEncodeError as error:
        raise SystemFailed(errno.EILSEQ, os.strerror(errno.EILSEQ), error.object) from error


def as_bytes(text: str) -> bytes:
    """The bytes of a text, whatever it has: the program reads ASCII alone, and says where there is something else."""
    try:
        return text.encode("utf-8", "surrogateescape")
    except UnicodeEncodeError:
        return text.encode("utf-8", "surrogatepass")


def text_file(text: str) -> IO[bytes]:
    """A file without a name that has this text, to be read from its begin."""
    with asking_the_system():
        file = tempfile.TemporaryFile()
        file.write(as_bytes(text))
        file.seek(0)
        return file
