"""A file's bytes, read once into memory of our own, and whether the file stayed as it was meanwhile."""

from __future__ import annotations

import errno
import gzip
import os
import stat
import time
import zlib
from contextlib import contextmanager
from typing import BinaryIO, Iterator, Optional, Union

from . import layout

Path = Union[str, "os.PathLike[str]"]

#: Files with this ending are read unpacked.
PACKED = ".gz"

#: Two changes within a tick of the system's clock can have the same time of change.
TICK = 10_000_000  #: nanoseconds


class FileChanged(OSError):
    """Raised if a file was changed while it was read: what was read may be half old and half new, and nothing is told of it."""


def contents(path: Path) -> bytes:
    """What a file holds, a byte more than the limit at most."""
    with opened(path) as stream:
        return _plain(stream)


def drawn(stream: BinaryIO) -> bytes:
    """What is still to be read of a file object, a byte more than the limit at most."""
    if _descriptor(stream) is None:
        return _plain(stream)
    with _steady(stream, str(getattr(stream, "name", ""))):
        return _plain(stream)


@contextmanager
def opened(path: Path) -> Iterator[BinaryIO]:
    """A file to be read, unpacked if it is packed; `FileChanged` is raised behind it if the file didn't stay as it was."""
    name = os.fspath(path)
    with open(path, "rb") as file, _steady(file, name):
        try:
            yield gzip.GzipFile(fileobj=file) if name.endswith(PACKED) else file
        except (EOFError, zlib.error, gzip.BadGzipFile) as error:
            raise OSError(errno.EIO, f"the packed file is cut or damaged: {error}", name) from None


@contextmanager
def _steady(file: BinaryIO, name: str) -> Iterator[None]:
    before = _settled(file)
    yield
    if _time_and_size(before) != _time_and_size(os.fstat(file.fileno())):
        raise FileChanged(errno.ESTALE, "changed while it was read; nothing is told of it", name)


def _settled(file: BinaryIO) -> os.stat_result:
    """The file's status, once the tick of its last change is over: a later change then has another time."""
    status = os.fstat(file.fileno())
    age = time.time_ns() - status.st_mtime_ns
    if stat.S_ISREG(status.st_mode) and 0 <= age < TICK:
        time.sleep((TICK - age) / 1e9)
    return status


def _time_and_size(status: os.stat_result) -> tuple:
    """What a change of a regular file changes; of a pipe nothing."""
    return (status.st_mtime_ns, status.st_size) if stat.S_ISREG(status.st_mode) else ()


def _plain(stream: BinaryIO) -> bytes:
    """All that a stream has up to the limit; it may give that in parts."""
    pieces, room = [], layout.FILE_LIMIT + 1
    while room:
        piece = stream.read(min(room, _at_once(stream)))
        if not isinstance(piece, bytes):
            raise TypeError("a corpus is read from bytes: open the file with mode 'rb'")
        if not piece:
            break
        pieces.append(piece)
        room -= len(piece)
    return pieces[0] if len(pieces) == 1 else b"".join(pieces)


def _at_once(stream: BinaryIO) -> int:
    """A byte more than the file's length, if it has one: reading so many takes no more memory than the file."""
    descriptor = None if isinstance(stream, gzip.GzipFile) else _descriptor(stream)
    return ((os.fstat(descriptor).st_size if descriptor is not None else 0) or layout.FILE_LIMIT) + 1


def _descriptor(stream: BinaryIO) -> Optional[int]:
    try:
        return stream.fileno()
    except (AttributeError, OSError):
        return None
