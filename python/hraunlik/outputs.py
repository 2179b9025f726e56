"""Where the command writes: standard output, a new file that takes the name of an old one, or a pipe as it is."""

from __future__ import annotations

import contextlib
import os
import secrets
import stat
import sys
from typing import BinaryIO, Iterable, Optional

from .files import STANDARD_INPUT, Unusable

#: What of a file's mode are the rights to read, write and run it.
RIGHTS = 0o777

#: The rights to write, of whomever: a file without them is meant to stay, whoever asks.
WRITING = 0o222

NEIGHBOUR = ".hraunlik-"


def keep_apart(source: str, output: Optional[str]) -> None:
    """Refuses an output that is the input, that is a directory, or that may not be written."""
    status = _status(output)
    if output is None or status is None:
        return
    if stat.S_ISDIR(status.st_mode):
        raise Unusable("a directory", output)
    if stat.S_ISREG(status.st_mode) and not (status.st_mode & WRITING and os.access(output, os.W_OK)):
        raise Unusable("may not be written", output)
    read = os.fstat(sys.stdin.fileno()) if source == STANDARD_INPUT else os.stat(source)
    if os.path.samestat(read, status):
        raise Unusable("this is the input, which is never written over", output)


def _status(output: Optional[str]) -> Optional[os.stat_result]:
    """The status of what has this name, behind all links; None if there is nothing yet."""
    try:
        return os.stat(output) if output is not None else None
    except OSError:
        return None


def write_out(pieces: Iterable[bytes], output: Optional[str]) -> None:
    """Writes to standard output; into a pipe or a device; or into a new file that then takes the name."""
    if output is None:
        pour(pieces, sys.stdout.buffer)
        return
    status = _status(output)
    try:
        if status is None or stat.S_ISREG(status.st_mode):
            _write_new(pieces, os.path.realpath(output), status)
        else:
            with open(output, "wb", buffering=0) as file:
                pour(pieces, file)
    except OSError as error:
        raise Unusable(f"can't be written: {error.strerror or error}", output) from None


def _write_new(pieces: Iterable[bytes], output: str, before: Optional[os.stat_result]) -> None:
    """A neighbour is written and takes the name, with the rights and the owner of the file that had it.

    It has its name before it is there, so that whatever stops the writing, a signal at any moment too, takes it away.
    """
    made = os.path.join(os.path.dirname(output), NEIGHBOUR + secrets.token_hex(8))
    try:
        with open(made, "xb", opener=_for_us_alone) as file:
            pour(pieces, file)
            _give_rights(file, before)
            os.fsync(file.fileno())
        os.replace(made, output)
    except BaseException:
        with contextlib.suppress(FileNotFoundError):
            os.unlink(made)
        raise


def _for_us_alone(path: str, flags: int) -> int:
    return os.open(path, flags, 0o600)


def _give_rights(file: BinaryIO, before: Optional[os.stat_result]) -> None:
    if before is None:
        mask = os.umask(0)
        os.umask(mask)
        os.fchmod(file.fileno(), RIGHTS & ~mask & ~0o111)
        return
    made = os.fstat(file.fileno())
    if (made.st_uid, made.st_gid) != (before.st_uid, before.st_gid):
        try:
            os.fchown(file.fileno(), before.st_uid, before.st_gid)
        except PermissionError:
            pass  # only the superuser may give a file away
    os.fchmod(file.fileno(), before.st_mode & RIGHTS)


def pour(pieces: Iterable[bytes], file: BinaryIO) -> None:
    for piece in pieces:
        rest = memoryview(piece)
        while rest:
            rest = rest[file.write(rest) :]  # an unbuffered stream may take a part alone
    file.flush()
