"""Which sources the library was made of, and whether the crates are still these."""

from __future__ import annotations

import hashlib
import os
from pathlib import Path
from typing import Optional

from . import home
from .version import FORMATS, VERSION


class LibraryStale(RuntimeWarning):
    """The library is older than the crates that lie beside it."""


def sources() -> Optional[str]:
    """The sum of the sources that the library was made of, None if it isn't made."""
    try:
        return home.SUM.read_text().strip()
    except OSError:
        return None


def sum_of_crates(repository: Path) -> str:
    """What tools/sources prints: a sum over the name and the sum of each source file of the crates."""
    files = [repository / "crates.txt", *(path for path in repository.glob("crates/*/src/**/*") if path.is_file())]
    names = sorted(os.fsencode(path.relative_to(repository)) for path in files)
    lines = (f"{hashlib.sha256((repository / os.fsdecode(name)).read_bytes()).hexdigest()}  ".encode() + name for name in names)
    return hashlib.sha256(b"".join(line + b"\n" for line in lines)).hexdigest()


def is_stale() -> bool:
    """Whether the library lies in the repository and its crates are others now."""
    in_repository = home.REPOSITORY in home.SUM.parents and home.MAKER.is_file()
    return in_repository and "HRAUNLIK_LIBRARY" not in os.environ and sources() != sum_of_crates(home.REPOSITORY)


def told() -> str:
    """What `--version` prints."""
    formats = " and ".join(map(str, FORMATS))
    return f"hraunlik {VERSION}, format {formats}, sources {sources() or 'unknown: the library is not made yet'}"
