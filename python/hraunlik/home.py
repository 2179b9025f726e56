"""Where the package's own files lie: beside it if it was installed from a wheel, else in the repository."""

from __future__ import annotations

from pathlib import Path

REPOSITORY = Path(__file__).resolve().parents[2]
MAKER = REPOSITORY / "tools" / "libraries"


def installed_or(name: str, in_repository: str) -> Path:
    """A file beside this one, or the one that the repository has (or will make) at another place."""
    beside = Path(__file__).with_name(name)
    return beside if beside.exists() else REPOSITORY / in_repository


HEADER = installed_or("hraunlik.h", "include/hraunlik.h")
GALLERY = installed_or("gallery", "examples/gallery")
LIBRARY = installed_or("libhraunlik.so", "target/host/libhraunlik.so")
SUM = installed_or("libhraunlik.sources", "target/host/libhraunlik.sources")
