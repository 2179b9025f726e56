"""The gallery: the smallest file for each number of refusal, or the call that gets it, with answer and reason."""

from __future__ import annotations

from typing import Iterator, NamedTuple, Optional, Tuple

from . import home


class Entry(NamedTuple):
    """A file of the gallery, or one in words; what is done with it, and what is answered."""

    file: str
    call: str
    answer: Tuple[int, ...]  #: the refusal's number comes first
    why: str

    @property
    def text(self) -> Optional[str]:
        """What the file holds; None if it isn't stored."""
        path = home.GALLERY / self.file
        return path.read_bytes().decode("latin-1") if path.is_file() else None


def surveys() -> Iterator[Entry]:
    """The files whose survey tells it all."""
    for file, answer, why in _rows("gallery.tsv"):
        yield Entry(file, "survey", _numbers(answer), why)


def calls() -> Iterator[Entry]:
    """The refusals, and some grants, that a call gets and not what the file says."""
    for file, call, answer, why in _rows("calls.tsv"):
        yield Entry(file, call, _numbers(answer), why)


def entry_of(number: int) -> Entry:
    """The first entry with a refusal.

    >>> entry_of(7).file, entry_of(24).file, entry_of(24).call
    ('07.export', '24.export', 'open 1')
    """
    return next(entry for entries in (surveys(), calls()) for entry in entries if entry.answer[0] == number)


def _rows(name: str) -> Iterator[list[str]]:
    for line in (home.GALLERY / name).read_text().splitlines():
        if not line.startswith("#"):
            yield line.split("\t")


def _numbers(answer: str) -> Tuple[int, ...]:
    return tuple(map(int, answer.split()))
