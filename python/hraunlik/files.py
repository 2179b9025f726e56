"""What the command does with files: finding and reading them, and what it says if one can't be used."""

from __future__ import annotations

import os
import sys
from typing import BinaryIO, Iterable, Iterator, List, Optional

from .corpus import Corpus
from .progress import Progress
from .reading import FileChanged

STANDARD_INPUT = "-"


class Unusable(Exception):
    """Wrong use, or a file that can't be read or written: status 2."""

    def __init__(self, reason: str, name: str = "") -> None:
        super().__init__(f"{name}: {reason}" if name else reason)
        self.reason = reason


def corpus_of(name: str, progress: Optional[Progress] = None) -> Corpus:
    """The corpus in a file, or on standard input."""
    try:
        if name == STANDARD_INPUT:
            return Corpus(standard_input())
        if progress is not None:
            progress.step(f"reading {name}", os.stat(name).st_size)
        return Corpus(name)
    except IsADirectoryError:
        raise Unusable(_of_a_directory(name), name) from None
    except FileChanged as error:
        raise Unusable(error.strerror, name) from None
    except (OSError, ValueError) as error:
        raise Unusable(f"can't be read: {getattr(error, 'strerror', None) or error}", name) from None


def standard_input() -> BinaryIO:
    if sys.stdin is None:
        raise ValueError("it is closed")
    return sys.stdin.buffer


def _of_a_directory(name: str) -> str:
    try:
        return "a directory; survey -r takes the files in it" if os.listdir(name) else "an empty directory"
    except OSError as error:
        return f"can't be read: {error.strerror}"


def found(names: Iterable[str], into_directories: bool) -> Iterator[str]:
    """The names, with each directory replaced by the files in it if that is wanted; one without files stays."""
    for name in names:
        if into_directories and os.path.isdir(name):
            yield from list(_files_under(name)) or [name]
        else:
            yield name


def _files_under(directory: str) -> Iterator[str]:
    """All files by name, and the directories that can't be read."""
    unreadable: List[OSError] = []
    for folder, folders, files in os.walk(directory, onerror=unreadable.append):
        folders.sort()
        for name in sorted(files):
            path = os.path.join(folder, name)
            if os.path.isfile(path):
                yield path
    yield from (str(error.filename) for error in unreadable)
