"""The compiled library: where it lies, and its functions with lent buffers of the right size."""

from __future__ import annotations

import ctypes
import functools
import os
import warnings
from pathlib import Path
from typing import Dict, List, NamedTuple, Optional

from . import home, layout, provenance

Number = ctypes.c_uint32
Slice = [ctypes.c_void_p, ctypes.c_size_t]
Told = ctypes.POINTER(Number)


class LibraryMissing(RuntimeError):
    """The shared library isn't there, or is older than the function that was asked for."""


class Lent(NamedTuple):
    """A file, or its front: bytes that stay where they are as long as a call holds them, and how many are lent."""

    data: bytes
    length: int


class Index(NamedTuple):
    """What one reading of a file tells."""

    refusal: int
    place: int
    sentences: int
    sound_end: int
    tables: List[Optional[List[layout.Record]]]  #: the rows of each table, in the order of layout.TABLE_NAMES
    begins: Dict[int, int]  #: by number, where each sentence begins, in the file's order


#: After these refusals no buffer has changed: it holds what another call left.
UNTOUCHED = (1, 2)


def find() -> Optional[Path]:
    """The library named by HRAUNLIK_LIBRARY, else the package's own, if it is there."""
    named = os.environ.get("HRAUNLIK_LIBRARY")
    if named:
        return Path(named)
    return home.LIBRARY if home.LIBRARY.is_file() else None


@functools.lru_cache(maxsize=None)
def load() -> ctypes.CDLL:
    """The library, with the types of its functions declared."""
    path = find()
    if path is None:
        raise LibraryMissing(f"{home.LIBRARY} isn't made yet; {home.MAKER} makes it")
    if provenance.is_stale():
        warnings.warn(f"{path} is older than the crates; {home.MAKER} makes it anew", provenance.LibraryStale, stacklevel=2)
    try:
        library = ctypes.CDLL(str(path))
    except OSError as error:
        raise LibraryMissing(f"{path} can't be loaded: {error}") from None
    _declare(library, "hraunlik_index", Slice * 4 + [Told] * 3)
    _declare(library, "hraunlik_open_at", Slice + [Number] + Slice * 2)
    _declare(library, "hraunlik_write", Slice * 6 + [Told] * 2)
    _declare(library, "hraunlik_explain", Slice * 2 + [Number] + Slice * 3 + [Told] * 3)
    return library


def _declare(library: ctypes.CDLL, name: str, takes: list) -> None:
    function = getattr(library, name, None)
    if function is None:
        raise LibraryMissing(f"the library has no {name}; make it anew with {home.MAKER}")
    function.argtypes = takes
    function.restype = Number


def _lend(buffer: ctypes.Array) -> tuple:
    return ctypes.c_void_p(ctypes.addressof(buffer)), ctypes.c_size_t(len(buffer))


class Rooms:
    """The buffers that a call lends. Each call takes some of its own and gives them back when it has read them, so that no
    other sees them, from whatever thread or signal it comes."""

    _free: List["Rooms"] = []

    def __init__(self) -> None:
        self.tables = (Number * layout.TABLE_SHEET)()
        self.seen = (ctypes.c_uint8 * layout.SEEN_SET)()
        self.places = (Number * layout.PLACES)()
        self.sheet = (Number * layout.SENTENCE_SHEET)()
        self.edges = (Number * layout.EDGE_LIST)()
        self.of_a_survey = (*_lend(self.tables), *_lend(self.seen))
        self.of_a_sentence = (*_lend(self.sheet), *_lend(self.edges))
        self.as_bytes = memoryview(self.sheet).cast("B"), memoryview(self.edges).cast("B")

    @classmethod
    def taken(cls) -> "Rooms":
        try:
            return cls._free.pop()
        except IndexError:
            return cls()

    def give_back(self) -> None:
        self._free.append(self)


def index(file: Lent) -> Index:
    """Surveys a file, and tells where each sentence handed out begins."""
    rooms = Rooms.taken()
    place, sentences, sound_end = Number(), Number(), Number()
    refusal = load().hraunlik_index(*file, *rooms.of_a_survey, *_lend(rooms.places), place, sentences, sound_end)
    tables: List[Optional[List[layout.Record]]] = [None] * layout.TABLE_COUNT
    begins: Dict[int, int] = {}
    if refusal not in UNTOUCHED:
        tables = [layout.rows(rooms.tables, table) for table in range(layout.TABLE_COUNT)]
        begins = layout.begins(bytes(rooms.seen), rooms.places)
    rooms.give_back()
    return Index(refusal, place.value, sentences.value, sound_end.value, tables, begins)


def open_lines(lines: bytes) -> Optional[layout.Opened]:
    """The sentence that begins with these lines, or None if there is none."""
    rooms = Rooms.taken()
    refusal = load().hraunlik_open_at(lines, len(lines), 0, *rooms.of_a_sentence)
    opened = layout.opened(*rooms.as_bytes) if refusal == 0 else None
    rooms.give_back()
    return opened


class Written(NamedTuple):
    """What a writing tells: refusal, place, and the tidy text (empty if refused)."""

    refusal: int
    place: int
    text: memoryview


def write(file: Lent) -> Written:
    """The tidy text of a file."""
    rooms = Rooms.taken()
    output = bytearray(file.length + layout.TIDY_ROOM)
    room = ctypes.addressof(ctypes.c_char.from_buffer(output)), len(output)
    place, length = Number(), Number()
    refusal = load().hraunlik_write(*file, *room, *rooms.of_a_survey, *rooms.of_a_sentence, place, length)
    rooms.give_back()
    return Written(refusal, place.value, memoryview(output)[: length.value])


class Explained(NamedTuple):
    """What an explaining tells: refusal, of which the description is a part (layout.OF_FILE, OF_LIST), and where it stands."""

    refusal: int
    of: int
    start: int
    length: int


def explain(file: Lent, tags: Lent, table: int, tag: bytes) -> Explained:
    """Where the description of a tag stands; the table is named by its place, from 1."""
    rooms = Rooms.taken()
    of, start, length = Number(), Number(), Number()
    refusal = load().hraunlik_explain(*file, *tags, table, tag, len(tag), *rooms.of_a_survey, of, start, length)
    rooms.give_back()
    return Explained(refusal, of.value, start.value, length.value)
