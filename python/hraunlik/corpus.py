"""A file of the NeGra export format, version 3, read by the proved library."""

from __future__ import annotations

import functools
import operator
import os
from typing import BinaryIO, Dict, Iterator, List, Optional, Union

from . import layout, library
from .answers import Row, Survey
from .details import detail
from .pointing import column_at_fault, line_around
from .reading import contents, drawn
from .refusals import NoSuchSentence, Refusal, Refused, Unexplained
from .sentence import Sentence

CHUNK = 1 << 20

Source = Union[str, "os.PathLike[str]", bytes, bytearray, memoryview, BinaryIO]

#: What begins the line behind a sentence's last node; inside a sentence no other line begins so.
END = b"\n#EOS"


class Corpus:
    """A file, by path (in .gz too), as bytes, or as a file object opened for bytes.

    >>> corpus = Corpus("examples/schade.export")
    >>> for sentence in corpus:
    ...     print(sentence.number, [word.word for word in sentence.words][:3])
    12 ['Schade', ',', 'daß']

    To look is free; a file that is refused raises `Refused` where it must be whole:

    >>> half = Corpus(bytes(Corpus("examples/ja.export"))[:119])
    >>> half.survey().number, half.survey().line, half.survey().sentences
    (23, 11, 0)
    >>> len(half)
    Traceback (most recent call last):
    hraunlik.refusals.Refused: refusal 23, at the end, behind line 10: the file ends inside a table or a sentence
      Get a whole copy, or keep the part up to the sound end (rescue). Don't add the #EOS by hand: nobody knows which phrases are lost.

    Where a column is at fault, the refusal points at it:

    >>> refusal = Corpus("examples/gallery/19.export").survey().refusal
    >>> refusal.line, refusal.text, refusal.column, refusal.column_text
    (8, 'Ja ITJ -- SB 0', 5, '0')

    A file is read once, at the beginning, and never again: what others save into it later changes nothing here. If it is
    changed while it is read, `FileChanged` is raised. Several threads may use one corpus. In a `with`, or by `close()`, it
    lets go of the file's bytes; sentences that were handed out stay.
    """

    def __init__(self, source: Source) -> None:
        self._path: Optional[str] = None
        if isinstance(source, (bytes, bytearray, memoryview)):
            self._take(bytes(source))
        elif hasattr(source, "read"):
            self._path = getattr(source, "name", None)
            self._take(drawn(source))
        else:
            self._path = os.fspath(source)
            self._take(contents(source))

    def _take(self, data: bytes, length: Optional[int] = None) -> None:
        self._lent: Optional[library.Lent] = library.Lent(data, len(data) if length is None else length)

    @property
    def path(self) -> Optional[str]:
        """The file's path, as it was given; None of bytes."""
        return self._path if isinstance(self._path, str) else None

    @property
    def _file(self) -> library.Lent:
        if self._lent is None:
            raise ValueError(f"{self!r} is closed")
        return self._lent

    def close(self) -> None:
        """Lets go of the file's bytes. What needs them then raises `ValueError`."""
        self._lent = None

    def __enter__(self) -> "Corpus":
        return self

    def __exit__(self, *raised: object) -> None:
        self.close()

    def __repr__(self) -> str:
        if self._lent is None:
            return f"Corpus({self.path!r}, closed)"
        return f"Corpus({self.path!r})" if self.path else f"Corpus(<{self.size:,} bytes>)"

    @functools.cached_property
    def _index(self) -> library.Index:
        return library.index(self._file)

    @functools.cached_property
    def _survey(self) -> Survey:
        told = self._index
        refusal = self._refusal(told.refusal, told.place) if told.refusal else None
        line = refusal.line if refusal else None
        return Survey(refusal, told.place, line, told.sentences, told.sound_end)

    def survey(self) -> Survey:
        """The answer to this file; it raises nothing."""
        return self._survey

    def accepted(self) -> "Corpus":
        """This corpus if the file is accepted; else `Refused` is raised."""
        refusal = self._survey.refusal
        if refusal is not None:
            raise Refused(refusal, self.path)
        return self

    @functools.cached_property
    def numbers(self) -> List[int]:
        """The numbers of the sentences handed out, in the file's order."""
        return list(self._index.begins)

    def open(self, number: int) -> Sentence:
        """A sentence that was handed out, of a refused file too; else `NoSuchSentence` is raised.

        >>> Corpus("examples/ja.export").open(7)
        Sentence(7, words=1, phrases=1)
        """
        data, place = self._file.data, self._index.begins.get(operator.index(number))
        if place is None:
            raise NoSuchSentence(Refusal(24, self._index.place), self.path)
        return _sentence_at(data, place)

    def handed_out(self) -> Iterator[Sentence]:
        """The sentences in front of the fault, if there is one, in the file's order."""
        data, begins = self._file.data, self._index.begins
        return (_sentence_at(data, place) for place in begins.values())

    @functools.cached_property
    def _ends(self) -> Dict[int, int]:
        """By sentence number, where the next sentence begins."""
        begins = self._index.begins
        return dict(zip(begins, [*list(begins.values())[1:], self._index.sound_end]))

    def lines_from(self, number: int) -> bytes:
        """The file from where a sentence begins to where the next one does, or to the sound end.

        >>> Corpus("examples/ja.export").lines_from(7)
        b'#BOS 7 2 0 1\\nJa ITJ -- -- 500\\n#500 S -- -- 0\\n#EOS 7\\n'
        """
        if number not in self._ends:
            raise NoSuchSentence(Refusal(24, self._index.place), self.path)
        return self._file.data[self._index.begins[number] : self._ends[number]]

    def __getitem__(self, number: int) -> Sentence:
        """The sentence with a number."""
        if isinstance(number, slice):
            raise TypeError("a corpus is asked for a sentence by its number; for several, take a slice of corpus.numbers")
        return self.accepted().open(number)

    def __contains__(self, asked: object) -> bool:
        """Whether there is a sentence with this number, or this very sentence."""
        begins = self.accepted()._index.begins
        if isinstance(asked, Sentence):
            return asked.number in begins and self.open(asked.number) == asked
        return asked in begins

    def __len__(self) -> int:
        """How many sentences there are."""
        return self.accepted()._index.sentences

    def __iter__(self) -> Iterator[Sentence]:
        """The sentences, in the file's order."""
        return self.accepted().handed_out()

    def __reversed__(self) -> Iterator[Sentence]:
        """The sentences, the file's last first."""
        return map(self.open, reversed(self.accepted().numbers))

    def __bool__(self) -> bool:
        """A corpus is true, without sentences too."""
        return True

    @functools.cached_property
    def tables(self) -> Dict[str, List[Row]]:
        """The tables closed in front of the fault, if there is one, by name.

        >>> Corpus("examples/ja.export").tables["EDITOR"]
        [Row(id=2, name='kim', description='Kim', flag=False)]
        """
        found = zip(layout.TABLE_NAMES, self._index.tables)
        return {name: list(map(self._row, rows)) for name, rows in found if rows is not None}

    def _row(self, row: layout.Record) -> Row:
        name, description = (
            self._bytes_at(row[text], row[text + 1]).decode("latin-1")
            for text in (layout.ROW_NAME, layout.ROW_DESCRIPTION)
        )
        return Row(row[layout.ROW_ID] - 1, name, description, row[layout.ROW_FLAG] == 1)

    def explain(self, table: str, tag: str, tags: Union["Corpus", Source, None] = None) -> str:
        """The description of a tag: from this file if it has the table, else from `tags`, an export file too.

        >>> Corpus("examples/ja.export").explain("WORDTAG", "ADJD", tags="examples/schade.export")
        'Attributives Adjektiv'

        `--` and `UNKNOWN` without a row have an empty one. `Unexplained` is raised if nothing explains the tag,
        `Refused` if one of the two files is refused.
        """
        other = self if tags is None else tags if isinstance(tags, Corpus) else Corpus(tags)
        told = library.explain(self._file, other._file, layout.table_place(table), _bytes_of(tag))
        if told.refusal == 0:
            holder = self if told.of == layout.OF_FILE else other
            return holder._bytes_at(told.start, told.length).decode("latin-1")
        for corpus in (self, other):
            refusal = corpus.survey().refusal
            if refusal is not None and refusal.number == told.refusal:
                raise Refused(refusal, corpus.path)
        raise Unexplained(Refusal(told.refusal, 0), self.path)

    def tidy(self) -> bytes:
        """The tidy text; `Refused` is raised if the file is refused or the text has no room."""
        return bytes(self.tidy_view())

    def tidy_view(self) -> memoryview:
        """The tidy text where the library wrote it: of a large file `tidy` takes as much memory once more."""
        self.accepted()
        written = library.write(self._file)
        if written.refusal:
            raise Refused(self._refusal(written.refusal, written.place), self.path)
        return written.text

    def sound_part(self) -> "Corpus":
        """The file up to its sound end: all whole sentences in front of the fault, accepted by itself.

        Without a whole sentence it is empty, and refused as an empty file is. The bytes aren't copied.

        >>> data = bytes(Corpus("examples/ja.export"))
        >>> len(Corpus(data + b"#BOS 8 2 0 1\\nNe").sound_part())
        1
        """
        part = Corpus.__new__(Corpus)
        part._path = self._path
        part._take(self._file.data, self._index.sound_end)
        return part

    @property
    def head(self) -> bytes:
        """What stands in front of the first sentence: the format line, the tables, ignored lines."""
        return self._file.data[: next(iter(self._index.begins.values()), self._index.sound_end)]

    @property
    def size(self) -> int:
        """The file's length in bytes."""
        return self._file.length

    def __bytes__(self) -> bytes:
        """The file."""
        return self._file.data[: self.size]

    def chunks(self, start: int = 0, end: Optional[int] = None) -> Iterator[bytes]:
        """The file's bytes between two places, piece by piece."""
        data, length = self._file
        end = length if end is None else end
        for at in range(start, end, CHUNK):
            yield data[at : min(at + CHUNK, end)]

    def line_at(self, place: int) -> int:
        """The number, from 1, of the line that has this place."""
        return 1 + self._file.data.count(b"\n", 0, place)

    def _refusal(self, number: int, place: int) -> Refusal:
        if number in (1, 2, 25):
            return Refusal(number, place)
        data, length = self._file
        if place == length:
            return Refusal(number, place, self.line_at(place))
        line = line_around(data, place, length)
        column = column_at_fault(number, data, line, place)
        told = column or (None, None, None)
        return Refusal(number, place, self.line_at(place), line.text, *told, *detail(number, data, line, column))

    def _bytes_at(self, start: int, length: int) -> bytes:
        return self._file.data[start : start + length]


def _sentence_at(data: bytes, place: int) -> Sentence:
    """The sentence that was found at a place, of its own lines."""
    return Sentence(data[place : data.index(b"\n", data.index(END, place) + 1) + 1])


def _bytes_of(tag: str) -> bytes:
    """A tag's bytes; none, which no row has for its tag, if it has letters that no file has."""
    try:
        return tag.encode("latin-1")
    except UnicodeEncodeError:
        return b""
