"""The column that a refusal points at: the line around a place, the column's number in it, the column's text.

The library tells number and place. Where a text runs to the line's end is told by the table that the row stands in.
"""

from __future__ import annotations

import re
from typing import NamedTuple, Optional

#: The refusals whose place is a column's first byte; of all others it is a line's, or the file's end.
POINTING = frozenset((8, 10, 15, 18, 19))

LINE_LIMIT = 4096
WHITE = "\t "
COLUMN = re.compile(f"[^{WHITE}]+")

#: From which column on a row is one text, up to the line's end; in a table not named here, from the third.
RUNNING_FROM = {"ORIGIN": 2, "WORDTAG": 4}
THIRD = 3


class Line(NamedTuple):
    """A line of a file."""

    start: int
    text: str


class Column(NamedTuple):
    """A column of a line; of a text that runs to the line's end, its first column and the whole text."""

    number: int  #: counted from 1
    text: str
    start: int  #: where it begins in the line, counted from 0


def line_around(data: bytes, place: int, end: int) -> Line:
    """The line that has a place, in a file with this end; of a line too long, its beginning.

    >>> line_around(b"#FORMAT 3\\n#BOT ORIGIN\\n", 15, 22)
    Line(start=10, text='#BOT ORIGIN')
    """
    start = data.rfind(b"\n", 0, place) + 1
    text = data[start : min(start + LINE_LIMIT, end)].split(b"\n", 1)[0]
    return Line(start, text.decode("latin-1"))


def column_at_fault(number: int, data: bytes, line: Line, place: int) -> Optional[Column]:
    """The column at a place of a line, if the refusal with this number points at one.

    >>> rows = b"#FORMAT 3\\n#BOT EDITOR\\n1 kim Kim \\n"
    >>> line = line_around(rows, 24, len(rows))
    >>> column_at_fault(10, rows, line, 28)
    Column(number=3, text='Kim', start=6)
    """
    if number not in POINTING:
        return None
    start = place - line.start
    before = line.text[:start]
    inside_a_column = before != "" and before[-1] not in WHITE
    count = len(COLUMN.findall(before)) + (0 if inside_a_column else 1)
    table = table_around(data, line) if number == 10 else None
    if table is not None and count >= RUNNING_FROM.get(table, THIRD):
        return Column(count, running_text(line.text, start, table), start)
    return Column(count, COLUMN.findall(line.text, start)[0], start)


def running_text(line: str, start: int, table: str) -> str:
    """The text from a place of a row on, without white at its end; the name of an origin ends at percent signs."""
    rest = line[start:]
    if table == "ORIGIN" and "%%" not in line[:start]:
        rest = rest.split("%%", 1)[0]
    return rest.rstrip(WHITE)


def table_around(data: bytes, line: Line) -> Optional[str]:
    """The table that a line stands in, None in a sentence. All lines in front of it keep the rules."""
    if data.rfind(b"\n#BOS", 0, line.start) >= 0:
        return None
    heading = data.rfind(b"\n#BOT", 0, line.start) + 1
    return data[heading : line.start].split(maxsplit=2)[1].decode("latin-1")
