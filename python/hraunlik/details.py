"""What is wrong with a line, more closely than its number tells. Number and place are the library's; the words are ours.

The lines in front of the faulty one keep the rules, so that they can be read plainly here.
"""

from __future__ import annotations

import re
from typing import List, NamedTuple, Optional

from .pointing import COLUMN, THIRD, Column, Line, table_around

ILLEGAL = re.compile(rb"[^\t\n\x20-\x7f\xa0-\xff]")
COMMENT = "%%"

CARRIAGE_RETURN = 13

#: The second to fourth byte of a letter in UTF-8, as far as they are illegal here.
OF_UTF_8 = range(128, 160)

#: What a file of another alphabet begins with, its name, and the cure.
MARKS = (
    ("\xef\xbb\xbf", "a byte order mark of UTF-8", "Remove the mark (tail -c +4), and convert to Latin-1 (iconv -f utf-8 -t latin1)."),
    ("\xff\xfe", "a byte order mark of UTF-16", "Convert the file to Latin-1 (iconv -f utf-16 -t latin1)."),
)  # fmt: skip

#: The columns of a line, by its first word, or by its table.
WANTED = {
    "#FORMAT": "#FORMAT, number",
    "#BOT": "#BOT, name of a table",
    "#EOT": "#EOT, name of the table",
    "#BOS": "#BOS, sentence, editor, date, origin; behind them only %% and a comment",
    "#EOS": "#EOS, sentence",
    "ORIGIN": "id, name; then maybe %% and a comment",
    "EDITOR": "id, login, full name",
    "WORDTAG": "id, tag, flag, description",
}
WANTED_OF_TAGS = "id, tag, description"
WANTED_OF_NODES = "word or #number, tag, morphology, edge, parent; then a label and a parent for each secondary edge"

#: The most bytes of texts.
TAG, MORPHOLOGY, DESCRIPTION = 10, 32, 80
NAME, REMARK, LOGIN, FULL_NAME = 128, 160, 16, 40

FLAG_COLUMN, MORPHOLOGY_COLUMN = 3, 3


class Detail(NamedTuple):
    """What is said behind the meaning of a number, and a cure of its own if there is one."""

    words: Optional[str] = None
    cure: Optional[str] = None


def detail(number: int, data: bytes, line: Line, column: Optional[Column]) -> Detail:
    """What more can be said of a refusal."""
    for mark, name, cure in MARKS:
        if line.start == 0 and line.text.startswith(mark):
            return Detail(f"the file begins with {name}", cure)
    if number == 4:
        return _illegal(data, line)
    if number == 7:
        return Detail(_columns(data, line))
    if number == 10 and column is not None:
        return Detail(_text(data, line, column))
    return Detail(_absent(data, line)) if number == 22 else Detail()


def _illegal(data: bytes, line: Line) -> Detail:
    found = ILLEGAL.search(data, line.start)
    if found is None:
        return Detail()
    value, at = data[found.start()], found.start() - line.start
    where = f"byte {at + 1:,} of the line is {value}"
    if value == CARRIAGE_RETURN:
        return Detail(f"{where}, a carriage return", "Remove the carriage returns (tr -d '\\r').")
    if value in OF_UTF_8 and at > 0 and data[found.start() - 1] >= 0xC2:
        return Detail(f"{where}, as in UTF-8", "Convert the file from UTF-8 to Latin-1 (iconv -f utf-8 -t latin1).")
    return Detail(where, "Remove the byte, or convert the file to Latin-1 if it has another alphabet (iconv).")


def _columns(data: bytes, line: Line) -> str:
    """How many columns there are in front of a comment, and which are wanted."""
    first = COLUMN.findall(line.text)[0]
    table = None if first in WANTED else table_around(data, line)
    if table == "ORIGIN":
        columns = COLUMN.findall(line.text.split(COMMENT, 1)[0])
    else:
        columns = COLUMN.findall(line.text) if table else fields(line.text)
    wanted = WANTED.get(first) or (WANTED_OF_NODES if table is None else WANTED.get(table, WANTED_OF_TAGS))
    return f"{len(columns)} {'column is' if len(columns) == 1 else 'columns are'} there; wanted: {wanted}"


def _text(data: bytes, line: Line, column: Column) -> str:
    """Which limit a text passes, or that it is no tag or no flag."""
    table = table_around(data, line)
    if table == "WORDTAG" and column.number == FLAG_COLUMN:
        return "a flag is Y or N"
    if column.text == COMMENT and table is not None:
        return "%% can't be a tag"
    what, limit = _limit(table, line, column)
    return f"{what} has at most {limit} bytes, and this one {len(column.text)}"


def _limit(table: Optional[str], line: Line, column: Column) -> tuple:
    """What stands in a column, and the most bytes that it may have."""
    if table == "ORIGIN":
        behind = COMMENT in line.text[: column.start]
        return ("an origin's comment", REMARK) if behind else ("an origin's name", NAME)
    if table == "EDITOR":
        return ("a full name", FULL_NAME) if column.number >= THIRD else ("a login", LOGIN)
    if table is None:
        return ("a morphology", MORPHOLOGY) if column.number == MORPHOLOGY_COLUMN else ("a tag", TAG)
    if column.number >= THIRD:
        return "a description", DESCRIPTION
    return "a tag", MORPHOLOGY if table == "MORPHTAG" else TAG


def _absent(data: bytes, line: Line) -> Optional[str]:
    """Which node of a sentence names a parent that isn't there, and in which line."""
    begin = data.rfind(b"\n#BOS", 0, line.start) + 1
    lines = data[begin : line.start].decode("latin-1").split("\n")[1:-1]
    nodes = [(number, fields(text)) for number, text in enumerate(lines, data.count(b"\n", 0, begin) + 2) if fields(text)]
    there = {0, *(int(columns[0][1:]) for _, columns in nodes if columns[0][1:].isdigit() and columns[0][0] == "#")}
    word = 0
    for number, columns in nodes:
        is_phrase = columns[0].startswith("#") and columns[0] != "#"
        for parent in map(int, columns[4::2]):
            if parent not in there:
                return f"line {number}, {'phrase ' + columns[0] if is_phrase else f'word {word}'}, names {parent}"
        word += not is_phrase
    return None


def fields(text: str) -> List[str]:
    """The columns of a node's line in front of its comment; none of a line that is ignored."""
    columns = [] if text.startswith(COMMENT) else COLUMN.findall(text)
    return columns[: columns.index(COMMENT)] if COMMENT in columns else columns


def illegal_in(text: str) -> Optional[int]:
    """Where the first illegal byte of a line's text stands."""
    found = ILLEGAL.search(text.encode("latin-1"))
    return found.start() if found else None
