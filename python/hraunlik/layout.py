"""Where each number stands on the sheets that the library fills: the constants of its header, include/hraunlik.h.

Nothing else in the package knows a place on a sheet: what a sheet holds is taken out here, as records, and the names below
say which field of a record is which. No number is repeated, so that a later layout changes the header, and this file if
records are stored in another way. An absent text is start 0, length 0.

>>> TABLE_SHEET == TABLE_COUNT * (1 + ROWS_OF_A_TABLE * ROW_SIZE)
True
"""

from __future__ import annotations

import re
import struct
from array import array
from typing import Dict, Iterator, List, Optional, Sequence, Tuple

from .home import HEADER

#: The numbers of a heading, a row or an edge.
Record = Sequence[int]

#: The code of `array` for what a sheet is made of.
NUMBER = "I"

_NUMBERS = {name: int(number) for name, number in re.findall(r"\bHRAUNLIK_(\w+) = (\d+)", HEADER.read_text())}

FILE_LIMIT = _NUMBERS["FILE_LIMIT"]  #: bytes of a file

# The sizes of the lent buffers, in entries.
TABLE_SHEET = _NUMBERS["TABLES"]
SEEN_SET = _NUMBERS["SEEN"]  #: bytes
PLACES = _NUMBERS["PLACES"]
SENTENCE_SHEET = _NUMBERS["SHEET"]
EDGE_LIST = _NUMBERS["EDGES"]
TIDY_ROOM = _NUMBERS["TIDY_ROOM"]  #: what an output needs beyond the file's length, so that every tidy text has room

# The table sheet: a count of each table (0 absent, else rows + 1), then the rows of each table.
TABLE_NAMES = ("ORIGIN", "EDITOR", "WORDTAG", "MORPHTAG", "NODETAG", "EDGETAG", "SECEDGETAG")
UNORDERED_TABLES = ("ORIGIN", "EDITOR")  #: the order of their rows means nothing
TAG_TABLES = TABLE_NAMES[len(UNORDERED_TABLES) :]
TABLE_COUNT = _NUMBERS["TABLE_COUNT"]
ROWS_OF_A_TABLE = _NUMBERS["ROW_ROOM"]
ROW_SIZE = _NUMBERS["ROW_WIDTH"]
ROW_ID = _NUMBERS["ROW_ID"]  #: id + 1
ROW_NAME = _NUMBERS["ROW_FIRST"]  #: start, then length
ROW_DESCRIPTION = _NUMBERS["ROW_SECOND"]
ROW_FLAG = _NUMBERS["ROW_FLAG"]

# The list of places: entry n is one more than the place of sentence n's first line, or 0.

# The sentence sheet: the heading, then a record for each node, at the node's number.
HEAD_NUMBER = _NUMBERS["NUMBER"]
HEAD_EDITOR = _NUMBERS["EDITOR"]  #: editor + 1
HEAD_DATE = _NUMBERS["DATE"]
HEAD_ORIGIN = _NUMBERS["ORIGIN"]
HEAD_COMMENT = _NUMBERS["COMMENT"]
HEAD_WORDS = _NUMBERS["WORDS"]
HEAD_PHRASES = _NUMBERS["PHRASES"]
HEAD_EDGES = _NUMBERS["SECONDARY"]
HEAD_SIZE = _NUMBERS["LEADING"]

NODE_SIZE = _NUMBERS["NODE_WIDTH"]
NODE_WORD = _NUMBERS["NODE_WORD"]
NODE_TAG = _NUMBERS["NODE_TAG"]
NODE_MORPHOLOGY = _NUMBERS["NODE_MORPHOLOGY"]
NODE_EDGE = _NUMBERS["NODE_EDGE"]
NODE_PARENT = _NUMBERS["NODE_PARENT"]
NODE_COMMENT = _NUMBERS["NODE_COMMENT"]
FIRST_PHRASE = _NUMBERS["FIRST_PHRASE"]  #: words are numbered from 0, phrases from here
NODE_ROOM = _NUMBERS["NODE_ROOM"]  #: phrases are numbered below it

# The edge list: child, label's start, label's length, parent.
EDGE_SIZE = _NUMBERS["EDGE_WIDTH"]
EDGE_CHILD = _NUMBERS["EDGE_CHILD"]
EDGE_LABEL = _NUMBERS["EDGE_LABEL"]
EDGE_PARENT = _NUMBERS["EDGE_PARENT"]

# An explained tag: of which the description is a part.
OF_FILE = _NUMBERS["OF_FILE"]
OF_LIST = _NUMBERS["OF_LIST"]


def rows(tables: Sequence[int], table: int) -> Optional[List[Record]]:
    """The rows of a table by its place among the names, None if the file hasn't it."""
    if tables[table] == 0:
        return None
    first = TABLE_COUNT + table * ROWS_OF_A_TABLE * ROW_SIZE
    used = tables[first : first + (tables[table] - 1) * ROW_SIZE]
    return [used[at : at + ROW_SIZE] for at in range(0, len(used), ROW_SIZE)]


def table_place(name: str) -> int:
    """A table's place among the names, from 1; 0 for a name that no table has."""
    return TABLE_NAMES.index(name) + 1 if name in TABLE_NAMES else 0


def begins(seen: bytes, places: Sequence[int]) -> Dict[int, int]:
    """By the number of each sentence handed out, where it begins; in the file's order."""
    used = seen.rstrip(b"\0")
    numbers = [8 * at + bit for at, byte in enumerate(used) if byte for bit in range(8) if byte >> bit & 1]
    entries = places[: 8 * len(used)]
    numbers.sort(key=entries.__getitem__)
    return {number: entries[number] - 1 for number in numbers}


#: The leading numbers of a sentence sheet; the records of words, of phrases and of secondary edges, as bytes.
Opened = Tuple[Record, bytes, bytes, bytes]

_HEAD = struct.Struct(f"{HEAD_SIZE}{NUMBER}")
_NUMBER = struct.Struct(NUMBER)
_EACH = _NUMBER.size
_WORDS_AT = HEAD_SIZE * _EACH
_NODE_BYTES = NODE_SIZE * _EACH
_PHRASES_AT = _WORDS_AT + FIRST_PHRASE * _NODE_BYTES


def opened(sheet: memoryview, edges: memoryview) -> Opened:
    """A copy of what is used of both; they are lent as bytes."""
    head = _HEAD.unpack_from(sheet)
    words = bytes(sheet[_WORDS_AT : _WORDS_AT + head[HEAD_WORDS] * _NODE_BYTES])
    phrases = bytes(sheet[_PHRASES_AT : _PHRASES_AT + head[HEAD_PHRASES] * _NODE_BYTES])
    listed = head[HEAD_EDGES]
    return head, words, phrases, bytes(edges[: listed * EDGE_SIZE * _EACH]) if listed else b""


def parents(nodes: bytes) -> array:
    """The number of each node's parent."""
    return array(NUMBER, nodes)[NODE_PARENT::NODE_SIZE]


def first_text(nodes: bytes, field: int) -> int:
    """Where the text of the first node begins in a field."""
    return _NUMBER.unpack_from(nodes, field * _EACH)[0]


def texts(nodes: bytes, field: int) -> Iterator[Tuple[int, int]]:
    """Start and length of each node's text in a field."""
    numbers = array(NUMBER, nodes)
    return zip(numbers[field::NODE_SIZE], numbers[field + 1 :: NODE_SIZE])


def edge_records(edges: bytes) -> Iterator[Tuple[int, int, int, int]]:
    """Child, label's start and length, and parent of each secondary edge."""
    numbers = array(NUMBER, edges)
    return zip(*(numbers[at::EDGE_SIZE] for at in (EDGE_CHILD, EDGE_LABEL, EDGE_LABEL + 1, EDGE_PARENT)))
