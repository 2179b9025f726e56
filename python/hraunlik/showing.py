"""How texts of a file are shown: control bytes written out, long texts cut, a mark under a column."""

from __future__ import annotations

from typing import List, Tuple

#: Letters of a line that are shown with a mark, tabs as wide as a terminal makes them.
ROOM = 68

#: How many of them stand in front of a column that hasn't room behind the line's beginning.
ROOM_BEFORE = ROOM // 2

#: Letters of a column's text where it is told beside its number.
COLUMN_ROOM = 40

TAB = "\t"
WHITE = "\t "
SOFT_HYPHEN = "\xad"


def shown(text: str) -> str:
    """A text as it can be printed: control bytes are written out.

    >>> shown("Ja\\r")
    'Ja\\\\x0d'
    """
    return "".join(f"\\x{ord(c):02x}" if ord(c) < 32 or 127 <= ord(c) < 160 else c for c in text)


def quoted(text: str) -> str:
    """A text in quotes; two points behind them say that it goes on.

    >>> quoted("NN"), quoted("x" * 41)
    ('"NN"', '"xxxxxxxxxxxxxxxxxxxxxxxxxxxxxxxxxxxxxxxx" ..')
    """
    return f'"{shown(text[:COLUMN_ROOM])}"' + (" .." if len(text) > COLUMN_ROOM else "")


def beginning(line: str) -> str:
    """A line in quotes, or as much of it as has room; two points behind say that it goes on.

    >>> beginning("#EOS 7"), beginning("x" * 69) == '"' + "x" * 68 + '" ..'
    ('"#EOS 7"', True)
    """
    return f'"{shown(line[:ROOM])}"' + (" .." if len(line) > ROOM else "")


def marked(line: str, start: int, length: int, encoding: str = "utf-8") -> List[str]:
    """A line in quotes, and under it a mark that is as long as the column; of a long line what stands around the column.

    >>> for shown_line in marked("Ja ITJ -- SB 0", 10, 2):
    ...     print(shown_line)
    "Ja ITJ -- SB 0"
               ^^

    Tabs stay tabs, above and below, so that the mark stands under its column wherever tabs lead:

    >>> marked("Ja\\tITJ\\t--\\tSB\\t0", 13, 1)
    ['"Ja\\tITJ\\t--\\tSB\\t0"', '   \\t   \\t  \\t  \\t^']
    """
    letters = written_out(line, encoding)
    first, last = _window(letters, start, length)
    before, behind = ".. " if first else "", " .." if last < len(letters) else ""
    mark = mark_under(letters[first:last], start - first, length)
    return [f'{before}"{"".join(letters[first:last])}"{behind}', " " * len(f'{before}"') + mark]


def written_out(line: str, encoding: str = "utf-8") -> List[str]:
    """The letters of a line as a stream writes them. Tabs stay; what has no sure width, or no code there, is written in digits.

    >>> written_out("a\\t\\x7f\\xad"), written_out("\\xdf", "ascii")
    (['a', '\\t', '\\\\x7f', '\\\\xad'], ['\\\\xdf'])
    """
    return [letter if letter == TAB else _written_out(letter, encoding) for letter in line]


def _written_out(letter: str, encoding: str) -> str:
    if letter == SOFT_HYPHEN:
        encoding = "ascii"
    return shown(letter).encode(encoding, "backslashreplace").decode(encoding)


def mark_under(letters: List[str], start: int, length: int) -> str:
    """What stands under written letters: a mark under some of them, white up to there, tabs under tabs."""
    signs = [" "] * start + ["^"] * length
    return "".join(letter if letter == TAB else sign * len(letter) for letter, sign in zip(letters, signs))


def _across(letters: List[str]) -> int:
    """How wide letters are on a terminal, behind what stands in front of a line that is cut."""
    before = '  .. "'
    return len((before + "".join(letters)).expandtabs()) - len(before)


def _window(letters: List[str], start: int, length: int) -> Tuple[int, int]:
    """From where to where a line is shown: from its beginning, or from that of a column, and all that has room."""
    first = last = start
    if _across(letters[: start + min(length, COLUMN_ROOM)]) <= ROOM:
        first = 0
    while first > 0 and _across(letters[first - 1 : start]) <= ROOM_BEFORE:
        first -= 1
    while 0 < first < start and not (letters[first - 1] in WHITE and letters[first] not in WHITE):
        first += 1
    while last < len(letters) and _across(letters[first : last + 1]) <= ROOM:
        last += 1
    return first, last
