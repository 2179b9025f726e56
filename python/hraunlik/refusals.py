"""The numbers of refusal in plain words (docs/REFUSALS.md has a small file for each)."""

from __future__ import annotations

from dataclasses import dataclass, field
from typing import List, NamedTuple, Optional, Tuple

from .details import illegal_in
from .showing import beginning, marked, quoted, shown


class Rule(NamedTuple):
    """What a number means, and how to mend the file."""

    meaning: str
    cure: str


WHOLE_COPY = "Get a whole copy, or keep the part up to the sound end (rescue)."

RULES: dict[int, Rule] = {
    1: Rule("a lent buffer has the wrong size", "Mend the program: lend exactly the sizes of docs/RULES.md, sections 8 and 9."),
    2: Rule("the file is longer than 268,435,456 bytes", "Cut it at sentence ends into files within the limit (split)."),
    3: Rule("the last line isn't ended by a newline, so it may be half a line", WHOLE_COPY + " Add the newline only if you know that the line is whole."),
    4: Rule("the line has an illegal byte; legal are 9, 32 to 127 and 160 to 255", "Remove carriage returns (tr -d '\\r'); convert UTF-8 to Latin-1 (iconv -f utf-8 -t latin1)."),
    5: Rule("the line is longer than 4,096 bytes", "Break a comment line in two; in a word's line, shorten the comment."),
    6: Rule("a line of this kind can't stand here", "Look at the lines above: an #EOS or #EOT may be missing. Else correct the keyword, or move the line."),
    7: Rule("a column is missing, or there is one too many", "Count the columns; a secondary label needs its parent, and a comment begins with %% between white bytes."),
    8: Rule("a number is badly written or out of its range", "No plus, no leading zeros, no letters. Phrases 500 to 999, parents these or 0, sentences and origins 1 to 65,535."),
    9: Rule("the format isn't 3, or there is no format line", "Write #FORMAT 3 as the first line if the file is of that format. An empty file is a copy that failed."),
    10: Rule("a text is too long, a tag is %%, or a flag isn't Y or N", "Shorten the text, or rename the tag wherever it is used. In WORDTAG, look whether the flag was left out."),
    11: Rule("a row's id or tag is out of place or given twice", "Number tag rows -1, 0, 1, 2 and so on without a gap; ids of origins and editors differ."),
    12: Rule("the table has a 257th row", "Remove rows that nothing cites; a tag table may be left out as a whole."),
    13: Rule("the ORIGIN or the EDITOR table is missing", "Add the table in front of the first sentence; EDITOR may be empty if only editors -1 and 0 are cited."),
    14: Rule("the sentence number was used before", "Compare both sentences: remove one if they are the same, else give one a new number on #BOS and #EOS."),
    15: Rule("the sentence's editor or origin has no row", "Add the row, or correct the number; the order is sentence, editor, date, origin."),
    16: Rule("the sentence has a 501st word or a 513th secondary edge", "Often an #EOS and a #BOS were lost; else divide the sentence."),
    17: Rule("the phrase number is given twice in the sentence", "Remove the line if it is a copy; else number it anew, and look which nodes belong under it."),
    18: Rule("a tag isn't in its table", "Correct the tag, or add a row to the table."),
    19: Rule("a parent can't be: it isn't larger than its phrase, it is 0 and the edge isn't --, or a secondary one is the phrase itself", "Write -- for the edge of a node with parent 0; number phrases from the leaves up; lead a secondary edge to another phrase."),
    20: Rule("#EOS has another number than #BOS", "Look whether lines were lost: this may be the front of one sentence and the end of another."),
    21: Rule("the sentence's phrases aren't numbered from 500 without a gap", "Bring the lost phrase back, or number them from 500 on, with their children's parents."),
    22: Rule("a node of the sentence names a parent that isn't there", "Look above this line for a parent beyond the highest phrase; bring that phrase back, or correct the parent."),
    23: Rule("the file ends inside a table or a sentence", WHOLE_COPY + " Don't add the #EOS by hand: nobody knows which phrases are lost."),
    24: Rule("no such sentence was handed out", "Survey the file: if it is refused, mend that first; else see which numbers there are (numbers)."),
    25: Rule("the tidy text has no room", "Lend 512 bytes more than the file has; if the file limit is passed, cut the file (split --bytes)."),
    26: Rule("nothing explains the tag", "Name a tag table, WORDTAG to SECEDGETAG, that the file or the list has. A file that has it is asked alone: add the row there."),
}


@dataclass(frozen=True)
class Refusal:
    """Why a file was refused, and where.

    number: which rule it is, from 1 to 26.
    place: the first byte of the faulty line, or of the column at fault; or the file's length.
    line: the faulty line, counted from 1; None where the number speaks of no line.
    text: the faulty line; None if only the file's end shows the fault.
    column: the column at fault, counted from 1; None where the number points at none.
    column_text: its text; of a text that runs to the line's end, the whole.
    column_start: where it begins in `text`, counted from 0.
    detail: what is wrong, more closely; None where the number says it all.
    own_cure: a cure for just this; None if it is that of the number.

    >>> print(Refusal(22, 94, 9, "#EOS 1"))
    refusal 22, line 9: a node of the sentence names a parent that isn't there
      "#EOS 1"
      Look above this line for a parent beyond the highest phrase; bring that phrase back, or correct the parent.

    8, 10, 15, 18 and 19 point at a column:

    >>> print(Refusal(18, 106, 10, "Ja ITJ -- -- 0", 2, "ITJ", 3))
    refusal 18, line 10, column 2 "ITJ": a tag isn't in its table
      "Ja ITJ -- -- 0"
          ^^^
      Correct the tag, or add a row to the table.
    """

    number: int
    place: int
    line: Optional[int] = None
    text: Optional[str] = None
    column: Optional[int] = None
    column_text: Optional[str] = None
    column_start: Optional[int] = field(default=None, repr=False)
    detail: Optional[str] = field(default=None, repr=False)
    own_cure: Optional[str] = field(default=None, repr=False)

    @property
    def meaning(self) -> str:
        """The rule that is broken, in words."""
        return RULES[self.number].meaning

    @property
    def cure(self) -> str:
        """How to mend the file."""
        return self.own_cure or RULES[self.number].cure

    @property
    def where(self) -> str:
        """Line and column, in words."""
        if self.line is None:
            return ""
        if self.text is None:
            return f"at the end, behind line {self.line - 1}" if self.line > 1 else "an empty file"
        if self.column_text is None:
            return f"line {self.line}"
        return f"line {self.line}, column {self.column} {quoted(self.column_text)}"

    @property
    def mark(self) -> Optional[Tuple[int, int]]:
        """What of the line is marked, start and length: the column at fault, or an illegal byte."""
        if self.column_text is not None and self.column_start is not None:
            return self.column_start, len(self.column_text)
        at = illegal_in(self.text) if self.number == 4 and self.text is not None else None
        return None if at is None else (at, 1)

    @property
    def brief(self) -> str:
        """One line, without the cure."""
        where = f", {self.where}" if self.where else ""
        return f"refusal {self.number}{where}: {self.meaning}" + (f" ({self.detail})" if self.detail else "")

    def shown_line(self, encoding: str = "utf-8") -> List[str]:
        """The faulty line as it is shown, and a mark under the column or byte if there is one; nothing if there is no line.

        In an encoding that lacks letters they are written out, and the mark stands under its column all the same.

        >>> Refusal(18, 106, 10, "Ja ITJ -- -- 0", 2, "ITJ", 3).shown_line()
        ['"Ja ITJ -- -- 0"', '    ^^^']
        """
        if self.text is None:
            return []
        if self.mark is None:
            return [beginning(self.text)]
        return marked(self.text, *self.mark, encoding)

    def told(self, encoding: str = "utf-8") -> str:
        """All that is said of it, for a stream with this encoding."""
        return "\n  ".join([self.brief, *self.shown_line(encoding), self.cure])

    def __str__(self) -> str:
        return self.told()


class Refused(Exception):
    """Raised where a file must be accepted and isn't; `.refusal` is the reason, `.file` the path, None of bytes."""

    def __init__(self, refusal: Refusal, file: Optional[str] = None) -> None:
        super().__init__(refusal, file)
        self.refusal = refusal
        self.file = file

    def __str__(self) -> str:
        return f"{shown(self.file)}: {self.refusal}" if self.file else str(self.refusal)


class NoSuchSentence(Refused, KeyError):
    """Raised for a sentence number that the file doesn't hand out."""


class Unexplained(Refused, KeyError):
    """Raised for a tag that neither the file nor the list explains."""
