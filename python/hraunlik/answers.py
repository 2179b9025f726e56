"""What a corpus answers: its survey, and the rows of its tables."""

from __future__ import annotations

from dataclasses import dataclass
from typing import NamedTuple, Optional

from .refusals import Refusal


@dataclass(frozen=True)
class Survey:
    """The answer to a file.

    refusal: why it is refused, None if it is accepted.
    place: first byte of the faulty line, or of its column at fault; the file's length if it is accepted.
    line: number of the faulty line, from 1.
    sentences: how many were handed out.
    sound_end: the end of the last of them, or 0.
    """

    refusal: Optional[Refusal]
    place: int
    line: Optional[int]
    sentences: int
    sound_end: int

    @property
    def accepted(self) -> bool:
        """Whether the file keeps all rules."""
        return self.refusal is None

    @property
    def number(self) -> int:
        """The refusal's number, 0 if the file is accepted."""
        return self.refusal.number if self.refusal else 0

    @property
    def column(self) -> Optional[int]:
        """The column at fault, from 1; None if the file is accepted, or the refusal points at none."""
        return self.refusal.column if self.refusal else None


class Row(NamedTuple):
    """A row of a table."""

    id: int
    name: str
    description: str
    flag: bool


Row.id.__doc__ = "Its id, from -1 on."
Row.name.__doc__ = "The name of an origin, the login of an editor, or the tag."
Row.description.__doc__ = "The comment of an origin, the full name of an editor, or the description of a tag."
Row.flag.__doc__ = "Whether a word's tag has the flag Y."
