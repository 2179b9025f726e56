"""A file cut at sentence ends into files that are each accepted: the cure for one that is over the limit.

Each part has the format line and the tables in front. The library is lent this head and as many bytes behind it as a part may
have; what is sound there is a part, and the next begins behind it. So the library has judged every part.
"""

from __future__ import annotations

from dataclasses import replace
from typing import BinaryIO, Callable, Optional

from .corpus import Corpus
from .refusals import Refusal

#: The refusal of a text that was cut inside a line; any other fault of a cut is shown by the end alone.
HALF_A_LINE = 3


class TooSmall(ValueError):
    """The head and one sentence don't fit into a part."""


class Splitting:
    """Cuts a file; each part is handed on."""

    def __init__(self, file: BinaryIO, most: int, put: Callable[[Corpus], None]) -> None:
        self._file, self._most, self._put = file, most, put
        self._head, self._rest = b"", b""
        self._bytes_done = self._lines_done = 0

    def run(self) -> Optional[Refusal]:
        """Why the rest of the file is no part, None if nothing is left."""
        while True:
            self._rest += self._file.read(self._most + 1 - len(self._head) - len(self._rest))
            more = len(self._head) + len(self._rest) > self._most
            corpus = Corpus((self._head + self._rest)[: self._most])
            survey = corpus.survey()
            if survey.accepted and not more:
                self._put(corpus)
                return None
            by_the_cut = survey.number == HALF_A_LINE or survey.place == corpus.size
            if not (more and by_the_cut):
                if survey.sentences:
                    self._put(corpus.sound_part())
                return self._in_the_file(survey.refusal)
            part = corpus.sound_part() if survey.sentences else self._ignored(corpus)
            self._put(part)
            self._go_on(part)

    def _ignored(self, corpus: Corpus) -> Corpus:
        """Of a part without a sentence all whole lines: behind the head they are ignored ones, and accepted."""
        part = Corpus(bytes(corpus)[: corpus.survey().place])
        if not self._head or part.size == len(self._head) or not part.survey().accepted:
            raise TooSmall(f"no sentence ends within {self._most:,} bytes")
        return part

    def _go_on(self, part: Corpus) -> None:
        """What was put is done; what follows begins behind it."""
        taken = part.size - len(self._head)
        self._bytes_done += taken
        self._lines_done += self._rest.count(b"\n", 0, taken)
        self._rest = self._rest[taken:]
        self._head = self._head or part.head

    def _in_the_file(self, refusal: Refusal) -> Refusal:
        """The refusal of a part with its place and its line in the whole file."""
        if not self._head:
            return refusal
        place = refusal.place - len(self._head) + self._bytes_done
        line = refusal.line and refusal.line - self._head.count(b"\n") + self._lines_done
        return replace(refusal, place=place, line=line, detail=None)
