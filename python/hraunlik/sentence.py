"""A sentence, read by the library from its own lines. Its nodes are made when they are asked for."""

from __future__ import annotations

import weakref
from typing import Dict, Iterator, List, Optional

from . import layout, library, making
from .layout import FIRST_PHRASE
from .nodes import AnyNode, Phrase, Word

#: Stands for the first word of a phrase that has none: such a phrase comes last among its sisters.
BEHIND_ALL_WORDS = FIRST_PHRASE


class Origin:
    """The lines of a sentence and what the library read there. Nodes hold it, and it holds no node: so a sentence that
    nobody holds is gone at once, with its nodes, and needs no collector. A node that outlives it finds an equal one."""

    __slots__ = ("lines", "text", "head", "words", "phrases", "edges", "phrases_begin", "held")

    def __init__(self, lines: bytes) -> None:
        opened = library.open_lines(lines)
        if opened is None:
            raise ValueError("these lines aren't those of a sentence")
        self.lines = lines
        self.text = text = lines.decode("latin-1")
        self.head, self.words, phrases, self.edges = opened
        self.phrases = phrases
        first_tag = layout.first_text(phrases, layout.NODE_TAG) if phrases else len(text) - 1
        self.phrases_begin = text.rindex("\n", 0, first_tag) + 1  #: the line of the first phrase; without one, the last

    def sentence(self) -> "Sentence":
        """The sentence, made anew if nobody holds it."""
        held = self.held()
        if held is None:
            held = Sentence(self.lines)
            held._origin, self.held = self, weakref.ref(held)
        return held


class Sentence:
    """A sentence that was handed out. It needs its corpus no longer, and can be pickled.

    >>> from hraunlik import Corpus
    >>> sentence = Corpus("examples/schade.export")[12]
    >>> sentence.words[4]
    Word(4, 'Arzt', 'NN')
    >>> sentence.words[4].parent.parent.children
    [Word(2, 'daß', 'KOUS'), Phrase(501, 'NP'), Word(5, 'anwesend', 'ADJD'), Word(6, 'ist', 'VAFIN')]
    >>> " ".join(word.word for word in sentence.phrase(501).words)
    'kein Arzt der sich auskennt'

    Two sentences are equal if they say the same, however their lines are spaced.
    """

    __slots__ = ("_origin", "_words", "_phrases", "_children", "__weakref__")

    def __init__(self, lines: bytes) -> None:
        """From its lines, `#BOS` to `#EOS`. What begins at a place is told by the file from there on: here, by these alone."""
        self._origin = origin = Origin(lines)
        origin.held = weakref.ref(self)
        self._words: Optional[List[Word]] = None
        self._phrases: Optional[List[Phrase]] = None
        self._children: Optional[Dict[int, List[AnyNode]]] = None

    @property
    def words(self) -> List[Word]:
        """The words, as they follow each other."""
        if self._words is None:
            self._words = making.made_words(self._origin, self.phrases)
        return self._words

    @property
    def phrases(self) -> List[Phrase]:
        """The phrases, by number."""
        if self._phrases is None:
            self._phrases = making.made_phrases(self._origin)
        return self._phrases

    @property
    def number(self) -> int:
        """The number on its `#BOS` line."""
        return self._origin.head[layout.HEAD_NUMBER]

    @property
    def editor(self) -> int:
        """The editor's id, -1 and 0 among them."""
        return self._origin.head[layout.HEAD_EDITOR] - 1

    @property
    def date(self) -> int:
        """The date, in seconds as it is written."""
        return self._origin.head[layout.HEAD_DATE]

    @property
    def origin(self) -> int:
        """The origin's id."""
        return self._origin.head[layout.HEAD_ORIGIN]

    @property
    def comment(self) -> str:
        """The comment on its `#BOS` line, or an empty text."""
        start, length = self._origin.head[layout.HEAD_COMMENT : layout.HEAD_COMMENT + 2]
        return self._origin.text[start : start + length]

    def phrase(self, number: int) -> Phrase:
        """The phrase with a number from 500 on."""
        at = number - FIRST_PHRASE
        if not 0 <= at < len(self.phrases):
            raise KeyError(number)
        return self.phrases[at]

    def node(self, number: int) -> AnyNode:
        """The word or the phrase with a number."""
        return self.words[number] if 0 <= number < len(self.words) else self.phrase(number)

    def __iter__(self) -> Iterator[AnyNode]:
        """Words, then phrases."""
        yield from self.words
        yield from self.phrases

    @property
    def roots(self) -> List[AnyNode]:
        """The nodes at the top, those with parent 0, in the order of their first words."""
        return list(self._children_of(0))

    def meaning(self) -> tuple:
        """What counts when two sentences are compared: texts and numbers, no places."""
        heading = (self.number, self.editor, self.date, self.origin, self.comment)
        words, phrases = (layout.parents(nodes).tolist() for nodes in (self._origin.words, self._origin.phrases))
        texts = [
            *([n.word, n.tag, n.morphology, n.edge, n.comment] for n in self.words),
            *([n.tag, n.morphology, n.edge, n.comment] for n in self.phrases),
        ]
        edges = sorted(making.labelled(self._origin), key=lambda edge: edge[0])
        return heading, words, phrases, texts, edges

    def __eq__(self, other: object) -> bool:
        if not isinstance(other, Sentence):
            return NotImplemented
        return self._origin.lines == other._origin.lines or (hash(self) == hash(other) and self.meaning() == other.meaning())

    def __hash__(self) -> int:
        head = self._origin.head
        return hash((head[layout.HEAD_NUMBER], head[layout.HEAD_DATE], head[layout.HEAD_WORDS], head[layout.HEAD_PHRASES]))

    def __reduce__(self) -> tuple:
        return Sentence, (self._origin.lines,)

    def _first_words(self) -> Dict[int, int]:
        """The first word of each phrase that has one, by number. A phrase's parent has a larger number, or is 0."""
        first: Dict[int, int] = {}
        for word, parent in zip(self.words, layout.parents(self._origin.words)):
            first.setdefault(parent, word.number)
        for phrase, parent in zip(self.phrases, layout.parents(self._origin.phrases)):
            if phrase.number in first:
                first[parent] = min(first.get(parent, BEHIND_ALL_WORDS), first[phrase.number])
        return first

    def _children_of(self, parent: int) -> List[AnyNode]:
        if self._children is None:
            first, children = self._first_words(), {}
            parents = [*layout.parents(self._origin.words), *layout.parents(self._origin.phrases)]
            order = [*range(len(self.words)), *(first.get(phrase.number, BEHIND_ALL_WORDS) for phrase in self.phrases)]
            for _, _, above, node in sorted(zip(order, range(len(order)), parents, self)):
                children.setdefault(above, []).append(node)
            self._children = children
        return self._children.get(parent, [])

    def __repr__(self) -> str:
        return f"Sentence({self.number}, words={len(self.words)}, phrases={len(self.phrases)})"
