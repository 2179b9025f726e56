"""The nodes of a sentence: words and phrases."""

from __future__ import annotations

from typing import TYPE_CHECKING, List, NamedTuple, Union


if TYPE_CHECKING:
    from .sentence import Sentence


class SecondaryEdge(NamedTuple):
    """A second parent of a node, and the label of the edge that leads there."""

    label: str
    parent: "Phrase"


SecondaryEdge.label.__doc__ = "The label of the edge."
SecondaryEdge.parent.__doc__ = "The phrase that the edge leads to."


class Node:
    """What words and phrases share. Two nodes are equal if their numbers and their sentences are."""

    __slots__ = {
        "_origin": "The lines it comes from, which know its sentence.",
        "number": "Its number in the sentence: words count from 0, phrases from 500.",
        "tag": "A word's part of speech, a phrase's tag.",
        "morphology": "Its morphology, `--` if it has none.",
        "edge": "The label of the edge to the parent.",
        "parent": "The phrase above, or None at the top.",
        "secondary": "Its secondary edges, a tuple in the order of the line, each to another phrase; they may form circles.",
        "comment": "The comment on its line, or an empty text.",
    }

    @property
    def sentence(self) -> "Sentence":
        """The sentence that has this node."""
        return self._origin.sentence()

    @property
    def ancestors(self) -> List["Phrase"]:
        """The parent, its parent and so on, up to the top."""
        found, above = [], self.parent
        while above is not None:
            found.append(above)
            above = above.parent
        return found

    def __eq__(self, other: object) -> bool:
        if not isinstance(other, Node):
            return NotImplemented
        return self.number == other.number and self.sentence == other.sentence

    def __hash__(self) -> int:
        return hash((self.sentence, self.number))

    def __reduce__(self) -> tuple:
        return _node_of, (self.sentence, self.number)


class Word(Node):
    """A word and its place in the tree."""

    __slots__ = {"word": "The word as it is written."}

    @property
    def children(self) -> List["AnyNode"]:
        """None: only phrases have children."""
        return []

    def __repr__(self) -> str:
        return f"Word({self.number}, {self.word!r}, {self.tag!r})"


class Phrase(Node):
    """A phrase; its children may be words and phrases, or none."""

    __slots__ = ()

    @property
    def children(self) -> List["AnyNode"]:
        """Words and phrases right under it, in the order of their first words; a phrase without words comes last."""
        return list(self.sentence._children_of(self.number))

    @property
    def words(self) -> List[Word]:
        """All words under this phrase, however deep, in the sentence's order."""
        return [word for word in self.sentence.words if self in word.ancestors]

    def __repr__(self) -> str:
        return f"Phrase({self.number}, {self.tag!r})"


AnyNode = Union[Word, Phrase]


def _node_of(sentence: "Sentence", number: int) -> AnyNode:
    return sentence.node(number)
