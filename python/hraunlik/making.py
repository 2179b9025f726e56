"""How the nodes of a sentence are made: all words, or all phrases, at once, since most programs look at all of them.

The texts are those at the places that the sheet tells. In most sentences they are all the columns that there are, one line's
behind the other's; there, splitting the lines gives the same texts in a third of the time.
"""

from __future__ import annotations

from itertools import repeat
from typing import TYPE_CHECKING, Iterable, Iterator, List, Tuple

from . import layout
from .layout import FIRST_PHRASE
from .nodes import AnyNode, Phrase, SecondaryEdge, Word

if TYPE_CHECKING:
    from .sentence import Origin

#: The columns of a node's line that are always there: word or number, tag, morphology, edge, parent.
COLUMNS = 5

#: Those of the lines around the nodes: `#BOS` with four numbers, `#EOS` with one.
COLUMNS_BEFORE, COLUMNS_BEHIND = 5, 2

#: White for Python, a letter for the format.
HARD_SPACE = "\xa0"

PHRASE_COLUMNS = [f"#{number}" for number in range(FIRST_PHRASE, layout.NODE_ROOM)]
FIELDS = (layout.NODE_WORD, layout.NODE_TAG, layout.NODE_MORPHOLOGY, layout.NODE_EDGE)

#: Word or number, tag, morphology, edge, a column more, the parent's number and its own of each node.
Rows = Iterator[Tuple[str, str, str, str, str, int, int]]


def word_rows(origin: "Origin") -> Rows:
    """What the lines of the words say.

    The library has found the words, and so many columns are the least that their lines have. If there are no more, no line
    has a comment or a secondary edge, and none is ignored.
    """
    count, parents = origin.head[layout.HEAD_WORDS], layout.parents(origin.words)
    lines = origin.text[: origin.phrases_begin]
    columns = lines.split()
    if len(columns) != COLUMNS_BEFORE + COLUMNS * count or HARD_SPACE in lines:
        return zip(*exact_texts(origin.text, origin.words), parents, range(count))
    each = iter(columns[COLUMNS_BEFORE:])
    return zip(each, each, each, each, each, parents, range(count))


def phrase_rows(origin: "Origin") -> Rows:
    """What the lines of the phrases say, in the same manner if they are in order; a number stands in place of a word."""
    count, parents = origin.head[layout.HEAD_PHRASES], layout.parents(origin.phrases)
    numbers, lines = range(FIRST_PHRASE, FIRST_PHRASE + count), origin.text[origin.phrases_begin :]
    columns = lines.split()
    in_order = columns[:-COLUMNS_BEHIND:COLUMNS] == PHRASE_COLUMNS[:count]
    if len(columns) != COLUMNS * count + COLUMNS_BEHIND or HARD_SPACE in lines or not in_order:
        return zip(*exact_texts(origin.text, origin.phrases), parents, numbers)
    each = iter(columns)
    return zip(each, each, each, each, each, parents, numbers)


def exact_texts(text: str, nodes: bytes) -> List[Iterable[str]]:
    """The texts of each field, at the places that the sheet tells; and one more."""
    return [*(texts_at(text, nodes, field) for field in FIELDS), repeat("")]


def texts_at(text: str, nodes: bytes, field: int) -> List[str]:
    """The text of each node in a field."""
    return [text[start : start + length] for start, length in layout.texts(nodes, field)]


def made_words(origin: "Origin", phrases: List[Phrase]) -> List[Word]:
    """The words of a sentence, under its phrases."""
    words = []
    for word, tag, morphology, edge, _, parent, number in word_rows(origin):
        node = Word()
        node._origin = origin
        node.number = number
        node.word = word
        node.tag = tag
        node.morphology = morphology
        node.edge = edge
        node.comment = ""
        node.parent = phrases[parent - FIRST_PHRASE] if parent else None
        node.secondary = ()
        words.append(node)
    if origin.edges or "%%" in origin.text:
        complete(origin, words, origin.words, phrases)
    return words


def made_phrases(origin: "Origin") -> List[Phrase]:
    """The phrases of a sentence. A parent comes behind its phrase, so that parents are told when all are there."""
    phrases: List[Phrase] = []
    for _, tag, morphology, edge, _, parent, number in phrase_rows(origin):
        node = Phrase()
        node._origin = origin
        node.number = number
        node.tag = tag
        node.morphology = morphology
        node.edge = edge
        node.comment = ""
        node.parent = parent
        node.secondary = ()
        phrases.append(node)
    for node in phrases:
        node.parent = phrases[node.parent - FIRST_PHRASE] if node.parent else None
    if origin.edges or "%%" in origin.text:
        complete(origin, phrases, origin.phrases, phrases)
    return phrases


def complete(origin: "Origin", nodes: List[AnyNode], records: bytes, phrases: List[Phrase]) -> None:
    """Tells the nodes of their comments and their secondary edges."""
    for node, comment in zip(nodes, texts_at(origin.text, records, layout.NODE_COMMENT)):
        node.comment = comment
    first = nodes[0].number if nodes else 0
    for child, label, parent in labelled(origin):
        if 0 <= child - first < len(nodes):
            nodes[child - first].secondary += (SecondaryEdge(label, phrases[parent - FIRST_PHRASE]),)


def labelled(origin: "Origin") -> Iterable[Tuple[int, str, int]]:
    """Child, label and parent of each secondary edge, in the file's order."""
    for child, start, length, parent in layout.edge_records(origin.edges):
        yield child, origin.text[start : start + length], parent
