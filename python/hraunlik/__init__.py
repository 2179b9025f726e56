"""Hraunlik reads files of the NeGra export format, version 3. The first tree:

>>> import hraunlik
>>> sentence = hraunlik.Corpus("examples/schade.export")[12]
>>> sentence.roots
[Phrase(503, 'S'), Word(1, ',', '$,'), Word(7, ',', '$,'), Word(11, '.', '$.')]

The proved library does all judging; this package only calls it.
"""

from .answers import Row, Survey
from .corpus import Corpus
from .library import LibraryMissing
from .nodes import Node, Phrase, SecondaryEdge, Word
from .provenance import LibraryStale, sources
from .reading import FileChanged
from .refusals import RULES, NoSuchSentence, Refusal, Refused, Unexplained
from .sentence import Sentence
from .version import FORMATS
from .version import VERSION as __version__

__all__ = [
    "Corpus", "FORMATS", "FileChanged", "LibraryMissing", "LibraryStale", "NoSuchSentence", "Node", "Phrase", "Refusal",
    "Refused", "RULES", "Row", "SecondaryEdge", "Sentence", "Survey", "Unexplained", "Word", "sources",
]  # fmt: skip
