"""Two files by meaning: a backup and its original.

Lines that are the same mean the same. Of others the two sentences are opened, and what they say is compared.
"""

from __future__ import annotations

from dataclasses import dataclass, field
from typing import Callable, Dict, List, Optional

from . import layout
from .answers import Row
from .corpus import Corpus


@dataclass
class Difference:
    """Sentence numbers by what became of them, and the names of tables that differ."""

    same: List[int] = field(default_factory=list)
    changed: List[int] = field(default_factory=list)
    missing: List[int] = field(default_factory=list)  #: in the old file alone
    new: List[int] = field(default_factory=list)  #: in the new file alone
    tables: Dict[str, str] = field(default_factory=dict)  #: changed, missing or new

    @property
    def alike(self) -> bool:
        return not (self.changed or self.missing or self.new or self.tables)


def compare(old: Corpus, new: Corpus, tick: Callable[[int, int], None] = lambda done, all: None) -> Difference:
    """Compares the closed tables and the sentences handed out.

    >>> data = bytes(Corpus("examples/ja.export"))
    >>> compare(Corpus(data), Corpus(data.replace(b"ITJ", b"ADV"))).changed
    [7]
    """
    difference = Difference(tables=_tables(old.tables, new.tables))
    before, after = set(old.numbers), set(new.numbers)
    difference.missing = sorted(before - after)
    difference.new = sorted(after - before)
    both = sorted(before & after)
    for done, number in enumerate(both):
        tick(done, len(both))
        same = old.lines_from(number) == new.lines_from(number) or old.open(number) == new.open(number)
        (difference.same if same else difference.changed).append(number)
    return difference


def _tables(old: Dict[str, List[Row]], new: Dict[str, List[Row]]) -> Dict[str, str]:
    found = {name: _fate(name, old.get(name), new.get(name)) for name in layout.TABLE_NAMES}
    return {name: fate for name, fate in found.items() if fate}


def _fate(name: str, old: Optional[List[Row]], new: Optional[List[Row]]) -> Optional[str]:
    if old is None or new is None:
        return None if old is new else "new" if old is None else "missing"
    if name in layout.UNORDERED_TABLES:
        old, new = sorted(old), sorted(new)
    return None if old == new else "changed"
