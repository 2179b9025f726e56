"""check.py REPOSITORY: uses the installed package, from a folder outside of the repository."""

import sys
from pathlib import Path

import hraunlik
from hraunlik import home

repository = Path(sys.argv[1])
assert repository not in Path(hraunlik.__file__).parents, hraunlik.__file__
for path in (home.HEADER, home.GALLERY, home.LIBRARY, home.SUM):
    assert path.parent == Path(hraunlik.__file__).parent, path

assert len(hraunlik.sources()) == 64, hraunlik.sources()
corpus = hraunlik.Corpus("schade.export")
assert [word.word for word in corpus[12].words][:3] == ["Schade", ",", "daß"]
assert hraunlik.Corpus(corpus.tidy()).tidy() == corpus.tidy()
assert len(hraunlik.Corpus("half-copied.export").sound_part()) == 1
