"""The command `split`: the parts of a file, written beside it or where it is told."""

from __future__ import annotations

import argparse
import os
from typing import Any, Dict, List, Optional

from . import layout
from .corpus import Corpus
from .ending import ACCEPTED, REFUSED, say
from .files import STANDARD_INPUT, Unusable, standard_input
from .outputs import keep_apart, write_out
from .progress import Progress
from .reading import PACKED, FileChanged, opened
from .refusals import Refusal
from .running import put_json, say_why
from .showing import shown
from .splitting import Splitting, TooSmall
from .told import counted

ENDING = ".export"


class Parts:
    """The files that are written, one for each part; taken away again if something goes wrong."""

    def __init__(self, source: str, beginning: Optional[str]) -> None:
        self.source, self.progress = source, Progress()
        if beginning is None and source == STANDARD_INPUT:
            raise Unusable("the parts of standard input need a name: -o")
        self.beginning = beginning if beginning is not None else _without_ending(source)
        self.written: List[Dict[str, Any]] = []

    def put(self, part: Corpus) -> None:
        name = f"{self.beginning}-{len(self.written) + 1}{ENDING}"
        keep_apart(self.source, name)
        self.progress.step(f"writing {name}", part.size)
        write_out(part.chunks(), name)
        self.written.append({"file": name, "sentences": part.survey().sentences, "bytes": part.size})

    def take_away(self) -> None:
        for part in self.written:
            os.unlink(part["file"])


def _without_ending(name: str) -> str:
    for ending in (PACKED, ENDING):
        name = name[: -len(ending)] if name.endswith(ending) else name
    return name


def run_split(options: argparse.Namespace) -> int:
    parts = Parts(options.file, options.output)
    try:
        refusal = _cut(options.file, min(options.bytes, layout.FILE_LIMIT), parts)
    except BaseException:
        parts.take_away()
        raise
    finally:
        parts.progress.end()
    if options.json:
        put_json({"parts": parts.written, "refusal": refusal.number if refusal else 0})
    else:
        for part in parts.written:
            print(f"{shown(part['file'])}: {counted(part['sentences'], 'sentence')}, {counted(part['bytes'], 'byte')}")
    if refusal is None:
        return ACCEPTED
    say_why(options.file, refusal)
    say("the parts hold all sentences in front of it")
    return REFUSED


def _cut(name: str, most: int, parts: Parts) -> Optional[Refusal]:
    try:
        if name == STANDARD_INPUT:
            return Splitting(standard_input(), most, parts.put).run()
        with opened(name) as file:
            return Splitting(file, most, parts.put).run()
    except FileChanged as error:
        raise Unusable(error.strerror, name) from None
    except TooSmall as error:
        raise Unusable(str(error), name) from None
    except (OSError, ValueError) as error:
        raise Unusable(f"can't be read: {getattr(error, 'strerror', None) or error}", name) from None
