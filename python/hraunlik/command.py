"""The command hraunlik. Status 0: accepted; 1: refused, or different; 2: wrong use, or unreadable."""

from __future__ import annotations

import argparse
import sys
import warnings
from typing import Any, List, Optional

from . import layout, provenance, running
from .ending import steady_streams, watched
from .first_use import prepare
from .run_split import run_split
from .showing import shown
from .words import unmarked, with_marked_tag

#: The commands that take one file and nothing else.
OF_ONE_FILE = (
    ("numbers", running.run_numbers, "the numbers of the sentences handed out"),
    ("tables", running.run_tables, "the tables in front of the sentences"),
)

#: The commands that write a file.
WITH_OUTPUT = (
    ("tidy", running.run_tidy, "the tidy text of an accepted file"),
    ("rescue", running.run_rescue, "the sound part of a half-copied file, and what is lost"),
)


class Parser(argparse.ArgumentParser):
    """A parser whose errors have no control bytes."""

    def error(self, message: str) -> Any:
        super().error(shown(message))


class Version(argparse.Action):
    """Prints the version in one line, however narrow the terminal is."""

    def __call__(self, *_: Any) -> None:
        print(provenance.told())
        sys.exit(0)


class Commands:
    """The parser, and its parts by command."""

    def __init__(self) -> None:
        self.whole = Parser(prog="hraunlik", description=__doc__)
        self.whole.add_argument("--version", action=Version, nargs=0, help="version, formats, and the sum of the library's sources")
        self._parts = self.whole.add_subparsers(required=True, metavar="COMMAND")

    def add(self, name: str, run: Any, help: str, *words: str) -> argparse.ArgumentParser:
        """A command that takes these words."""
        made = self._parts.add_parser(name, help=help, description=help)
        made.add_argument("--json", action="store_true", help="print one JSON value")
        made.set_defaults(run=run)
        for word in words:
            made.add_argument(word, metavar=word.upper())
        return made


def parser() -> argparse.ArgumentParser:
    commands = Commands()
    survey = commands.add(
        "survey", running.run_survey, "is each file accepted? a line for each, a mark under a column at fault, and a summary"
    )
    survey.add_argument("files", nargs="+", metavar="FILE", help="- for standard input")
    survey.add_argument("-r", "--recursive", action="store_true", help="all files in directories")
    survey.add_argument("-j", "--threads", type=positive, default=1, metavar="N", help="so many files at once")
    survey.add_argument("-v", "--verbose", action="store_true", help="the cure, too")
    opening = commands.add("open", running.run_open, "one sentence as a table", "file")
    opening.add_argument("number", type=int, metavar="NUMBER")
    for name, run, help in OF_ONE_FILE:
        commands.add(name, run, help, "file")
    for name, run, help in WITH_OUTPUT:
        made = commands.add(name, run, help, "file")
        made.add_argument("-o", "--output", metavar="OUT", help="write into this file, not to standard output")
    commands.add("compare", running.run_compare, "which sentences are the same, changed, missing, new", "old", "new")
    cutting = commands.add("split", run_split, "the file cut at sentence ends into files within the limit", "file")
    cutting.add_argument("-o", "--output", metavar="OUT", help="write into OUT-1.export and so on, not beside the file")
    cutting.add_argument("--bytes", type=positive, default=layout.FILE_LIMIT, metavar="N", help="of a part, at most")
    tag = commands.add("explain-tag", running.run_explain_tag, "the description of a tag, from the file's table or from a list", "file")
    tag.add_argument("table", metavar="TABLE", help=", ".join(layout.TAG_TABLES))
    tag.add_argument("tag", type=unmarked, metavar="TAG")
    tag.add_argument("--list", metavar="FILE", help="an export file that is asked if the file hasn't the table")
    explaining = commands.add("explain", running.run_explain, "a refusal in words, example, cure")
    explaining.add_argument("number", type=int, metavar="NUMBER")
    return commands.whole


def positive(text: str) -> int:
    if not text.isdigit() or int(text) == 0:
        raise argparse.ArgumentTypeError(f"{text} isn't a number from 1 on")
    return int(text)


def main(arguments: Optional[List[str]] = None) -> int:
    steady_streams()
    warnings.simplefilter("ignore", provenance.LibraryStale)  # the command says it in a line
    return watched(lambda: run(sys.argv[1:] if arguments is None else list(arguments)))


def run(words: List[str]) -> int:
    options = parser().parse_args(with_marked_tag(words))
    if options.run is not running.run_explain:
        prepare()
    return options.run(options)
