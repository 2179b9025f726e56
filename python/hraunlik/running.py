"""What each command does. A run answers the status: accepted, refused, unusable."""

from __future__ import annotations

import argparse
import json
import os
import sys
from concurrent.futures import ThreadPoolExecutor
from typing import Any, Dict, Iterator, List, NamedTuple, Optional

from . import layout
from .compare import compare
from .corpus import Corpus
from .ending import ACCEPTED, REFUSED, UNUSABLE, say
from .files import STANDARD_INPUT, Unusable, corpus_of, found
from .gallery import entry_of
from .outputs import keep_apart, write_out
from .progress import Progress
from .refusals import RULES, NoSuchSentence, Refusal, Refused, Unexplained
from .showing import shown
from .told import aligned, answer_of, counted, example_dictionary, example_lines, lines_below, node_row, rescued
from .told import sentence_dictionary, survey_line, table_lines

#: Said of an accepted file: it may have been cut behind a sentence, or behind its tables.
NO_FILE_CAN_TELL = "whether more followed, no file can tell; compare it with the original"


def say_why(what: str, refusal: Refusal) -> None:
    say(f"{shown(what)}: {refusal.told(sys.stderr.encoding)}")


def put_json(value: Any) -> None:
    print(json.dumps(value, indent=2))


class Look(NamedTuple):
    """What the survey command tells of one file."""

    answer: Dict[str, Any]
    refusal: Optional[Refusal] = None


def look(name: str) -> Look:
    try:
        corpus = corpus_of(name)
        return Look({"file": name, **answer_of(corpus)}, corpus.survey().refusal)
    except Unusable as error:
        return Look({"file": name, "error": error.reason})


def looks(names: List[str], threads: int) -> Iterator[Look]:
    """One answer a name, in their order. The library lets go of Python's lock while it works."""
    if threads == 1:
        yield from map(look, names)
        return
    with ThreadPoolExecutor(threads) as pool:
        yield from pool.map(look, names)


def run_survey(options: argparse.Namespace) -> int:
    names = list(found(options.files, options.recursive))
    progress, answers = Progress(), []
    numbers = set()
    for answer, refusal in looks(names, options.threads):
        answers.append(answer)
        numbers.add(answer.get("refusal", 0))
        progress.end()
        if not options.json:
            print(survey_line(answer, refusal), *lines_below(refusal, options.verbose), sep="\n")
        progress(f"{len(answers):,} of {len(names):,} files")
    progress.end()
    summary = summed(answers)
    if options.json:
        put_json({"answers": answers, "summary": summary})
    else:
        fates = "{accepted:,} accepted, {refused:,} refused, {unreadable:,} unreadable".format(**summary)
        print(f"{counted(summary['files'], 'file')}: {fates}; {counted(summary['sentences'], 'sentence')}")
        if summary["refused"] and not options.verbose:
            print("for the cure: " + ", ".join(f"explain {number}" for number in sorted(numbers - {0})) + "; or survey -v")
    return UNUSABLE if summary["unreadable"] else REFUSED if summary["refused"] else ACCEPTED


def summed(answers: List[Dict[str, Any]]) -> Dict[str, int]:
    return {
        "files": len(answers),
        "accepted": sum(a.get("refusal") == 0 for a in answers),
        "refused": sum(a.get("refusal", 0) > 0 for a in answers),
        "unreadable": sum("error" in a for a in answers),
        "sentences": sum(a.get("sentences", 0) for a in answers),
    }


def warn(corpus: Corpus, name: str) -> int:
    """The file's status; a refused file is spoken of on standard error."""
    refusal = corpus.survey().refusal
    if refusal is None:
        return ACCEPTED
    say_why(name, refusal)
    return REFUSED


def tell_refused(options: argparse.Namespace, asked: str, refused: Refused) -> int:
    """The status of a question that has no answer."""
    say_why(asked, refused.refusal)
    if options.json:
        put_json({"refusal": refused.refusal.number})
    return REFUSED


def run_open(options: argparse.Namespace) -> int:
    corpus = corpus_of(options.file)
    status = warn(corpus, options.file)
    try:
        told = sentence_dictionary(corpus.open(options.number))
    except NoSuchSentence as refused:
        return tell_refused(options, f"{options.file}: sentence {options.number}", refused)
    if options.json:
        put_json(told)
        return status
    comment = f" %% {shown(told['comment'])}" if told["comment"] else ""
    print("sentence {number}, editor {editor}, date {date}, origin {origin}".format(**told) + comment)
    titles = ["node", "word", "tag", "morphology", "edge", "parent", "secondary", "comment"]
    for line in aligned([titles] + [node_row(node) for node in told["nodes"]]):
        print(line)
    return status


def run_numbers(options: argparse.Namespace) -> int:
    corpus = corpus_of(options.file)
    if options.json:
        put_json({**answer_of(corpus), "numbers": corpus.numbers})
    else:
        for number in corpus.numbers:
            print(number)
    sys.stdout.flush()
    return warn(corpus, options.file)


def run_tables(options: argparse.Namespace) -> int:
    corpus = corpus_of(options.file)
    if options.json:
        put_json({name: [row._asdict() for row in rows] for name, rows in corpus.tables.items()})
    else:
        print("\n\n".join("\n".join(table_lines(name, rows)) for name, rows in corpus.tables.items()))
    sys.stdout.flush()
    return warn(corpus, options.file)


def run_tidy(options: argparse.Namespace) -> int:
    progress = Progress()
    corpus = corpus_of(options.file, progress)
    keep_apart(options.file, options.output)
    progress.step(f"surveying {options.file}", corpus.size)
    try:
        corpus.accepted()
        progress.step("writing the tidy text", corpus.size)
        text: Optional[memoryview] = corpus.tidy_view()
    except Refused as refused:
        progress.end()
        say_why(options.file, refused.refusal)
        text = None
    progress.end()
    if text is not None and (options.output or not options.json):
        write_out([text], options.output)
    if options.json:
        put_json({**answer_of(corpus), "length": len(text or b"")})
    return REFUSED if text is None else ACCEPTED


def run_rescue(options: argparse.Namespace) -> int:
    corpus = corpus_of(options.file)
    keep_apart(options.file, options.output)
    report = rescued(corpus)
    if report["kept_bytes"] and (options.output or not options.json):
        write_out(corpus.chunks(0, report["kept_bytes"]), options.output)
    if options.json:
        put_json(report)
    if warn(corpus, options.file) == ACCEPTED:
        say(f"{shown(options.file)}: accepted as it stands: {counted(report['sentences'], 'sentence')}; {NO_FILE_CAN_TELL}")
        return ACCEPTED
    if report["kept_bytes"] == 0:
        say("kept: nothing, no sentence is whole; nothing was written")
    else:
        kept = (("sentences", "sentence"), ("kept_lines", "line"), ("kept_bytes", "byte"))
        say("kept: " + ", ".join(counted(report[key], what) for key, what in kept))
    lost = f"{counted(report['lost_whole_lines'], 'whole line')}, {counted(report['lost_bytes'], 'byte')}"
    say(f"lost: all from line {report['lost_from_line']} on, byte {report['kept_bytes']}: {lost}")
    return REFUSED


def run_compare(options: argparse.Namespace) -> int:
    if options.old == options.new == STANDARD_INPUT:
        raise Unusable("standard input can be read once only")
    progress, corpora = Progress(), []
    for name in (options.old, options.new):
        corpora.append(corpus_of(name, progress))
        progress.step(f"surveying {name}", corpora[-1].size)
        corpora[-1].survey()
    progress.end()
    old, new = corpora
    status = max(warn(old, options.old), warn(new, options.new))
    difference = compare(old, new, lambda done, all: progress(f"{done:,} of {all:,} sentences"))
    progress.end()
    if options.json:
        put_json({**vars(difference), "old_file": answer_of(old), "new_file": answer_of(new)})
    else:
        for name, fate in difference.tables.items():
            print(f"table {name}: {fate}")
        for fate in ("changed", "missing", "new"):
            for number in getattr(difference, fate):
                print(f"sentence {number}: {fate}")
        counts = [f"{len(getattr(difference, fate))} {fate}" for fate in ("same", "changed", "missing", "new")]
        print(f"sentences: {', '.join(counts)}; tables: {'differ' if difference.tables else 'same'}")
    return status if difference.alike else REFUSED


def run_explain(options: argparse.Namespace) -> int:
    number = options.number
    if number not in RULES:
        raise Unusable(f"there is no refusal {number}; they go from 1 to {max(RULES)}")
    rule, entry = RULES[number], entry_of(number)
    if options.json:
        put_json({"refusal": number, **rule._asdict(), **example_dictionary(entry)})
    else:
        print(f"Refusal {number}: {rule.meaning}.\n")
        print("\n".join(example_lines(entry)))
        print(f"\n{rule.cure}")
    return ACCEPTED


def run_explain_tag(options: argparse.Namespace) -> int:
    if options.file == options.list == STANDARD_INPUT:
        raise Unusable("standard input can be read once only")
    table = options.table.upper()
    if table not in layout.TABLE_NAMES:
        raise Unusable(f"no table is called {options.table}; those of tags are {', '.join(layout.TAG_TABLES)}")
    corpus = corpus_of(options.file)
    tags = corpus_of(options.list) if options.list else corpus
    try:
        description = corpus.explain(table, options.tag, tags)
    except Unexplained as refused:
        return tell_refused(options, f"{options.file}: {table} {options.tag}", refused)
    except Refused as refused:
        at_fault = options.file if refused.refusal is corpus.survey().refusal else options.list
        return tell_refused(options, at_fault, refused)
    if options.json:
        put_json({"table": table, "tag": options.tag, "description": description})
    else:
        print(shown(description))
    return ACCEPTED
