"""What the command tells: answers, sentences and rescues as dictionaries, and as lines."""

from __future__ import annotations

import os
import sys
from typing import Any, Dict, List, Optional

from .answers import Row
from .corpus import Corpus
from .gallery import Entry
from .pointing import POINTING, column_at_fault, line_around
from .refusals import Refusal
from .showing import beginning, mark_under, shown, written_out
from .nodes import Node, Word
from .sentence import Sentence

RED, GREEN = "31", "32"

#: What stands above the columns of a table; that of another table of tags has no flag.
TITLES = {
    "ORIGIN": ("id", "name", "comment"),
    "EDITOR": ("id", "login", "full name"),
    "WORDTAG": ("id", "tag", "flag", "description"),
}


def counted(count: int, what: str) -> str:
    return f"{count:,} {what}" if count == 1 else f"{count:,} {what}s"


def coloured(text: str, colour: str) -> str:
    plain = "NO_COLOR" in os.environ or not sys.stdout.isatty()
    return text if plain else f"\x1b[{colour}m{text}\x1b[0m"


def answer_of(corpus: Corpus) -> Dict[str, Any]:
    """A survey as a dictionary."""
    survey = corpus.survey()
    refusal = survey.refusal
    answer: Dict[str, Any] = {
        "refusal": survey.number, "place": survey.place, "line": survey.line, "column": survey.column,
        "sentences": survey.sentences, "sound_end": survey.sound_end, "bytes": corpus.size,
    }  # fmt: skip
    if refusal:
        names = ("meaning", "detail", "text", "column_text", "column_start", "cure", "brief")
        answer.update({name: getattr(refusal, name) for name in names})
    return answer


def survey_line(answer: Dict[str, Any], refusal: Optional[Refusal]) -> str:
    """What is printed of a file, where nothing of a line is marked all of it."""
    name = shown(answer["file"])
    if "error" in answer:
        return f"{name}: {coloured(shown(answer['error']), RED)}"
    kept = counted(answer["sentences"], "sentence")
    if refusal is None:
        return f"{name}: {coloured('accepted', GREEN)}, {kept}"
    number = f"refusal {refusal.number}"
    brief = coloured(number, RED) + refusal.brief[len(number) :]
    text = "" if refusal.text is None or refusal.mark else f" {beginning(refusal.text)}"
    return f"{name}: {brief}{text}; {kept} whole, sound up to byte {answer['sound_end']}"


def lines_below(refusal: Optional[Refusal], with_cure: bool) -> List[str]:
    """What is printed below: the faulty line with a mark, if something of it is marked; the cure, if it is wanted."""
    if refusal is None:
        return []
    marked = refusal.shown_line(sys.stdout.encoding) if refusal.mark else []
    return [f"  {line}" for line in [*marked, *([refusal.cure] if with_cure else [])]]


def node_dictionary(node: Node) -> Dict[str, Any]:
    return {
        "number": node.number, "word": node.word if isinstance(node, Word) else None, "tag": node.tag,
        "morphology": node.morphology, "edge": node.edge, "parent": node.parent.number if node.parent else 0,
        "secondary": [{"label": edge.label, "parent": edge.parent.number} for edge in node.secondary],
        "comment": node.comment,
    }  # fmt: skip


def node_row(node: Dict[str, Any]) -> List[str]:
    number = str(node["number"]) if node["word"] is not None else f"#{node['number']}"
    secondary = " ".join(f"{edge['label']} {edge['parent']}" for edge in node["secondary"])
    texts = [node["word"] or "", node["tag"], node["morphology"], node["edge"], str(node["parent"])]
    return [shown(cell) for cell in [number, *texts, secondary, node["comment"]]]


def sentence_dictionary(sentence: Sentence) -> Dict[str, Any]:
    return {
        "number": sentence.number, "editor": sentence.editor, "date": sentence.date, "origin": sentence.origin,
        "comment": sentence.comment, "nodes": [node_dictionary(node) for node in sentence],
    }  # fmt: skip


def table_lines(name: str, rows: List[Row]) -> List[str]:
    """A table as it is printed.

    >>> table_lines("EDITOR", Corpus("examples/ja.export").tables["EDITOR"])
    ['EDITOR', 'id  login  full name', '2   kim    Kim']
    """
    titles = list(TITLES.get(name, ("id", "tag", "description")))
    cells = [[str(row.id), row.name, *("YN"[not row.flag] for _ in titles[3:]), row.description] for row in rows]
    return [name, *aligned([titles, *([shown(cell) for cell in row] for row in cells)])]


def aligned(rows: List[List[str]]) -> List[str]:
    """Rows as lines with their columns under each other.

    >>> aligned([["1", "Ja", "ITJ"], ["500", "", "S"]])
    ['1    Ja  ITJ', '500      S']
    """
    widths = [max(map(len, column)) for column in zip(*rows)]
    return ["  ".join(cell.ljust(width) for cell, width in zip(row, widths)).rstrip() for row in rows]


def rescued(corpus: Corpus) -> Dict[str, Any]:
    """What is kept of a file, and what is lost. An accepted file is kept as it stands."""
    survey = corpus.survey()
    kept = corpus.size if survey.accepted else survey.sound_end
    lines_before = corpus.line_at(kept) - 1
    lost_lines = corpus.line_at(corpus.size) - 1 - lines_before
    return {
        **answer_of(corpus), "kept_bytes": kept, "kept_lines": lines_before,
        "lost_bytes": corpus.size - kept, "lost_whole_lines": lost_lines, "lost_from_line": lines_before + 1,
    }  # fmt: skip


def example_dictionary(entry: Entry) -> Dict[str, Any]:
    told = {"example": entry.file if entry.text is None else entry.text, "call": entry.call, "why": entry.why}
    fault = example_fault(entry)
    return told if fault is None else {**told, "line": fault.line, "column": fault.column, "column_text": fault.column_text}


def example_lines(entry: Entry) -> List[str]:
    """An entry of the gallery as it is printed; of a long file the beginning.

    >>> from hraunlik.gallery import entry_of
    >>> example_lines(entry_of(7))
    ['For example examples/gallery/07.export:', '', '    #FORMAT']
    >>> example_lines(entry_of(8))
    ['For example examples/gallery/08.export, line 1, column 2 "three":', '', '    #FORMAT three', '            ^^^^^']
    >>> example_lines(entry_of(24))[:4]
    ['For example examples/gallery/24.export, open 1:', '', '    #FORMAT 3', '    #BOT ORIGIN']
    >>> example_lines(entry_of(2))
    ['For example 268435457 zero bytes, survey:', '', 'A file has at most 268,435,456 bytes, and of a longer one none is looked at.']
    """
    if entry.text is None:
        return [f"For example {entry.file}, {entry.call}:", "", entry.why]
    lines = entry.text.split("\n")
    if lines[-1] == "":
        lines.pop()
    if len(lines) > 14:
        lines[9:] = [f".. ({len(lines)} lines)"]
    printed = ["".join(written_out(line[:72])) for line in lines or ["(an empty file)"]]
    call, why = ("", []) if entry.call == "survey" else (f", {entry.call}", ["", entry.why])
    fault = example_fault(entry)
    if fault is not None:
        call = f", {fault.where}"
        printed.append(mark_under(written_out(lines[-1]), fault.column_start, len(fault.column_text)))
    return [f"For example examples/gallery/{entry.file}{call}:", "", *(f"    {line}" for line in printed), *why]


def example_fault(entry: Entry) -> Optional[Refusal]:
    """Why the file of an entry is refused, if a column is at fault; its line is then the file's last."""
    if entry.text is None or entry.answer[0] not in POINTING:
        return None
    number, place = entry.answer[:2]
    data = entry.text.encode("latin-1")
    line = line_around(data, place, len(data))
    column = column_at_fault(number, data, line, place)
    return Refusal(number, place, 1 + data.count(b"\n", 0, place), line.text, *column)
