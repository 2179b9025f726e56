"""The files that the tests share."""

import subprocess
from pathlib import Path

from hraunlik.gallery import surveys

ROOT = Path(__file__).resolve().parents[2]
GALLERY = ROOT / "examples" / "gallery"
JA = (ROOT / "examples" / "ja.export").read_bytes()
SCHADE = (ROOT / "examples" / "schade.export").read_bytes()
HALF = GALLERY / "half-copied.export"
UNTIDY = GALLERY / "untidy.export"


def gallery():
    """File, survey's answer and reason of each row of gallery.tsv."""
    for entry in surveys():
        yield GALLERY / entry.file, entry.answer, entry.why


def printed():
    """Document 01's cases: the answer, and the file made of file A."""
    comment_line = """comment_line() { printf '%%%%%*s\\n' "$(($1 - 2))" ''; }; export LC_ALL=C; """
    for line in (ROOT / "tests" / "tell" / "cases").read_text().splitlines():
        if line and not line.startswith("#"):
            answer, edit = line.split("|", 1)
            made = subprocess.run(["bash", "-c", comment_line + edit], input=JA, stdout=subprocess.PIPE, check=True)
            yield tuple(map(int, answer.split())), made.stdout


def numbers(survey):
    return survey.number, survey.place, survey.sentences, survey.sound_end
