"""The gallery: there is a smallest file for each number, and every call is answered as its list says."""

import json
import re
import unittest

from calling import called
from cases import GALLERY, ROOT, gallery, numbers
from commanding import InARoom, run
from hraunlik import Corpus, NoSuchSentence, Refused, layout
from hraunlik.gallery import calls, surveys
from hraunlik.pointing import POINTING


def shorter(path):
    """The file without one of its lines, for each line."""
    lines = path.read_bytes().splitlines(keepends=True)
    for k in range(len(lines)):
        yield b"".join(lines[:k] + lines[k + 1 :])


class Lists(unittest.TestCase):
    def test_each_number_and_each_file(self):
        entries = [*surveys(), *calls()]
        self.assertEqual({entry.answer[0] for entry in entries}, set(range(27)))
        stored = {entry.file for entry in entries if (GALLERY / entry.file).is_file()}
        self.assertEqual(stored, {path.name for path in GALLERY.glob("*.export")})
        numbered = {number for number in range(1, 27) if f"{number:02}.export" in stored}
        self.assertEqual(numbered, set(range(1, 27)) - {2})
        for entry in entries:
            self.assertRegex(entry.why, r"^[A-Z#%].*\.$")

    def test_each_slip(self):
        slips = {path.stem for path, _, _ in gallery() if path.stem.startswith("slip-")}
        self.assertEqual(slips, {"slip-unended", "slip-line-by-line", "slip-byte-160", "slip-bare-edge"})

    def test_smallest(self):
        """No line can be left out of a file for a refusal without changing its number."""
        for path, answer, _ in gallery():
            if path.stem.isdigit() and path.read_bytes().count(b"\n") <= 20:
                for less in filter(None, shorter(path)):
                    self.assertNotEqual(Corpus(less).survey().number, answer[0], (path.name, less))

    def test_smallest_of_calls(self):
        """The file for a call's refusal is accepted, and is not without one of its lines."""
        for entry in calls():
            path = GALLERY / entry.file
            if path.stem.isdigit():
                self.assertTrue(Corpus(path).survey().accepted)
                self.assertFalse(any(Corpus(less).survey().accepted for less in shorter(path)))

    def test_page(self):
        """docs/REFUSALS.md tells the answer of each number's entry, every call for it, and how a column is shown."""
        page = (ROOT / "docs" / "REFUSALS.md").read_text()
        parts = dict(re.findall(r"^\*\*(\d+)\. (.*?)(?=^\*\*\d|^## |\Z)", page, re.MULTILINE | re.DOTALL))
        for entry in [*surveys(), *calls()]:
            if entry.answer[0] and entry.file[:2].isdigit():
                part = parts[str(entry.answer[0])]
                self.assertIn(f"`{' '.join(map(str, entry.answer))}`", part)
                if entry.call != "survey":
                    self.assertIn(f"`{entry.call}`", part)
                elif entry.answer[0] in POINTING:
                    refusal = Corpus(GALLERY / entry.file).survey().refusal
                    self.assertIn(f": {refusal.where}.\n", part)
                    self.assertIn("\n  ".join(["```", *refusal.shown_line()]) + "\n```\n", part)


class Calls(InARoom):
    def path_of(self, entry):
        """The stored file, or one of zeros, which takes no room."""
        length, *zeros = entry.file.split()
        if zeros != ["zero", "bytes"]:
            return GALLERY / entry.file
        path = self.room / "zeros"
        with path.open("wb") as file:
            file.truncate(int(length))
        return path

    def each(self, function):
        """Path, words of the call and answer of each entry that calls a function."""
        for entry in calls():
            name, *words = entry.call.split()
            if name == function:
                yield self.path_of(entry), words, entry.answer

    def test_functions(self):
        for entry in calls():
            with self.subTest(entry.file, call=entry.call):
                answer, changed = called(self.path_of(entry), entry.call)
                self.assertEqual(answer, entry.answer)
                if answer[0] in (1, 2):
                    self.assertEqual(changed, set())
                self.assertEqual("output" in changed, entry.call.startswith("write") and answer[0] == 0)

    def test_surveys(self):
        for path, sizes, answer in self.each("survey"):
            if not sizes:
                self.assertEqual(numbers(Corpus(path).survey()), answer)
                status, out, _ = run("survey", "--json", path)
                told = json.loads(out)["answers"][0]
                self.assertEqual((status, told["refusal"], told["place"]), (1, *answer[:2]))

    def test_openings(self):
        for path, (number,), (refusal,) in self.each("open"):
            corpus, told = Corpus(path), json.loads(run("open", "--json", path, number)[1])
            if refusal == 0:
                self.assertEqual((corpus.open(int(number)).number, told["number"]), (int(number),) * 2)
                continue
            with self.assertRaises(NoSuchSentence) as raised:
                corpus.open(int(number))
            self.assertEqual((raised.exception.refusal.number, told), (refusal, {"refusal": refusal}))
            self.assertEqual(run("open", path, number)[0], 1)

    def test_explainings(self):
        for path, (table, tag), answer in self.each("explain"):
            name = layout.TABLE_NAMES[int(table) - 1]
            with self.assertRaises(Refused) as raised:
                Corpus(path).explain(name, tag)
            status, out, _ = run("explain-tag", "--json", path, name, tag)
            told = raised.exception.refusal.number, status, json.loads(out)
            self.assertEqual(told, (answer[0], 1, {"refusal": answer[0]}))
