"""Large files: memory of compare and tidy, words at once on a terminal, and files cut into parts that are each accepted."""

import gzip
import json
import os
import subprocess
import sys
import unittest
from unittest import mock

from cases import HALF, JA, ROOT, UNTIDY
from commanding import COMMAND, InARoom, on_a_terminal, run
from hraunlik import Corpus, FileChanged, layout, progress, run_split
from hraunlik.compare import compare

HEAD = JA[: JA.index(b"#BOS")]
LINE = b"%%" + b" " * 4000 + b"\n"


def sentence(number, words=1):
    return b"#BOS %d 2 0 1\n%s#EOS %d\n" % (number, b"Ja ITJ -- -- 0\n" * words, number)


def peak_of(*words):
    """The most memory, in bytes, that the command takes."""
    code = "import resource, subprocess, sys\nsubprocess.run(sys.argv[1:], stdout=subprocess.DEVNULL)\n"
    code += "print(resource.getrusage(resource.RUSAGE_CHILDREN).ru_maxrss * 1024)\n"
    told = subprocess.run([sys.executable, "-c", code, COMMAND, *map(str, words)], stdout=subprocess.PIPE, check=True)
    return int(told.stdout)


class Memory(InARoom):
    """The file and the tidy text, or both files and where their sentences stand, beside what Python itself takes.

    Of a file of 250 MB that is less than 2.2 times its size for tidy, less than 2.5 times for compare.
    """

    ROOM = 35_000_000

    def setUp(self):
        super().setUp()
        sentences = b"".join(sentence(number, 200) for number in range(1, 30000))
        self.path = self.file("large", HEAD + sentences)
        self.size = self.path.stat().st_size

    def test_tidy(self):
        self.assertGreater(self.size, 80_000_000)
        self.assertLess(peak_of("tidy", self.path, "-o", self.room / "tidy"), 2.05 * self.size + self.ROOM)

    def test_compare(self):
        other = self.file("other", self.path.read_bytes().replace(b"Ja ITJ", b"Ja\tITJ", 5000))
        self.assertLess(peak_of("compare", self.path, other), 2.2 * self.size + self.ROOM)


class FromTheStart(InARoom):
    def test_words_at_once(self):
        path = self.file("large", JA + LINE * (progress.LARGE // len(LINE) + 1))
        for words, steps in (
            (("tidy", path, "-o", self.room / "out"), ("reading", "surveying", "writing the tidy text")),
            (("compare", path, path), ("reading", "surveying")),
        ):
            shown = on_a_terminal(*words, more={}).decode()
            for step in steps:
                self.assertIn(f"\r\x1b[K{step}", shown)


class Parts(InARoom):
    def cut(self, data, most, *words):
        """Status, and the parts that were written."""
        path = self.file("whole.export", data)
        status, out, error = run("split", path, "--bytes", most, *words)
        names = [line.split(":")[0] for line in out.decode().splitlines()]
        return status, [Corpus(name) for name in names], error

    def test_every_size(self):
        whole = HEAD + b"".join(sentence(number, number) for number in range(1, 9)) + b"%% last\n"
        numbers = Corpus(whole).numbers
        for most in range(len(HEAD) + len(sentence(8, 8)) + 8, len(whole) + 2, 7):
            status, parts, _ = self.cut(whole, most)
            self.assertEqual(status, 0)
            self.assertTrue(all(part.survey().accepted and part.size <= most for part in parts))
            self.assertEqual([number for part in parts for number in part.numbers], numbers)
            self.assertTrue(all(part[n] == Corpus(whole)[n] for part in parts for n in part.numbers))
        self.assertEqual(len(parts), 1)

    def test_over_the_limit(self):
        """The cure for 2: the parts of a file that is too long are accepted, and have its sentences."""
        path = self.room / "long.export"
        with path.open("wb") as file:
            file.write(HEAD + sentence(1))
            for _ in range(layout.FILE_LIMIT // len(LINE) + 1):
                file.write(LINE)
            file.write(sentence(2))
        self.assertEqual(run("survey", path)[0], 1)
        status, out, _ = run("split", path, "-o", self.room / "part", "--json")
        told = json.loads(out)
        self.assertEqual((status, told["refusal"]), (0, 0))
        self.assertEqual([part["sentences"] for part in told["parts"]], [1, 0, 1])
        for part in told["parts"]:
            self.assertEqual(run("survey", part["file"])[0], 0)

    def test_a_fault_is_told_with_its_line(self):
        whole = HEAD + b"".join(sentence(number) for number in range(1, 6)) + b"#BOS 6 2 0 1\nJa ITJ --\n#EOS 6\n"
        status, parts, error = self.cut(whole, len(HEAD) + 2 * len(sentence(1)) + 1)
        self.assertEqual((status, [part.numbers for part in parts]), (1, [[1, 2], [3, 4], [5]]))
        refusal = Corpus(whole).survey().refusal
        self.assertIn(f"refusal 7, line {refusal.line}: ", error)

    def test_nothing_is_left_of_what_fails(self):
        whole = HEAD + sentence(1) + sentence(2, 50)
        for most in (len(HEAD) + len(sentence(1)) + 2, 10):
            status, parts, error = self.cut(whole, most)
            self.assertEqual((status, parts, "no sentence ends within" in error), (2, [], True))
        changed = FileChanged(116, "changed while it was read", "x")
        with mock.patch.object(run_split.Splitting, "run", side_effect=changed):
            self.assertEqual(self.cut(whole, 1000)[0], 2)
        self.assertEqual(os.listdir(self.room), ["whole.export"])
        self.assertEqual(run("split", self.room / "none")[0], 2)

    def test_standard_input(self):
        self.assertEqual(run("split", "-", "-o", self.room / "part", given=JA)[0], 0)
        self.assertEqual(bytes(Corpus(self.room / "part-1.export")), JA)
        self.assertEqual(run("split", "-", given=JA)[0], 2)

    def test_packed_and_small(self):
        path = self.file("untidy.export.gz", gzip.compress(UNTIDY.read_bytes()))
        self.assertEqual(run("split", path)[0], 0)
        self.assertTrue(compare(Corpus(self.room / "untidy-1.export"), Corpus(UNTIDY)).alike)
        self.assertEqual(run("split", HALF, "-o", self.room / "half")[0], 1)
        self.assertEqual(Corpus(self.room / "half-1.export").numbers, [1])


class SpeedInPython(unittest.TestCase):
    def test_the_benchmark_agrees_with_the_script(self):
        """Package and script read the same; how fast they are is told by bench/python.py, not here."""
        told = subprocess.run([sys.executable, ROOT / "bench" / "python.py", "50"], stdout=subprocess.PIPE, check=True)
        self.assertRegex(told.stdout.decode(), r"every field: the script [\d,]+, the package [\d,]+, [\d.]+ times")
