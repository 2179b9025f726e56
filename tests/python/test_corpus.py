"""The package: answers, sentences, cuts."""

import ctypes.util
import doctest
import importlib
import os
import tempfile
import unittest
from unittest import mock

import hraunlik
from cases import GALLERY, HALF, JA, ROOT, SCHADE, UNTIDY, gallery, numbers, printed
from hraunlik import Corpus, layout, library
from hraunlik.compare import compare

MODULES = ["", ".corpus", ".compare", ".details", ".files", ".gallery", ".layout", ".making", ".nodes", ".pointing", ".refusals", ".sentence", ".showing", ".told", ".words"]


def load_tests(loader, tests, pattern):
    os.chdir(ROOT)
    for name in MODULES:
        tests.addTests(doctest.DocTestSuite(importlib.import_module("hraunlik" + name)))
    return tests


class Answers(unittest.TestCase):
    def test_gallery(self):
        for path, answer, why in gallery():
            with self.subTest(path.name):
                for source in (path, str(path), path.read_bytes()):
                    self.assertEqual(numbers(Corpus(source).survey()), answer)
                self.assertTrue(why.endswith("."))

    def test_printed_cases(self):
        for answer, file in printed():
            self.assertEqual(numbers(Corpus(file).survey()), answer)

    def test_every_refusal_has_words(self):
        self.assertEqual(list(hraunlik.RULES), list(range(1, 27)))

    def test_line_and_text_of_the_fault(self):
        survey = Corpus(HALF).survey()
        self.assertEqual((survey.line, survey.refusal.text), (13, "#500 S -- --"))
        self.assertEqual(Corpus(b"").survey().refusal.text, None)

    def test_too_long_and_longest(self):
        with tempfile.TemporaryFile() as file:
            path = f"/proc/self/fd/{file.fileno()}"
            file.truncate(layout.FILE_LIMIT + 1)
            self.assertEqual(numbers(Corpus(path).survey()), (2, 0, 0, 0))
            file.truncate(layout.FILE_LIMIT)
            file.write(JA)
            file.flush()
            self.assertEqual(numbers(Corpus(path).survey()), (3, len(JA), 1, len(JA)))


class Sentences(unittest.TestCase):
    def test_fields(self):
        sentence = Corpus(UNTIDY)[2]
        first, second = sentence.words
        self.assertEqual((first.word, first.tag, first.morphology, first.edge), ("Ja", "ITJ", "--", "--"))
        self.assertEqual((second.parent, second.parent.parent), (sentence.phrase(501), None))
        low = sentence.phrase(500)
        self.assertEqual([(e.label, e.parent.number) for e in low.secondary], [("RE", 501)])
        self.assertEqual((low.comment, sentence.comment), ("twice", "checked"))
        self.assertEqual(sentence.phrase(501).children, [low, second])
        self.assertEqual(sentence.phrase(501).words, [first, second])
        self.assertEqual(sentence.roots, [sentence.phrase(501)])
        self.assertEqual((sentence.editor, sentence.origin, sentence.date), (0, 1, 0))
        self.assertEqual(Corpus(UNTIDY)[1].editor, -1)

    def test_secondary_edges_down_and_round(self):
        corpus = Corpus(GALLERY / "shared-subject.export")
        joined, circle = corpus[7], corpus[8]
        self.assertEqual(joined.phrase(501).parent, joined.phrase(502))
        self.assertEqual(joined.phrase(501).secondary, (("SB", joined.phrase(500)),))
        self.assertEqual(circle.phrase(500).secondary, (("RE", circle.phrase(501)),))
        self.assertEqual(circle.phrase(501).secondary, (("RE", circle.phrase(500)),))

    def test_order_and_numbers(self):
        corpus = Corpus(UNTIDY)
        self.assertEqual([s.number for s in corpus], [2, 1])
        self.assertEqual((corpus.numbers, len(corpus)), ([2, 1], 2))

    def test_hard_space_is_a_letter(self):
        self.assertEqual(Corpus(GALLERY / "slip-byte-160.export")[1].words[0].word, "10\xa0000")

    def test_no_such_sentence(self):
        for number in (0, 8, -1, 65535, 65536, 1 << 40):
            with self.assertRaises(hraunlik.NoSuchSentence) as raised:
                Corpus(JA)[number]
            self.assertEqual(raised.exception.refusal.number, 24)

    def test_refused_file_raises_where_it_must_be_whole(self):
        half = Corpus(HALF)
        for need in (len, iter, lambda c: c[1], Corpus.tidy, Corpus.accepted):
            with self.assertRaises(hraunlik.Refused):
                need(half)
        self.assertEqual([s.number for s in half.handed_out()], [1])
        self.assertEqual(half.open(1).words[0].word, "Ja")

    def test_tables(self):
        tables = Corpus(SCHADE).tables
        self.assertEqual(tuple(tables), layout.TABLE_NAMES)
        self.assertEqual(tables["WORDTAG"][2], (1, "ADJD", "Attributives Adjektiv", True))
        self.assertEqual(tables["SECEDGETAG"], [])

    def test_many_sentences(self):
        head = JA[: JA.index(b"#BOS")]
        body = b"".join(b"#BOS %d 2 0 1\nJa ITJ -- -- 0\n#EOS %d\n" % (n, n) for n in range(65535, 0, -1))
        self.assertEqual([s.number for s in Corpus(head + body)], list(range(65535, 0, -1)))


class Tags(unittest.TestCase):
    """The file if it has the table, else the list; the table decides, not the tag."""

    HEAD = JA[: JA.index(b"#BOS")]
    OURS = Corpus(HEAD + b"#BOT WORDTAG\n1 NN Y noun\n#EOT WORDTAG\n")
    TAGS = Corpus(HEAD + b"#BOT WORDTAG\n0 -- N none\n1 NN Y other\n2 VB Y verb\n#EOT WORDTAG\n#BOT NODETAG\n1 S clause\n#EOT NODETAG\n")

    def test_which_of_the_two(self):
        self.assertEqual(self.OURS.explain("WORDTAG", "NN", tags=self.TAGS), "noun")
        self.assertEqual(self.OURS.explain("WORDTAG", "--", tags=self.TAGS), "")
        self.assertEqual(self.OURS.explain("NODETAG", "S", tags=self.TAGS), "clause")
        self.assertEqual(self.OURS.explain("NODETAG", "UNKNOWN", tags=self.TAGS), "")
        self.assertEqual(self.TAGS.explain("WORDTAG", "--"), "none")
        for tags in (ROOT / "examples" / "schade.export", SCHADE, Corpus(SCHADE)):
            self.assertEqual(Corpus(JA).explain("WORDTAG", "ADJD", tags), "Attributives Adjektiv")

    def test_unexplained(self):
        in_no_table = [("WORDTAG", tag) for tag in ("VB", "NN ", "", "\0", "\u0142")]
        for table, tag in in_no_table + [("MORPHTAG", "--"), ("EDITOR", "--"), ("TAGS", "--")]:
            with self.assertRaises(hraunlik.Unexplained) as raised:
                self.OURS.explain(table, tag, tags=self.TAGS)
            self.assertEqual(raised.exception.refusal.number, 26)

    def test_refused_file_and_list(self):
        half, empty = Corpus(HALF), Corpus(b"")
        for file, tags, at_fault in ((half, self.TAGS, half), (self.OURS, half, half), (empty, half, empty)):
            with self.assertRaises(hraunlik.Refused) as raised:
                file.explain("WORDTAG", "NN", tags=tags)
            self.assertEqual(raised.exception.refusal, at_fault.survey().refusal)


class Lines(unittest.TestCase):
    def test_lines_are_the_file_behind_the_tables(self):
        corpus = Corpus(UNTIDY)
        lines = b"".join(map(corpus.lines_from, corpus.numbers))
        self.assertTrue(lines.startswith(b"#BOS 2") and bytes(corpus).endswith(lines))
        with self.assertRaises(hraunlik.NoSuchSentence):
            corpus.lines_from(3)


class Cuts(unittest.TestCase):
    def test_every_cut(self):
        """Sentences that end in front of the cut are kept unchanged, no others, and the sound part is accepted."""
        whole = UNTIDY.read_bytes()
        ends = [whole.index(end) + len(end) for end in (b"#EOS 2\n", b"#EOS 1\n")]
        meanings = [s.meaning() for s in Corpus(whole)]
        for cut in range(len(whole) + 1):
            corpus = Corpus(whole[:cut])
            kept = sum(end <= cut for end in ends)
            self.assertEqual([s.meaning() for s in corpus.handed_out()], meanings[:kept])
            part = corpus.sound_part()
            self.assertEqual(bytes(part), whole[: ends[kept - 1] if kept else 0])
            self.assertEqual(part.survey().accepted, kept > 0)


class Tidy(unittest.TestCase):
    def test_same_meaning(self):
        for path, answer, _ in gallery():
            if answer[0] == 0:
                tidy = Corpus(Corpus(path).tidy())
                self.assertTrue(compare(Corpus(path), tidy).alike)
                self.assertEqual(tidy.tidy(), bytes(tidy))

    def test_refusals(self):
        for path, answer, _ in gallery():
            if answer[0] != 0:
                with self.assertRaises(hraunlik.Refused) as raised:
                    Corpus(path).tidy()
                refusal = raised.exception.refusal
                self.assertEqual((refusal.number, refusal.place), answer[:2])


class Libraries(unittest.TestCase):
    def setUp(self):
        library.load.cache_clear()
        self.addCleanup(library.load.cache_clear)

    def test_other_libraries_are_told_from_it(self):
        """Of a library that can't be loaded, and of one without the functions, one is told in words."""
        other = ctypes.util.find_library("c")
        for path in ("/nowhere/libhraunlik.so", os.devnull, other):
            with mock.patch.dict(os.environ, HRAUNLIK_LIBRARY=path):
                with self.assertRaises(hraunlik.LibraryMissing):
                    Corpus(JA).survey()

    def test_missing(self):
        with mock.patch.object(library, "find", return_value=None):
            with self.assertRaisesRegex(hraunlik.LibraryMissing, "tools/libraries makes it"):
                Corpus(JA).survey()
