"""What people who know Python expect of the package: membership, slices, equality, pickles, files, names, docstrings."""

import copy
import dataclasses
import gzip
import inspect
import io
import os
import pickle
import subprocess
import sys
import unittest

import hraunlik
from cases import GALLERY, HALF, JA, ROOT, SCHADE, UNTIDY, gallery
from commanding import InARoom, run
from hraunlik import Corpus, making

EXAMPLE = ROOT / "examples" / "schade.export"


class Corpora(InARoom):
    def test_membership(self):
        corpus = Corpus(UNTIDY)
        self.assertTrue(1 in corpus and 2 in corpus)
        self.assertFalse(3 in corpus or "1" in corpus or -1 in corpus or None in corpus)
        self.assertTrue(corpus[1] in corpus)
        self.assertFalse(Corpus(JA.replace(b"OS 7", b"OS 1"))[1] in corpus)

    def test_order(self):
        corpus = Corpus(UNTIDY)
        self.assertEqual([s.number for s in reversed(corpus)], [1, 2])
        self.assertEqual([s.number for s in corpus], [2, 1])

    def test_slices_are_refused_in_words(self):
        with self.assertRaisesRegex(TypeError, "corpus.numbers"):
            Corpus(UNTIDY)[0:1]
        with self.assertRaises(TypeError):
            Corpus(UNTIDY)["1"]

    def test_sources(self):
        path = self.file("ja.export", JA)
        with path.open("rb") as file:
            for source in (JA, bytearray(JA), memoryview(JA), io.BytesIO(JA), path, str(path), file):
                self.assertEqual(bytes(Corpus(source)), JA)
        with path.open() as file, self.assertRaisesRegex(TypeError, "'rb'"):
            Corpus(file)
        changing = bytearray(JA)
        corpus = Corpus(changing)
        changing[:] = b"x" * len(JA)
        self.assertEqual(bytes(corpus), JA)

    def test_packed_files(self):
        path = self.file("ja.export.gz", gzip.compress(JA))
        self.assertEqual(bytes(Corpus(path)), JA)
        self.assertEqual(run("survey", path)[0], 0)
        for damaged in (gzip.compress(JA)[:-9], b"no pack", gzip.compress(JA)[:20] + b"\0" * 30):
            status, out, _ = run("survey", self.file("cut.gz", damaged))
            self.assertEqual((status, b"can't be read" in out), (2, True))

    def test_closing(self):
        with Corpus(EXAMPLE) as corpus:
            sentence = corpus[12]
        self.assertEqual(sentence.words[4].word, "Arzt")
        for use in (lambda: corpus[12], corpus.tidy, lambda: bytes(corpus), lambda: corpus.size):
            with self.assertRaisesRegex(ValueError, "closed"):
                use()

    def test_names(self):
        self.assertEqual(repr(Corpus(str(EXAMPLE))), f"Corpus({str(EXAMPLE)!r})")
        self.assertEqual(repr(Corpus(JA)), "Corpus(<126 bytes>)")
        for need in (len, lambda c: c[1], Corpus.tidy, lambda c: c.open(9), lambda c: c.explain("WORDTAG", "x")):
            with self.assertRaises(hraunlik.Refused) as raised:
                need(Corpus(HALF))
            self.assertEqual(raised.exception.file, str(HALF))
            self.assertTrue(str(raised.exception).startswith(f"{HALF}: refusal "))
        self.assertRegex(hraunlik.__version__, r"^\d+\.\d+\.\d+$")

    def test_many_at_once(self):
        """1,024 corpora hold no descriptor, and 300 that were surveyed take little memory."""
        code = """if True:
            import resource, sys
            from hraunlik import Corpus
            before = resource.getrusage(resource.RUSAGE_SELF).ru_maxrss
            resource.setrlimit(resource.RLIMIT_NOFILE, (64, 64))
            held = [Corpus(sys.argv[1]) for _ in range(1024)]
            for corpus in held[:300]:
                assert corpus.survey().accepted and len(corpus) == 1
            print(resource.getrusage(resource.RUSAGE_SELF).ru_maxrss - before)
        """
        environment = {**os.environ, "PYTHONPATH": str(ROOT / "python")}
        command = [sys.executable, "-c", code, str(self.file("ja", JA))]
        kilobytes = int(subprocess.run(command, env=environment, stdout=subprocess.PIPE, check=True).stdout)
        self.assertLess(kilobytes, 30_000)


class Sentences(unittest.TestCase):
    def test_equality(self):
        corpus, spaced = Corpus(JA), Corpus(JA.replace(b"Ja ITJ", b"%% x\nJa \t ITJ"))
        one, same, other = corpus[7], spaced[7], Corpus(JA.replace(b"Ja ", b"Ne "))[7]
        self.assertEqual((one, hash(one)), (same, hash(same)))
        self.assertNotEqual(one, other)
        self.assertEqual(len({one, same, other}), 2)
        self.assertEqual((one.words[0], hash(one.words[0])), (same.words[0], hash(same.words[0])))
        self.assertNotEqual(one.words[0], other.words[0])
        self.assertNotEqual(one, 7)

    def test_copies(self):
        for path in (EXAMPLE, UNTIDY, GALLERY / "shared-subject.export"):
            for sentence in Corpus(path):
                for copied in (pickle.loads(pickle.dumps(sentence)), copy.deepcopy(sentence), copy.copy(sentence)):
                    self.assertEqual(copied.meaning(), sentence.meaning())
                for node in sentence:
                    self.assertEqual(pickle.loads(pickle.dumps(node)), node)
        self.assertEqual(pickle.loads(pickle.dumps(Corpus(SCHADE)))[12], Corpus(SCHADE)[12])

    def test_a_node_outlives_its_sentence(self):
        word = Corpus(EXAMPLE)[12].words[4]
        self.assertEqual([phrase.number for phrase in word.ancestors], [501, 502, 503])
        self.assertIn(word, word.parent.children)
        self.assertEqual(word.sentence.number, 12)
        held = word.sentence
        self.assertIs(word.sentence, held)

    def test_surface_order(self):
        sentence = Corpus(EXAMPLE)[12]
        self.assertEqual([child.number for child in sentence.phrase(502).children], [2, 501, 5, 6])
        self.assertEqual([root.number for root in sentence.roots], [503, 1, 7, 11])
        self.assertEqual(sentence.words[0].children, [])
        self.assertEqual(sentence.phrase(503).ancestors, [])
        lines = b"#BOS 7 2 0 1\na A -- -- 501\n#500 N -- -- 502\n#501 N -- -- 502\n#502 S -- -- 0\n#EOS 7\n"
        empty = Corpus(JA[: JA.index(b"#BOS")] + lines)[7]
        self.assertEqual([child.number for child in empty.phrase(502).children], [501, 500])

    def test_made_in_two_ways(self):
        """Splitting the lines gives the texts that stand at the sheet's places."""
        for path, _, _ in [*gallery(), (EXAMPLE, (), "")]:
            for sentence in Corpus(path).handed_out():
                origin = sentence._origin
                for rows, records in ((making.word_rows, origin.words), (making.phrase_rows, origin.phrases)):
                    told = [row[1:4] for row in rows(origin)]
                    exact = [making.texts_at(origin.text, records, field) for field in making.FIELDS[1:]]
                    self.assertEqual(told, list(zip(*exact)))
                self.assertEqual([w.word for w in sentence.words], making.texts_at(origin.text, origin.words, making.FIELDS[0]))


class Documentation(unittest.TestCase):
    def test_every_field_has_a_docstring(self):
        for name in hraunlik.__all__:
            thing = getattr(hraunlik, name)
            if not inspect.isclass(thing):
                continue
            self.assertTrue(thing.__doc__, name)
            for field in (field.name for field in (dataclasses.fields(thing) if dataclasses.is_dataclass(thing) else ())):
                self.assertIn(f"\n    {field}: ", thing.__doc__, name)
            for attribute, value in vars(thing).items():
                if not attribute.startswith("_") and not isinstance(value, (str, int, type(None))):
                    told = inspect.getdoc(value)
                    self.assertTrue(told and not told.startswith("Alias for field"), f"{name}.{attribute}")
