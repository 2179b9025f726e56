"""One corpus used by several threads at once: each sees what one thread alone sees."""

import threading
import unittest
from unittest import mock

from cases import JA, SCHADE
from hraunlik import Corpus, layout
from hraunlik.compare import compare

TIMES = 100
SENTENCES = 200


def of_many_words(number):
    """A sentence whose words tell its number, of as many words as its number's last digit, and more."""
    words = "".join(f"w{number}.{word} T{number % 7} -- HD 500\n" for word in range(1 + number % 10))
    return f"#BOS {number} 2 {number} 1\n{words}#500 S -- -- 0 RE 501 %% c{number}\n#501 S -- -- 0\n#EOS {number}\n"


CORPUS = JA[: JA.index(b"#BOS")] + "".join(map(of_many_words, range(1, SENTENCES + 1))).encode()


def beside_each_other(works):
    """Runs the works in threads of their own, and raises what one of them raised."""
    raised = []

    def run(work):
        try:
            work()
        except BaseException as error:
            raised.append(error)

    threads = [threading.Thread(target=run, args=(work,)) for work in works]
    for thread in threads:
        thread.start()
    for thread in threads:
        thread.join()
    if raised:
        raise raised[0]


class Threads(unittest.TestCase):
    def setUp(self):
        self.alone = [sentence.meaning() for sentence in Corpus(CORPUS)]

    def test_one_corpus(self):
        """A hundred times: four threads open all sentences of one corpus."""
        for _ in range(TIMES):
            corpus = Corpus(CORPUS)

            def opened():
                self.assertEqual([sentence.meaning() for sentence in corpus], self.alone)

            beside_each_other([opened] * 4)

    def test_everything_at_once(self):
        corpus, other, tidy = Corpus(CORPUS), Corpus(SCHADE), Corpus(CORPUS).tidy()

        def described():
            self.assertEqual(other.explain("WORDTAG", "ADJD"), "Attributives Adjektiv")

        works = [
            lambda: self.assertEqual(corpus.tidy(), tidy),
            lambda: self.assertEqual([sentence.meaning() for sentence in corpus], self.alone),
            lambda: self.assertEqual(Corpus(CORPUS).survey().sentences, SENTENCES),
            lambda: self.assertTrue(compare(corpus, Corpus(tidy)).alike),
            described,
        ]
        for _ in range(TIMES // 10):
            beside_each_other(works)

    def test_a_call_inside_a_call(self):
        """A signal's handler may open another sentence while one is being read."""
        corpus, read = Corpus(CORPUS), layout.opened

        def interrupted(*room):
            with mock.patch.object(layout, "opened", read):
                self.assertEqual(corpus[SENTENCES].meaning(), self.alone[-1])
            return read(*room)

        with mock.patch.object(layout, "opened", interrupted):
            sentence = corpus[3]
        self.assertEqual(sentence.meaning(), self.alone[2])

    def test_a_corpus_closed_meanwhile(self):
        """Who still uses it gets a sentence or `ValueError`, never other bytes."""
        for _ in range(TIMES):
            corpus = Corpus(bytes(bytearray(CORPUS)))
            corpus.survey()

            def used():
                try:
                    self.assertEqual(corpus[SENTENCES].meaning(), self.alone[-1])
                except ValueError as error:
                    self.assertIn("closed", str(error))

            beside_each_other([used, corpus.close, used])
