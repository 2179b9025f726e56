"""Generated files: all that the package tells of one, beside what the independent reader tells."""

import os
import unittest

from hraunlik import Corpus, Refused, layout


def written(text):
    return "." + text.encode("latin-1").hex()


def rows(corpus):
    for name, table in corpus.tables.items():
        for row in table:
            number = layout.TABLE_NAMES.index(name)
            yield f"row {number} {row.id} {written(row.name)} {written(row.description)} {int(row.flag)}"


def node_line(node):
    texts = [getattr(node, "word", ""), node.tag, node.morphology, node.edge]
    parent = str(node.parent.number) if node.parent else "0"
    columns = ["node", str(node.number), *map(written, texts), parent, written(node.comment)]
    for edge in node.secondary:
        columns += [written(edge.label), str(edge.parent.number)]
    return " ".join(columns)


def tidy_line(corpus):
    try:
        return f"tidy 0 {corpus.size} .{corpus.tidy().hex()}"
    except Refused as refused:
        return f"tidy {refused.refusal.number} {refused.refusal.place} ."


def told(file):
    """The lines of tests/plain/src/bin/answers.rs, by the package."""
    corpus = Corpus(file)
    survey = corpus.survey()
    yield f"file .{file.hex()} {survey.number} {survey.place} {survey.sentences} {survey.sound_end}"
    yield from rows(corpus)
    for sentence in sorted(corpus.handed_out(), key=lambda sentence: sentence.number):
        heading = (sentence.number, sentence.editor, sentence.date, sentence.origin)
        yield f"sentence {' '.join(map(str, heading))} {written(sentence.comment)}"
        yield from map(node_line, sentence)
    yield tidy_line(corpus)


@unittest.skipUnless("HRAUNLIK_ANSWERS" in os.environ, "tests/python/run makes the answers")
class Generated(unittest.TestCase):
    def test_beside_the_independent_reader(self):
        with open(os.environ["HRAUNLIK_ANSWERS"]) as answers:
            expected = answers.read().splitlines()
        files = [line.split()[1] for line in expected if line.startswith("file ")]
        self.assertGreater(len(files), 100)
        got = [line for file in files for line in told(bytes.fromhex(file[1:]))]
        for one, other in zip(got, expected):
            self.assertEqual(one, other)
        self.assertEqual(len(got), len(expected))
