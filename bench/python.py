#!/usr/bin/env python3
"""bench/python.py [SENTENCES]: the Python package beside a student's script of twenty lines, in turns, on one corpus.

The script believes every line; the package has the file judged by the library first. Both read every field of every node,
and both count the subject clauses. The figures are sentences a second, the best of five turns.
"""

import random
import sys
import tempfile
import time
from pathlib import Path

sys.path.insert(0, str(Path(__file__).resolve().parent.parent / "python"))

from hraunlik import Corpus

TURNS = 5
TAGS = [f"T{number}" for number in range(50)]
EDGES = ["SB", "HD", "OA", "MO", "NK", "CP", "RC", "PD"]
WORDS = ["Schade", "daß", "kein", "Arzt", "anwesend", "ist", "auskennt", "Straßenbahnhaltestelle", "und", "für"]


def students_sentences(path):
    """What a student writes on the first day: each sentence as a dictionary of words and phrases, joined to their parents."""
    sentence = None
    for line in open(path, encoding="latin-1"):
        line = line.rstrip("\n")
        if line.startswith("%%") or not line.strip():
            continue
        if line.startswith("#BOS"):
            sentence = {"number": int(line.split()[1]), "words": [], "phrases": {0: None}}
        elif line.startswith("#EOS"):
            for node in sentence["words"] + list(sentence["phrases"].values())[1:]:
                node["parent"] = sentence["phrases"][node["parent"]]
                node["secondary"] = [(label, sentence["phrases"][int(parent)]) for label, parent in node["secondary"]]
            yield sentence
            sentence = None
        elif sentence is not None:
            body, _, comment = line.partition("%%")
            first, tag, morphology, edge, parent, *more = body.split()
            node = {"tag": tag, "morphology": morphology, "edge": edge, "parent": int(parent), "comment": comment.strip()}
            node["secondary"] = list(zip(more[::2], more[1::2]))
            if first.startswith("#") and first != "#":
                node["number"] = int(first[1:])
                sentence["phrases"][node["number"]] = node
            else:
                node["word"], node["number"] = first, len(sentence["words"])
                sentence["words"].append(node)


def students_fields(path):
    count = 0
    for sentence in students_sentences(path):
        for word in sentence["words"]:
            word["number"], word["word"], word["tag"], word["morphology"], word["edge"]
            word["parent"], word["secondary"], word["comment"]
            count += 1
        for phrase in list(sentence["phrases"].values())[1:]:
            phrase["number"], phrase["tag"], phrase["morphology"], phrase["edge"]
            phrase["parent"], phrase["secondary"], phrase["comment"]
            count += 1
    return count


def fields(path):
    count = 0
    for sentence in Corpus(path):
        for word in sentence.words:
            word.number, word.word, word.tag, word.morphology, word.edge, word.parent, word.secondary, word.comment
            count += 1
        for phrase in sentence.phrases:
            phrase.number, phrase.tag, phrase.morphology, phrase.edge, phrase.parent, phrase.secondary, phrase.comment
            count += 1
    return count


def students_clauses(path):
    phrases = (phrase for sentence in students_sentences(path) for phrase in list(sentence["phrases"].values())[1:])
    return sum(phrase["tag"] == "S" and phrase["edge"] == "SB" for phrase in phrases)


def clauses(path):
    return sum(phrase.tag == "S" and phrase.edge == "SB" for sentence in Corpus(path) for phrase in sentence.phrases)


def sentence_lines(number, dice):
    """A sentence of 5 to 29 words, and half as many phrases, each under a later one."""
    words = dice.randint(5, 29)
    phrases = words // 2
    yield f"#BOS {number} 1 {850000000 + number} 1"
    for _ in range(words):
        parent = 500 + dice.randrange(phrases)
        yield f"{dice.choice(WORDS)}\t{dice.choice(TAGS)}\t3.Sg.Pres.Ind\t{dice.choice(EDGES)}\t{parent}"
    for phrase in range(phrases - 1):
        edges = "\tRE\t500" if phrase and dice.random() < 0.01 else ""
        comment = "\t%% sure?" if dice.random() < 0.002 else ""
        parent = 500 + dice.randint(phrase + 1, phrases - 1)
        yield f"#{500 + phrase}\t{dice.choice(['S', 'NP', 'VP'])}\t--\t{dice.choice(EDGES)}\t{parent}{edges}{comment}"
    yield f"#{499 + phrases}\tS\t--\t--\t0"
    yield f"#EOS {number}"


def write_corpus(path, sentences):
    dice = random.Random(1997)
    head = ["#FORMAT 3", "#BOT ORIGIN", "1\tlab", "#EOT ORIGIN", "#BOT EDITOR", "1\tkim\tKim", "#EOT EDITOR"]
    lines = head + [line for number in range(1, sentences + 1) for line in sentence_lines(number, dice)]
    path.write_bytes("".join(f"{line}\n" for line in lines).encode("latin-1"))


def best(works, path):
    """Answer and least seconds of each work, in turns."""
    answers, seconds = [None] * len(works), [float("inf")] * len(works)
    for _ in range(TURNS):
        for at, work in enumerate(works):
            began = time.process_time()
            answers[at] = work(path)
            seconds[at] = min(seconds[at], time.process_time() - began)
    return answers, seconds


def main():
    sentences = int(sys.argv[1]) if sys.argv[1:] else 10000
    with tempfile.TemporaryDirectory() as room:
        path = Path(room) / "corpus.export"
        write_corpus(path, sentences)
        print(f"{sentences:,} sentences, {path.stat().st_size:,} bytes; sentences a second")
        for what, works in (("every field", (students_fields, fields)), ("subject clauses", (students_clauses, clauses))):
            (wanted, told), (its, ours) = best(works, path)
            assert wanted == told, (what, wanted, told)
            print(f"{what}: the script {sentences / its:,.0f}, the package {sentences / ours:,.0f}, {its / ours:.2f} times")


if __name__ == "__main__":
    main()
