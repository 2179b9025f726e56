"""What a message says beyond its number: columns, limits, nodes, bytes, marks of alphabets, names of tables."""

import json
import unittest

from cases import GALLERY, JA, SCHADE
from commanding import InARoom, run, started
from hraunlik import Corpus

HEAD = JA[: JA.index(b"#BOS")].decode()
ROWS = {"WORDTAG": "1 W Y d", "MORPHTAG": "1 M d", "EDGETAG": "1 E d"}
TABLES = {name: f"#BOT {name}\n" for name in ("ORIGIN", "EDITOR", *ROWS)}


def told(text):
    return Corpus(text.encode("latin-1")).survey().refusal


class Details(unittest.TestCase):
    def check(self, number, cases):
        for front, line, detail in cases:
            refusal = told(f"{front}{line}\n")
            self.assertEqual((refusal.number, refusal.detail), (number, detail), line)
            self.assertIn(f"({detail})", refusal.brief)

    def test_columns(self):
        """7: how many there are, and which are wanted."""
        inside, start = HEAD + "#BOS 7 2 0 1\n", "#FORMAT 3\n"
        node = "wanted: word or #number, tag, morphology, edge, parent; then a label and a parent for each secondary edge"
        heading = "wanted: #BOS, sentence, editor, date, origin; behind them only %% and a comment"
        self.check(7, (
            (inside, "Ja ITJ --", f"3 columns are there; {node}"),
            (inside, "Ja ITJ -- -- 0 SB %% c d", f"6 columns are there; {node}"),
            (inside, "#500", f"1 column is there; {node}"),
            (inside, "#EOS", "1 column is there; wanted: #EOS, sentence"),
            (HEAD, "#BOS 7 2 0 1 x", f"6 columns are there; {heading}"),
            (start, "#BOT", "1 column is there; wanted: #BOT, name of a table"),
            (start + TABLES["ORIGIN"], "1", "1 column is there; wanted: id, name; then maybe %% and a comment"),
            (start + TABLES["ORIGIN"], "1 %%lab", "1 column is there; wanted: id, name; then maybe %% and a comment"),
            (start + TABLES["EDITOR"], "1 kim", "2 columns are there; wanted: id, login, full name"),
            (start + TABLES["WORDTAG"], "1 NN noun", "3 columns are there; wanted: id, tag, flag, description"),
            (start + TABLES["EDGETAG"], "1 SB", "2 columns are there; wanted: id, tag, description"),
        ))  # fmt: skip

    def test_limits_and_flags(self):
        """10: which limit, or which flag."""
        start, inside = "#FORMAT 3\n", HEAD + "#BOS 7 2 0 1\n"
        for_tag = "a tag has at most 10 bytes, and this one 11"
        self.check(10, (
            (start + TABLES["ORIGIN"], "1 " + "x" * 129, "an origin's name has at most 128 bytes, and this one 129"),
            (start + TABLES["ORIGIN"], "1 a %% " + "x" * 161, "an origin's comment has at most 160 bytes, and this one 161"),
            (start + TABLES["EDITOR"], f"1 {'k' * 17} Kim", "a login has at most 16 bytes, and this one 17"),
            (start + TABLES["EDITOR"], "1 kim " + "K" * 41, "a full name has at most 40 bytes, and this one 41"),
            (start + TABLES["WORDTAG"], "1 NN a noun", "a flag is Y or N"),
            (start + TABLES["WORDTAG"], "1 %% Y noun", "%% can't be a tag"),
            (start + TABLES["WORDTAG"], "1 NN Y " + "x" * 81, "a description has at most 80 bytes, and this one 81"),
            (start + TABLES["MORPHTAG"], f"1 {'x' * 33} d", "a tag has at most 32 bytes, and this one 33"),
            (start + TABLES["EDGETAG"], f"1 {'x' * 11} d", for_tag),
            (inside, f"Ja {'x' * 11} -- -- 0", for_tag),
            (inside, f"Ja x {'x' * 33} -- 0", "a morphology has at most 32 bytes, and this one 33"),
            (inside, f"Ja x -- -- 0 {'x' * 11} 500", for_tag),
        ))  # fmt: skip

    def test_absent_parents(self):
        """22: which node names the parent, in which line."""
        nodes = "Ja A -- -- 500\n%% Nein\n# A -- -- 500 SB 503\n#500 S -- -- 0 %% 504\n"
        refusal = told(f"{HEAD}#BOS 7 2 0 1\n{nodes}#EOS 7\n")
        first = HEAD.count("\n") + 1
        self.assertEqual((refusal.number, refusal.detail), (22, f"line {first + 3}, word 1, names 503"))
        refusal = told(f"{HEAD}#BOS 7 2 0 1\n\n#500 S -- E 502\n#EOS 7\n")
        self.assertEqual((refusal.number, refusal.detail), (22, f"line {first + 2}, phrase #500, names 502"))

    def test_illegal_bytes(self):
        """4: where the byte is and its value, in long lines too."""
        for at in (0, 50, 500, 4000, 5000):
            refusal = told("#FORMAT 3\n" + "x" * at + "\x07" + "x" * 90 + "\n")
            self.assertEqual((refusal.number, refusal.detail), (4, f"byte {at + 1:,} of the line is 7"))
            lines = refusal.shown_line()
            self.assertTrue(lines[0].endswith('" ..'), lines)
            self.assertEqual(len(lines), 2 if at < 4096 else 1)
            if at < 4096:
                self.assertEqual(lines[0][lines[1].index("^") :][:4], "\\x07")
            self.assertLess(max(map(len, lines)), 80)

    def test_alphabets_and_returns(self):
        for data, words, cure in (
            (JA.replace(b"\n", b"\r\n"), "a carriage return", "tr -d '\\r'"),
            (b"\xef\xbb\xbf" + JA, "a byte order mark of UTF-8", "tail -c +4"),
            (JA.decode().encode("utf-16"), "a byte order mark of UTF-16", "iconv -f utf-16"),
            (JA.replace(b"Ja ", "Ja\u00df ".encode()), "as in UTF-8", "iconv -f utf-8"),
        ):
            refusal = Corpus(data).survey().refusal
            self.assertIn(words, refusal.brief)
            self.assertIn(cure, refusal.cure)

    def test_cures_cure(self):
        """A byte order mark without which the file is accepted."""
        self.assertTrue(Corpus((b"\xef\xbb\xbf" + JA)[3:]).survey().accepted)


class Said(InARoom):
    def test_names_of_tables(self):
        schade = self.file("schade", SCHADE)
        for name in ("wordtag", "WordTag", "WORDTAG"):
            self.assertEqual(run("explain-tag", schade, name, "ADJD")[:2], (0, b"Attributives Adjektiv\n"))
        status, out, error = run("explain-tag", schade, "TAGS", "ADJD")
        self.assertEqual((status, out, "WORDTAG, MORPHTAG, NODETAG, EDGETAG, SECEDGETAG" in error), (2, b"", True))

    def test_json_is_plain(self):
        path = self.file("da\xdf", SCHADE)
        for encoding in ("utf-8", "latin-1", "ascii"):
            told = started("survey", "--json", path, env={"PYTHONIOENCODING": encoding, "PATH": "/usr/bin:/bin"})
            self.assertEqual(json.loads(told.stdout.decode("ascii"))["answers"][0]["refusal"], 0)
        out = run("open", "--json", path, 12)[1]
        self.assertIn("da\xdf", [node["word"] for node in json.loads(out.decode("ascii"))["nodes"]])

    def test_no_control_bytes(self):
        path = self.file("bell\x07", b"\x1b[31m\n")
        for words in (["survey", path], ["no\x1b[31m"], ["survey", path, "--\x1b"], ["open", path, "\x1b"], ["tidy", path]):
            status, out, error = run(*words)
            self.assertIn(status, (1, 2))
            self.assertFalse(set(out + error.encode()) & set(range(32)) - {10}, words)

    def test_tables(self):
        status, out, _ = run("tables", GALLERY / "untidy.export")
        self.assertEqual((status, out.decode()), (0, "ORIGIN\nid  name  comment\n1   lab\n\nEDITOR\nid  login  full name\n"))
        told = json.loads(run("tables", "--json", self.file("schade", SCHADE))[1])
        self.assertEqual(told["WORDTAG"][2], {"id": 1, "name": "ADJD", "description": "Attributives Adjektiv", "flag": True})
        self.assertIn(b"1   ADJD     Y     Attributives Adjektiv", run("tables", self.file("schade", SCHADE))[1])
        self.assertEqual(run("tables", GALLERY / "half-copied.export")[0], 1)
