"""The column at fault: which one it is, its text, and that the mark stands under it."""

import json
import os
import unittest

from cases import GALLERY, JA, gallery
from commanding import InARoom, on_a_terminal, run, started
from hraunlik import Corpus
from hraunlik.pointing import POINTING

HEAD = JA[: JA.index(b"#BOS")].decode()
ROWS = {"WORDTAG": "1 W Y d", "MORPHTAG": "1 M d", "NODETAG": "1 N d", "EDGETAG": "1 E d", "SECEDGETAG": "1 S d"}
TAGS = "".join(f"#BOT {table}\n{row}\n#EOT {table}\n" for table, row in ROWS.items())
WORDS = HEAD + TAGS + "#BOS 7 2 0 1\n"
PHRASES = WORDS + "#500 N -- -- 0\n#501 N -- -- 0\n"
FIRST_WORD = WORDS.count("\n") + 1


def pointed(front, line):
    """Why a line is refused behind others, a `^` in front of the column at fault taken out; and where that stood."""
    start = line.index("^")
    refusal = Corpus((front + line.replace("^", "", 1) + "\n").encode("latin-1")).survey().refusal
    return refusal, start


def above_mark(lines, width=8):
    """The letters that stand above a mark on a terminal with such tabs."""
    shown, mark = (line.expandtabs(width) for line in lines)
    return "".join(letter for letter, sign in zip(shown, mark) if sign == "^")


class Pointing(unittest.TestCase):
    def check(self, front, *cases):
        for line, number, column, text in cases:
            with self.subTest(line):
                refusal, start = pointed(front, line)
                self.assertEqual((refusal.number, refusal.column_start), (number, start))
                self.assertEqual((refusal.column, refusal.column_text), (column, text))
                self.assertEqual(refusal.text, line.replace("^", "", 1))
                self.assertEqual((refusal.line, refusal.place), (front.count("\n") + 1, len(front) + start))

    def test_gallery(self):
        wanted = {
            "08.export": (1, 2, "three"),
            "10.export": (3, 2, "%%"),
            "15.export": (6, 5, "1"),
            "18.export": (10, 2, "ITJ"),
            "19.export": (8, 5, "0"),
            "own-phrase.export": (8, 7, "500"),
        }
        told = {}
        for path, _, _ in gallery():
            survey = Corpus(path).survey()
            if survey.number in POINTING:
                told[path.name] = (survey.line, survey.column, survey.refusal.column_text)
            elif survey.refusal:
                self.assertEqual((survey.column, survey.refusal.column_text, survey.refusal.column_start), (None,) * 3)
        self.assertEqual(told, wanted)

    def test_leftmost(self):
        self.check(
            WORDS,
            ("Ja W M E ^x S y S z", 8, 5, "x"),
            ("Ja W M E 500 S ^0 S y", 8, 7, "0"),
            ("Ja ^Q Q Q 500 Q 500", 18, 2, "Q"),
            ("Ja W M E 500 S 500 ^Q 500 Q 500", 18, 8, "Q"),
            ("Ja W M ^x1234567890 500 x1234567890 500", 10, 4, "x1234567890"),
            ("Ja Q Q Q 0 Q ^x", 8, 7, "x"),
        )
        self.check(HEAD, ("#BOS 7 ^3 0 2", 15, 3, "3"), ("#BOS 7 2 0 ^2 %% 3", 15, 5, "2"), ("#BOS ^x y z 0", 8, 2, "x"))

    def test_parents(self):
        self.check(WORDS, ("Ja W M E ^0 S 500", 19, 5, "0"))
        self.check(
            PHRASES,
            ("#502 N M E ^502 S 502", 19, 5, "502"),
            ("#502 N M -- 0 S ^502 S 502", 19, 7, "502"),
            ("#502 N M -- 0 S 500 S ^502 %% 502", 19, 9, "502"),
            ("^#499 N M E x S y", 8, 1, "#499"),
        )

    def test_white_between_columns(self):
        self.check(WORDS, ("Ja\t\tW  M \t E\t\t^x\t", 8, 5, "x"), ("Ja W\tM  E 500 \t^Q\t500 ", 18, 6, "Q"))

    def test_texts_that_run_to_the_end(self):
        spaced = ("a \t b" * 40)[:-1] + "z"
        origins = "#FORMAT 3\n#BOT ORIGIN\n"
        self.check(
            origins,
            (f"1 \t ^{spaced} \t", 10, 2, spaced),
            (f"1 ^{spaced} %% c", 10, 2, spaced),
            (f"1 ^{spaced}%%{spaced}", 10, 2, spaced),
            (f"1 lab %% \t^{spaced} ", 10, 4, spaced),
            (f"1 lab%%^{spaced}", 10, 2, spaced),
            (f"1 lab%%^%%{spaced}", 10, 2, "%%" + spaced),
            (f"1 a b%% ^{spaced}", 10, 4, spaced),
        )
        editors = origins + "#EOT ORIGIN\n#BOT EDITOR\n"
        self.check(editors, (f"1 ^{'k' * 17} {spaced}", 10, 2, "k" * 17), (f"1 kim\t ^{spaced} ", 10, 3, spaced))
        self.check(editors, (f"1 kim ^{spaced}\xa0 ", 10, 3, spaced + "\xa0"))
        tags = HEAD + "#BOT EDGETAG\n%% #BOS\n"
        self.check(tags, (f"1 E  ^%% {spaced}", 10, 3, "%% " + spaced), (f"1 ^%% {spaced}", 10, 2, "%%"))

    def test_flags_and_descriptions(self):
        words = HEAD + TAGS[: TAGS.index("1 W")]
        long = "ein Adjektiv, " * 6 + "attributiv"
        self.check(words, ("1 W ^a noun", 10, 3, "a"), (f"1 W Y ^{long}\t", 10, 4, long), (f"1 ^%% y {long}", 10, 2, "%%"))

    def test_words_are_no_rows(self):
        """A tag of a sentence ends with its column, whatever the last table was."""
        self.check(HEAD + "#BOS 7 2 0 1\n", ("Ja A -- ^x1234567890 500 %% c d", 10, 4, "x1234567890"))

    def test_letters_above_127(self):
        utf8 = "Stra\xc3\xbce"
        self.check(WORDS, (f"{utf8} W M ^\xc3\xa4\xc3\xb6 500", 18, 4, "\xc3\xa4\xc3\xb6"))
        self.check(WORDS, ("10\xa0000 ^Q M E 500", 18, 2, "Q"), ("Ja W M ^A\xa0 500", 18, 4, "A\xa0"))

    def test_other_numbers_show_the_line_alone(self):
        for path, _, _ in gallery():
            refusal = Corpus(path).survey().refusal
            if refusal and refusal.number not in (*POINTING, 4):
                self.assertNotIn("^", str(refusal))
                self.assertNotIn(", column", refusal.brief)
                self.assertLessEqual(len(refusal.shown_line()), 1)


class Marks(unittest.TestCase):
    def test_under_the_column_with_any_tabs(self):
        line = "Ja\t\tW  M \t E 500\tS\t\t^zz\tS 500"
        refusal, _ = pointed(WORDS, line)
        lines = refusal.shown_line()
        self.assertEqual(lines, ['"Ja\t\tW  M \t E 500\tS\t\tzz\tS 500"', "   \t\t     \t      \t \t\t^^"])
        for width in (2, 4, 8):
            self.assertEqual(above_mark(lines, width), "zz")

    def test_long_lines(self):
        """What stands around the column is shown, from a column's beginning on, and fits a terminal."""
        pairs = [f"S 5{n:02}" for n in range(99)]
        from_the_line_on, from_a_column_on, to_the_end = r'^"Ja W M E 500\s', r'^\.\. "(S|5\d\d)\s', r'\s500\s+S 598"$'
        for at, shape in ((0, from_the_line_on), (1, from_the_line_on), (50, from_a_column_on), (98, to_the_end)):
            for white in (" ", "\t", "\t\t"):
                edges = pairs[:at] + [f"^Q{at} 500"] + pairs[at:]
                refusal, _ = pointed(WORDS, white.join(["Ja W M E 500", *edges]))
                lines = [f"  {line}" for line in refusal.shown_line()]
                self.assertEqual((refusal.column, above_mark(lines)), (6 + 2 * at, f"Q{at}"))
                self.assertLess(max(len(line.expandtabs()) for line in lines), 80)
                self.assertRegex(lines[0].strip(), shape)
                self.assertEqual(lines[0].endswith('" ..'), at < 98)

    def test_long_columns(self):
        refusal, _ = pointed(WORDS, f"Ja ^{'x' * 3000} M E 500")
        self.assertEqual((refusal.column_text, refusal.where), ("x" * 3000, f'line {FIRST_WORD}, column 2 "{"x" * 40}" ..'))
        lines = refusal.shown_line()
        self.assertEqual(above_mark(lines), "x" * 65)
        self.assertEqual(lines[0], f'"Ja {"x" * 65}" ..')
        refusal, _ = pointed(WORDS, f"{'x' * 3000} ^Q M E 500")
        self.assertEqual(refusal.shown_line(), ['.. "Q M E 500"', "    ^"])

    def test_letters_without_a_sure_width(self):
        refusal, _ = pointed(WORDS, "a\x7f\xad W M ^\x7f 500")
        self.assertEqual(refusal.shown_line(), [r'"a\x7f\xad W M \x7f 500"', " " * 15 + "^^^^"])

    def test_encodings_that_lack_letters(self):
        refusal, _ = pointed(WORDS, "da\xdf W M ^\xc4\xdf 500")
        self.assertEqual(above_mark(refusal.shown_line()), "\xc4\xdf")
        self.assertEqual(above_mark(refusal.shown_line("latin-1")), "\xc4\xdf")
        self.assertEqual(above_mark(refusal.shown_line("ascii")), r"\xc4\xdf")


class Commands(InARoom):
    LINE = "da\xdf\tW\tM\tE\t500\tS\t^12\tS\t0"

    def setUp(self):
        super().setUp()
        self.path = self.file("bad", (WORDS + self.LINE.replace("^", "") + "\n").encode("latin-1"))
        self.wanted = ['  "da\xdf\tW\tM\tE\t500\tS\t12\tS\t0"', "      \t \t \t \t   \t \t^^"]

    def test_survey(self):
        status, out, _ = run("survey", self.path)
        first, *marked, last, cure = out.decode().splitlines()
        self.assertEqual(status, 1)
        self.assertTrue(first.startswith(f'{self.path}: refusal 8, line {FIRST_WORD}, column 7 "12": a number'), first)
        self.assertTrue(first.endswith("range; 0 sentences whole, sound up to byte 0"), first)
        self.assertEqual(marked, self.wanted)
        self.assertTrue(last.startswith("1 file: "))
        self.assertEqual(cure, "for the cure: explain 8; or survey -v")

    def test_several_files(self):
        files = [self.path, self.file("good", JA), GALLERY / "22.export", self.path] * 3
        alone = run("survey", *files)
        self.assertEqual(alone, run("survey", "-j", "2", *files))
        self.assertEqual(len(alone[1].splitlines()), len(files) + 2 * 6 + 2)

    def test_on_a_terminal(self):
        shown = on_a_terminal("survey", self.path, more={"PYTHONIOENCODING": "utf-8"}).decode().splitlines()
        self.assertEqual([line.expandtabs() for line in shown[1:3]], [line.expandtabs() for line in self.wanted])

    def test_streams_that_lack_letters(self):
        for command, stream in (("survey", "stdout"), ("tidy", "stderr")):
            told = started(command, self.path, env={**os.environ, "PYTHONIOENCODING": "ascii"})
            lines = getattr(told, stream).decode("ascii").splitlines()[1:3]
            self.assertEqual(lines[0], r'  "da\xdf' + self.wanted[0][6:])
            self.assertEqual(above_mark(lines), "12")

    def test_others_say_it_too(self):
        good = self.file("good", JA)
        for words in (
            ("open", self.path, 7), ("numbers", self.path), ("tidy", self.path), ("rescue", self.path),
            ("compare", good, self.path), ("explain-tag", self.path, "WORDTAG", "W"),
            ("explain-tag", good, "WORDTAG", "W", "--list", self.path),
        ):  # fmt: skip
            status, _, error = run(*words)
            self.assertEqual(status, 1)
            lines = error.splitlines()
            self.assertIn(f'{self.path}: refusal 8, line {FIRST_WORD}, column 7 "12": ', lines[0])
            self.assertEqual(lines[1:3], self.wanted, words[0])

    def test_json(self):
        for words in (("survey",), ("numbers",), ("rescue",)):
            told = json.loads(run(*words, "--json", self.path)[1])
            told = told["answers"][0] if "answers" in told else told
            names = ("refusal", "line", "column", "column_text", "column_start")
            self.assertEqual([told[name] for name in names], [8, FIRST_WORD, 7, "12", self.LINE.index("^")])
        told = json.loads(run("survey", "--json", GALLERY / "22.export")[1])["answers"][0]
        self.assertEqual((told["line"], told["column"], told["column_text"]), (9, None, None))

    def test_explain(self):
        for number in range(1, 27):
            out = run("explain", number)[1].decode().splitlines()
            marks = [at for at, line in enumerate(out) if line.strip(" ^") == "" and "^" in line]
            self.assertEqual(len(marks), 1 if number in POINTING else 0, number)
            if number in POINTING:
                refusal = Corpus(GALLERY / f"{number:02}.export").survey().refusal
                self.assertEqual(above_mark(out[marks[0] - 1 : marks[0] + 1]), refusal.column_text)
                self.assertIn(f"{number:02}.export, {refusal.where}:", "\n".join(out))


def mended(number, corpus, refusal):
    """A column that hasn't the refusal where the column at fault stands, or None if there is none."""
    if number == 8:
        return b"#999" if refusal.column == 1 and refusal.text.startswith("#") else b"999"
    if number == 15:
        editor = refusal.column == 3
        return b"0" if editor else next((b"%d" % row.id for row in corpus.tables["ORIGIN"]), None)
    if number == 19:
        return None if refusal.text.startswith("#999") else b"999"
    return {10: b"Y", 18: b"--"}[number]


@unittest.skipUnless("HRAUNLIK_ANSWERS" in os.environ, "tests/python/run makes the answers")
class Generated(unittest.TestCase):
    """Beside the independent reader: the column stands at its place, and is at fault as a whole and alone."""

    def setUp(self):
        with open(os.environ["HRAUNLIK_ANSWERS"]) as answers:
            told = [line.split() for line in answers if line.startswith("file ")]
        files = [(bytes.fromhex(data[1:]), *map(int, answer)) for _, data, *answer in told]
        self.files = [(data, number, place) for data, number, place, *_ in files if number in POINTING]

    def test_each_number_often(self):
        for number in POINTING:
            self.assertGreaterEqual(sum(told == number for _, told, _ in self.files), 20, number)

    def test_columns_at_their_places(self):
        for data, number, place in self.files:
            refusal = Corpus(data).survey().refusal
            before = data[:place].split(b"\n")
            text = refusal.column_text.encode("latin-1")
            self.assertEqual((refusal.number, refusal.line, refusal.column_start), (number, len(before), len(before[-1])))
            self.assertTrue(data.startswith(text, place) and text.strip(b" \t") == text != b"", text)
            first = data[place - len(before[-1]) :].split(b"\n")[0].replace(b"\t", b" ").split(b" ")
            column = [run for run in first if run][refusal.column - 1]
            self.assertTrue(column.endswith(text.replace(b"\t", b" ").split(b" ")[0]), (column, text))
            shown = refusal.column_text.replace("\x7f", r"\x7f").replace("\xad", r"\xad").replace("\t", "")
            above = above_mark(refusal.shown_line())
            self.assertTrue(above != "" and shown.startswith(above) and len(above) >= min(30, len(shown)), refusal)

    def test_mended_columns(self):
        """With another text in its place the line has no smaller number, and not the same at that place."""
        for data, number, place in self.files:
            corpus = Corpus(data)
            refusal = corpus.survey().refusal
            column = mended(number, corpus, refusal)
            if column is not None:
                rest = data[place + len(refusal.column_text) :]
                again = Corpus(data[:place] + column + rest).survey()
                later = again.line is None or again.line > refusal.line
                self.assertTrue(later or again.number > number or (again.number == number and again.place > place), data)
