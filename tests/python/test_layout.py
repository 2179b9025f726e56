"""The header's constants beside the definitions in crates/rules/specs, which are what the library is proved to keep."""

import re
import unittest

from cases import ROOT
from hraunlik import RULES, layout

NUMERAL = re.compile(r"^(\w+) = (?:(\d+)|suc (\w+))$", re.MULTILINE)


def defined(*files):
    """The numbers that stand in these files as `name = 12`, or as `name = suc other`, one more than another."""
    numbers = {}
    for file in files:
        for name, numeral, other in NUMERAL.findall((ROOT / "crates" / file).read_text()):
            numbers[name] = int(numeral) if numeral else numbers[other] + 1
    return numbers


class Layouts(unittest.TestCase):
    def setUp(self):
        specs = ("rules/specs/SheetFields.antt", "rules/specs/Sheets.antt", "rules/specs/Numbers.antt")
        self.rules = defined(*specs, "sentence_sheet/specs/FlatEdges.antt")

    def test_widths_and_counts(self):
        for here, there in (
            (layout.TABLE_COUNT, "table_count"), (layout.ROW_SIZE, "row_width"), (layout.ROWS_OF_A_TABLE, "row_limit"),
            (layout.HEAD_SIZE, "leading_count"), (layout.NODE_SIZE, "node_width"), (layout.NODE_ROOM, "node_room"),
            (layout.EDGE_SIZE, "edge_width"), (layout.FILE_LIMIT, "file_limit"), (layout.FIRST_PHRASE, "word_limit"),
        ):  # fmt: skip
            self.assertEqual(here, self.rules[there], there)
        self.assertEqual(len(layout.TABLE_NAMES), layout.TABLE_COUNT)

    def test_places(self):
        for here, there in (
            (layout.HEAD_NUMBER, "number_place"), (layout.HEAD_EDITOR, "editor_place"), (layout.HEAD_DATE, "date_place"),
            (layout.HEAD_ORIGIN, "origin_place"), (layout.HEAD_COMMENT, "remark_start"), (layout.HEAD_WORDS, "words_place"),
            (layout.HEAD_PHRASES, "phrases_place"), (layout.HEAD_EDGES, "edges_place"), (layout.NODE_WORD, "word_start"),
            (layout.NODE_TAG, "tag_start"), (layout.NODE_MORPHOLOGY, "morphology_start"), (layout.NODE_EDGE, "edge_start"),
            (layout.NODE_PARENT, "parent_place"), (layout.NODE_COMMENT, "comment_start"),
        ):  # fmt: skip
            self.assertEqual(here, self.rules[there], there)

    def test_sizes(self):
        rules = self.rules
        table_room = rules["row_limit"] * rules["row_width"]
        self.assertEqual(layout.TABLE_SHEET, rules["table_count"] * (1 + table_room))
        self.assertEqual(layout.SENTENCE_SHEET, rules["leading_count"] + rules["node_room"] * rules["node_width"])
        self.assertEqual(layout.EDGE_LIST, rules["edge_limit"] * rules["edge_width"])
        self.assertEqual(layout.PLACES, 8 * layout.SEEN_SET)

    def test_each_answer_has_one_name(self):
        header = (ROOT / "include" / "hraunlik.h").read_text()
        answers = header[header.index("HRAUNLIK_GRANTED") : header.index("HRAUNLIK_UNEXPLAINED")]
        self.assertEqual([int(number) for number in re.findall(r"= (\d+)", answers)], list(range(26)))
        self.assertIn("HRAUNLIK_UNEXPLAINED = 26", header)
        self.assertEqual(max(RULES), 26)

    def test_fields_fill_their_records(self):
        texts = [layout.NODE_WORD, layout.NODE_TAG, layout.NODE_MORPHOLOGY, layout.NODE_EDGE, layout.NODE_COMMENT]
        self.assert_filled(layout.NODE_SIZE, texts, [layout.NODE_PARENT])
        self.assert_filled(layout.ROW_SIZE, [layout.ROW_NAME, layout.ROW_DESCRIPTION], [layout.ROW_ID, layout.ROW_FLAG])
        self.assert_filled(layout.EDGE_SIZE, [layout.EDGE_LABEL], [layout.EDGE_CHILD, layout.EDGE_PARENT])
        numbers = [layout.HEAD_NUMBER, layout.HEAD_EDITOR, layout.HEAD_DATE, layout.HEAD_ORIGIN]
        counts = [layout.HEAD_WORDS, layout.HEAD_PHRASES, layout.HEAD_EDGES]
        self.assert_filled(layout.HEAD_SIZE, [layout.HEAD_COMMENT], numbers + counts)

    def assert_filled(self, size, texts, numbers):
        """Every entry of a record belongs to one field; a text has two."""
        entries = [entry for start in texts for entry in (start, start + 1)] + numbers
        self.assertEqual(sorted(entries), list(range(size)))
