"""The pages keep their word: what a `console` block prints and what a `python` block answers is what stands there."""

import doctest
import os
import re
import subprocess
import tempfile
import unittest
from pathlib import Path

from cases import ROOT

COURSE = "docs/COURSE.md"
PAGES = ("README.md", COURSE, "docs/USING.md")
ENVIRONMENT = {**os.environ, "LC_ALL": "C.UTF-8"}
BLOCK = re.compile(r"^```(\w+)\n(.*?)^```$", re.MULTILINE | re.DOTALL)


def blocks(page, language):
    return [text for kind, text in BLOCK.findall((ROOT / page).read_text()) if kind == language]


def commands(block):
    """Each command of a console block, and the lines below it."""
    for part in ("\n" + block).split("\n$ ")[1:]:
        command, _, printed = part.partition("\n")
        yield command, printed.strip("\n")


def in_the_clone():
    """The files of the repository but those that are built."""
    built = {"target", "out", "dist", "__pycache__", ".git"}
    for folder, folders, files in os.walk(ROOT):
        folders[:] = set(folders) - built
        yield from (os.path.join(folder, name) for name in files)


class Pages(unittest.TestCase):
    def setUp(self):
        self.addCleanup(os.chdir, os.getcwd())

    def enter_room(self, page):
        """A folder that looks like the repository, in which a command may leave files; for the course what it says."""
        room = tempfile.TemporaryDirectory()
        self.addCleanup(room.cleanup)
        for name in ("hraunlik", "examples", *(() if page == COURSE else ("include", "target"))):
            (Path(room.name) / name).symlink_to(ROOT / name)
        os.chdir(room.name)

    def test_commands(self):
        before = set(in_the_clone())
        for page in PAGES:
            self.enter_room(page)
            for source in blocks(page, "c"):
                Path("words.c").write_text(source)
            shown = [pair for block in blocks(page, "console") for pair in commands(block)]
            self.assertTrue(shown, page)
            for command, printed in shown:
                told = subprocess.run(
                    ["bash", "-c", command], stdout=subprocess.PIPE, stderr=subprocess.STDOUT, env=ENVIRONMENT
                )
                self.assertEqual(told.stdout.decode().strip("\n"), printed, f"{page}: {command}")
        self.assertEqual(set(in_the_clone()), before)

    def test_the_course_has_a_folder_of_its_own(self):
        self.assertIn("ln -s CLONE/hraunlik CLONE/examples .", (ROOT / COURSE).read_text())

    def test_python(self):
        for page in PAGES:
            self.enter_room(page)
            lines = "\n".join(blocks(page, "python"))
            examples = doctest.DocTestParser().get_doctest(lines, {}, page, page, 0)
            self.assertTrue(examples.examples, page)
            result = doctest.DocTestRunner(verbose=False).run(examples)
            self.assertEqual(result.failed, 0, page)
