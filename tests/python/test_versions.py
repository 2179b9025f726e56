"""Versions: what is told of them, and a library that is older than the crates."""

import os
import re
import shutil
import subprocess
import warnings
from unittest import mock

import hraunlik
from cases import HALF, JA, ROOT
from commanding import InARoom, run, started
from hraunlik import Corpus, first_use, home, library, provenance


class Told(InARoom):
    def test_one_version(self):
        cargo = re.search(r'^version = "(.*)"$', (ROOT / "rust" / "Cargo.toml").read_text(), re.MULTILINE)[1]
        self.assertEqual(hraunlik.__version__, cargo)
        made = subprocess.run([ROOT / "tools" / "sources"], stdout=subprocess.PIPE, check=True).stdout.decode().strip()
        self.assertEqual((hraunlik.sources(), provenance.sum_of_crates(ROOT)), (made, made))
        told = started("--version", env={**os.environ, "COLUMNS": "20"})
        self.assertEqual(told.stdout.decode(), f"hraunlik {cargo}, format 3, sources {made}\n")
        self.assertEqual(run("--version")[0], 0)

    def test_not_made_yet(self):
        with mock.patch.object(home, "SUM", self.room / "none"):
            self.assertIn(b"not made yet", run("--version")[1])


class Stale(InARoom):
    def setUp(self):
        """A library whose sum isn't that of the crates."""
        super().setUp()
        target = self.room / "target" / "host"
        target.mkdir(parents=True)
        shutil.copytree(ROOT / "crates" / "seen" / "src", self.room / "crates" / "seen" / "src")
        self.file("crates.txt", b"seen:\n")
        (target / "libhraunlik.sources").write_text(provenance.sum_of_crates(self.room) + "\n")
        self.maker = self.file("maker", b"#!/bin/sh\necho crate 1 of 1: seen\n")
        self.maker.chmod(0o755)
        places = {"REPOSITORY": self.room, "MAKER": self.maker, "SUM": target / "libhraunlik.sources"}
        patches = [mock.patch.multiple(home, **places), mock.patch.dict(os.environ)]
        for patch in patches:
            patch.start()
            self.addCleanup(patch.stop)
        os.environ.pop("HRAUNLIK_LIBRARY", None)

    def change(self):
        with next(self.room.glob("crates/seen/src/*")).open("ab") as file:
            file.write(b"\n")

    def test_made_anew(self):
        self.assertEqual(run("survey", HALF)[2], "")
        self.change()
        _, _, error = run("survey", HALF)
        self.assertIn("it is proved and compiled anew", error)
        self.assertIn("made in ", error)

    def test_told_without_the_toolchain(self):
        self.change()
        with mock.patch.object(shutil, "which", return_value=None):
            status, out, error = run("survey", HALF)
        self.assertEqual((status, error), (1, f"hraunlik: {first_use.OLDER}\n"))

    def test_told_in_python(self):
        library.load.cache_clear()
        self.addCleanup(library.load.cache_clear)
        self.change()
        with warnings.catch_warnings(record=True) as told:
            warnings.simplefilter("always")
            Corpus(JA).survey()
        self.assertEqual([warning.category for warning in told], [hraunlik.LibraryStale])


class FirstUse(InARoom):
    def making(self, script, **places):
        maker = self.file("maker", b"#!/bin/sh\n" + script)
        maker.chmod(0o755)
        with mock.patch.multiple(home, **{"MAKER": maker, "REPOSITORY": self.room, **places}):
            with mock.patch.object(library, "find", lambda: None):
                return run("survey", HALF)

    def test_library_is_made(self):
        for end, wanted in ((0, "from now on it starts at once"), (1, "couldn't be made")):
            _, _, error = self.making(b"exit %d\n" % end)
            self.assertIn("first use", error)
            self.assertIn(wanted, error)

    def test_a_clone_that_cannot_be_written(self):
        status, _, error = self.making(b"exit 0\n", REPOSITORY=home.Path("/proc/self"))
        self.assertEqual((status, error.count("\n"), "can't be written" in error), (2, 1, True))

    def test_its_share_is_shown(self):
        shown = []
        with mock.patch.object(first_use.Progress, "__call__", lambda self, text: shown.append(text)):
            self.making(b"echo crate 1 of 26: rules\nsleep 0.5\n")
        self.assertTrue(any(text.startswith("crate 1 of 26: rules, ") for text in shown), shown)

    def test_the_crates_are_counted(self):
        """The maker tells each crate of all; this is what the first call shows."""
        counting = self.function("count_crates") + "crate=hraunlik_c; count_crates"
        told = subprocess.run(["bash", "-c", counting], cwd=ROOT, stdout=subprocess.PIPE, check=True).stdout
        below, todo = set(), ["hraunlik_c"]
        crates = dict(re.findall(r"^(\w+)(?: staticlib)?: *(.*)$", (ROOT / "crates.txt").read_text(), re.MULTILINE))
        while todo:
            crate = todo.pop()
            if crate not in below:
                below.add(crate)
                todo += crates[crate].split()
        self.assertEqual(int(told), len(below))

    def function(self, name):
        script = (ROOT / "tools" / "staticlib").read_text()
        return script[script.index(f"{name}() {{") : script.index("\n}\n", script.index(f"{name}() {{")) + 3]
