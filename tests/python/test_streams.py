"""The command among streams: pipes, terminals, closed and full outputs, files of the largest size, its first use."""

import io
import itertools
import json
import os
import subprocess
import sys
import time
import unittest
from unittest import mock

from cases import HALF, JA
from commanding import COMMAND, OF_ONE_FILE, InARoom, on_a_terminal, run, started
from hraunlik import Corpus, layout
from hraunlik.progress import Progress


class Streams(InARoom):
    def test_closed_streams(self):
        def told(words, closed):
            done = subprocess.run(["bash", "-c", f"'{COMMAND}' {words} {closed}"], capture_output=True)
            return done.returncode, done.stderr

        for closed in ("<&-", "2>&-"):
            self.assertEqual(told(f"survey '{HALF}'", closed), (1, b""), closed)
        self.assertEqual(told(f"survey '{HALF}'", ">&-"), (2, b"hraunlik: the output can't be written: Bad file descriptor\n"))
        self.assertEqual(told(f"survey '{HALF}'", "<&- >&- 2>&-"), (2, b""))
        self.assertEqual(told(f"rescue '{HALF}' -o '{self.room}/kept'", ">&-")[0], 1)
        self.assertEqual(told("numbers -", "<&-"), (2, b"hraunlik: -: can't be read: it is closed\n"))

    def test_full_disk(self):
        with open("/dev/full", "wb") as full:
            told = subprocess.run([COMMAND, "survey", HALF], stdout=full, stderr=subprocess.PIPE)
        self.assertEqual((told.returncode, b"Traceback" in told.stderr), (2, False))

    def test_standard_input(self):
        self.assertEqual(run("survey", "-", given=JA)[0], 0)
        piped = started("survey", "-j", "2", self.file("good", JA), "-", input=JA[:74])
        self.assertEqual((piped.returncode, piped.stdout.count(b"accepted, ")), (0, 3))

    def test_pipes_by_name(self):
        read, write = os.pipe()
        os.write(write, JA)
        os.close(write)
        self.assertEqual(run("survey", f"/dev/fd/{read}")[0], 0)
        os.close(read)

    def test_colour_only_on_a_terminal(self):
        plain = started("survey", HALF).stdout
        self.assertNotIn(b"\x1b", plain)
        for more, coloured in (({}, True), ({"NO_COLOR": "1"}, False)):
            shown = on_a_terminal("survey", HALF, more=more)
            self.assertEqual(b"\x1b[31mrefusal 3\x1b[0m" in shown, coloured)
            self.assertEqual(shown.replace(b"\x1b[31m", b"").replace(b"\x1b[0m", b"").replace(b"\r\n", b"\n"), plain)

    def test_no_control_bytes_off_a_terminal(self):
        _, out, error = run("survey", self.file("bell\x1b[31m", b"\x1b[31m\n"))
        self.assertNotIn(b"\x1b", out + error.encode())

    def test_broken_pipe(self):
        body = b"".join(b"#BOS %d 2 0 1\nJa ITJ -- -- 0\n#EOS %d\n" % (n, n) for n in range(1, 30000))
        long = self.file("long", JA[: JA.index(b"#BOS")] + body)
        uses = (["survey", *[self.file("good", JA)] * 5000], ["numbers", long], ["tidy", long], ["rescue", long])
        for arguments, unbuffered in itertools.product(uses, ("", "1")):
            with subprocess.Popen(
                [COMMAND, *arguments],
                stdout=subprocess.PIPE,
                stderr=subprocess.PIPE,
                env={**os.environ, "PYTHONUNBUFFERED": unbuffered},
            ) as process:
                process.stdout.readline()
                process.stdout.close()
                self.assertEqual(process.stderr.read(), b"", arguments[0])
            self.assertEqual(process.returncode, 2)


class Longest(InARoom):
    """Files at the limit and beyond it."""

    def longest(self):
        """An accepted file of as many bytes as a file may have: file A, then ignored lines."""
        line = b"%%" + b" " * 4093 + b"\n"
        count, rest = divmod(layout.FILE_LIMIT - len(JA), len(line))
        with (self.room / "longest").open("wb") as file:
            file.write(JA + b"\n" * rest)
            for _ in range(count):
                file.write(line)
        return self.room / "longest"

    def test_longest_and_too_long(self):
        path = self.longest()
        self.assertEqual(path.stat().st_size, layout.FILE_LIMIT)
        self.assertEqual(run("survey", path)[0], 0)
        self.assertEqual(run("tidy", path)[:2], (0, Corpus(JA).tidy()))
        self.assertEqual(run("compare", path, self.file("ja", JA))[0], 0)
        with path.open("ab") as file:
            file.write(b"\n")
        status, out, _ = run("survey", "--json", path)
        told = json.loads(out)["answers"][0]
        self.assertEqual((status, told["refusal"], told["place"], told["sentences"]), (1, 2, 0, 0))
        with path.open("rb") as file:
            self.assertIn(b"refusal 2: ", started("survey", "-", stdin=file).stdout)
        for name, more in OF_ONE_FILE.items():
            self.assertEqual(run(name, path, *more)[:2], (1, b""), name)

    def test_longest_that_was_cut(self):
        path = self.file("sparse", JA)
        os.truncate(path, layout.FILE_LIMIT)
        self.assertEqual(run("rescue", path)[:2], (1, JA))


class ProgressLines(unittest.TestCase):
    def shown(self, on_a_terminal):
        """What is written while work goes on for three seconds."""
        stream = io.StringIO()
        stream.isatty = lambda: on_a_terminal
        seconds = iter(range(100))
        with mock.patch.object(sys, "stderr", stream), mock.patch.object(time, "monotonic", lambda: next(seconds) / 2):
            progress = Progress()
            for done in range(3):
                progress(f"{done} of 3")
            progress.end()
        return stream.getvalue()

    def test_on_a_terminal(self):
        self.assertEqual(self.shown(True), "\r\x1b[K1 of 3\r\x1b[K2 of 3\r\x1b[K")

    def test_elsewhere(self):
        self.assertEqual(self.shown(False), "")
