"""Files that are saved while they are read, or later: no answer is told of a mixture, and nothing ends the program."""

import os
import threading
import time
from unittest import mock

from cases import JA
from commanding import InARoom, run
from hraunlik import Corpus, FileChanged, reading

TIMES = 100

HEAD = JA[: JA.index(b"#BOS")]


def of_words(word, sentences=20000):
    """A file all of whose sentences have one word."""
    lines = b"#BOS %d 2 0 1\n" + word + b" ITJ -- -- 0\n#EOS %d\n"
    return HEAD + b"".join(lines % (number, number) for number in range(1, sentences + 1))


OLD, NEW = of_words(b"Ja"), of_words(b"Ne")


class Saving:
    """Saves a file in place again and again, in pieces, beside what else goes on; each save begins with a cut."""

    def __init__(self, path):
        self.path, self.ended = path, threading.Event()
        self.thread = threading.Thread(target=self.save)

    def save(self):
        while not self.ended.is_set():
            for data in (NEW, OLD):
                with self.path.open("r+b", buffering=0) as file:
                    file.truncate(len(data) // 2)
                    for at in range(0, len(data), 1 << 16):
                        file.write(data[at : at + (1 << 16)])
                time.sleep(0.02)

    def __enter__(self):
        self.thread.start()
        return self

    def __exit__(self, *raised):
        self.ended.set()
        self.thread.join()


class WhileRead(InARoom):
    def setUp(self):
        super().setUp()
        self.path = self.file("saved", OLD)

    def test_no_mixture(self):
        with Saving(self.path):
            for _ in range(TIMES):
                try:
                    data = bytes(Corpus(self.path))
                except FileChanged:
                    continue
                self.assertTrue(NEW.startswith(data) or OLD.startswith(data))

    def test_commands_go_on(self):
        """Each ends with an answer to a whole reading, or says that the file changed."""
        uses = (["survey"], ["survey", "-j", "2", self.path], ["numbers"], ["tidy"], ["rescue"])
        with Saving(self.path):
            for turn in range(TIMES):
                status, out, error = run(*uses[turn % len(uses)], self.path)
                self.assertIn(status, (0, 1, 2))
                if status == 2:
                    self.assertIn("changed while it was read", error + out.decode())

    def test_changed_in_the_midst(self):
        for change in (lambda: os.truncate(self.path, 100), lambda: self.path.write_bytes(NEW)):
            self.path.write_bytes(OLD)
            read = reading._plain

            def changing(file):
                data = read(file)
                change()
                return data

            with mock.patch.object(reading, "_plain", changing):
                with self.assertRaises(FileChanged) as raised:
                    Corpus(self.path)
                self.assertEqual(raised.exception.filename, str(self.path))
                status, out, error = run("tidy", self.path)
            self.assertEqual((status, out, "changed while it was read" in error), (2, b"", True))

    def test_only_what_was_read(self):
        """A later save, in place or to nothing, doesn't show."""
        for later in (NEW, b""):
            self.path.write_bytes(OLD)
            corpus = Corpus(self.path)
            self.path.write_bytes(later)
            self.assertEqual((corpus[7].words[0].word, bytes(corpus)), ("Ja", OLD))


class Workers(InARoom):
    def test_no_one_waits_for_a_worker(self):
        """Files vanish while several are read at once: each gets a line, and the command ends."""
        for _ in range(TIMES):
            files = [self.file(f"{number}", JA) for number in range(8)]
            gone = threading.Thread(target=lambda: [file.unlink() for file in files[::2]])
            gone.start()
            status, out, _ = run("survey", "-j", "3", *files)
            gone.join()
            self.assertIn(status, (0, 2))
            self.assertEqual(len(out.splitlines()), len(files) + 1)
