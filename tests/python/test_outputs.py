"""Where -o leads: links, rights, pipes, devices; and what is left when a signal comes."""

import json
import os
import signal
import stat
import subprocess
import sys
import threading
import time
from unittest import mock

from cases import HALF, JA, ROOT
from commanding import InARoom, run, started
from hraunlik import Corpus, layout, outputs

KEPT = HALF.read_bytes()[:116]

#: The command, which waits for ever where a written file is put to disk.
WAITING = "import os, time\nos.fsync = lambda file: time.sleep(60)\nimport sys\nfrom hraunlik_start import main\nsys.exit(main())\n"

#: The command, which says when it is about to load the package.
BEGINNING = "import sys, signal\nsignal.signal(2, signal.SIG_DFL)\nprint('begun', flush=True)\nfrom hraunlik_start import main\nsys.exit(main())\n"


class Names(InARoom):
    def test_links_are_followed(self):
        target, link = self.file("target", b"old"), self.room / "link"
        link.symlink_to("target")
        self.assertEqual(run("rescue", HALF, "-o", link)[0], 1)
        self.assertEqual((link.is_symlink(), target.read_bytes()), (True, KEPT))
        missing = self.room / "dangling"
        missing.symlink_to("made")
        run("rescue", HALF, "-o", missing)
        self.assertEqual((missing.is_symlink(), (self.room / "made").read_bytes()), (True, KEPT))

    def test_rights_are_kept(self):
        for rights in (0o600, 0o640, 0o755):
            path = self.file("out", b"old")
            path.chmod(rights)
            run("rescue", HALF, "-o", path)
            self.assertEqual((stat.S_IMODE(path.stat().st_mode), path.read_bytes()), (rights, KEPT))
        run("rescue", HALF, "-o", self.room / "new")
        mask = os.umask(0)
        os.umask(mask)
        self.assertEqual(stat.S_IMODE((self.room / "new").stat().st_mode), 0o666 & ~mask)

    def test_protected_files_stay(self):
        path = self.file("out", b"as it was")
        path.chmod(0o444)
        for name in ("rescue", "tidy"):
            status, out, error = run(name, HALF, "-o", path)
            self.assertEqual((status, "may not be written" in error, path.read_bytes()), (2, True, b"as it was"))
        path.chmod(0o644)
        with mock.patch.object(os, "access", return_value=False):
            self.assertEqual(run("rescue", HALF, "-o", path)[0], 2)

    def test_pipes_and_devices_stay_what_they_are(self):
        fifo, read = self.room / "fifo", []
        os.mkfifo(fifo)
        reader = threading.Thread(target=lambda: read.append(fifo.read_bytes()))
        reader.start()
        status, _, _ = run("rescue", HALF, "-o", fifo)
        reader.join()
        self.assertEqual((status, read, stat.S_ISFIFO(fifo.stat().st_mode)), (1, [KEPT], True))
        self.assertEqual(run("rescue", HALF, "-o", os.devnull)[0], 1)
        self.assertTrue(stat.S_ISCHR(os.stat(os.devnull).st_mode))
        self.assertEqual(run("rescue", HALF, "-o", "/dev/full")[0], 2)
        self.assertEqual(started("rescue", HALF, "-o", "/dev/stdout").stdout, KEPT)

    def test_reports_come_behind_the_writing(self):
        for name, file in (("rescue", HALF), ("tidy", self.file("ja", JA))):
            status, out, _ = run(name, "--json", file, "-o", self.room / "none" / "out")
            self.assertEqual((status, out), (2, b""), name)
        self.assertEqual(json.loads(run("rescue", "--json", HALF, "-o", self.room / "out")[1])["kept_bytes"], 116)


class Signals(InARoom):
    def begun(self, *words):
        """The command, as soon as the neighbour of its output is there."""
        environment = {**os.environ, "PYTHONPATH": str(ROOT / "python")}
        command = [sys.executable, "-c", WAITING, *map(str, words)]
        process = subprocess.Popen(command, env=environment, stdout=subprocess.PIPE, stderr=subprocess.PIPE)
        while not any(name.startswith(outputs.NEIGHBOUR) for name in os.listdir(self.room)):
            self.assertIsNone(process.poll())
            time.sleep(0.01)
        return process

    def test_neighbours_are_taken_away(self):
        for number in (signal.SIGTERM, signal.SIGHUP, signal.SIGINT) * 5:
            process = self.begun("rescue", HALF, "-o", self.room / "out")
            process.send_signal(number)
            _, error = process.communicate(timeout=20)
            self.assertEqual(process.returncode, 128 + number)
            self.assertEqual(error.decode(), f"hraunlik: ended by {number.name}\n")
            self.assertEqual(os.listdir(self.room), [])

    def test_interrupts_at_any_moment(self):
        """The program ends by the signal or with 130, with one line at most."""
        path = self.file("ja", Corpus(JA).tidy())
        environment = {**os.environ, "PYTHONPATH": str(ROOT / "python")}
        command = [sys.executable, "-c", BEGINNING, "survey", *[path] * 200]
        for turn in range(25):
            process = subprocess.Popen(command, env=environment, stdout=subprocess.PIPE, stderr=subprocess.PIPE)
            self.assertEqual(process.stdout.readline(), b"begun\n")
            time.sleep(turn * 0.01)
            process.send_signal(signal.SIGINT)
            _, error = process.communicate(timeout=20)
            self.assertIn(process.returncode, (0, 130, -signal.SIGINT))
            self.assertLessEqual(error.count(b"\n"), 1, error)
            self.assertNotIn(b"Traceback", error)

    def test_not_enough_memory(self):
        path = self.room / "long"
        with path.open("wb") as file:
            file.write(JA)
            file.truncate(layout.FILE_LIMIT)
        limited = f"ulimit -v 240000; '{sys.executable}' '{ROOT / 'hraunlik'}' survey '{path}'"
        told = subprocess.run(["bash", "-c", limited], capture_output=True)
        self.assertEqual((told.returncode, told.stderr), (2, b"hraunlik: not enough memory\n"))
