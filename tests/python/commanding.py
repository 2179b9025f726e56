"""The command as the tests use it: in their process, as one of its own, on a terminal; and rooms for its files."""

import io
import os
import subprocess
import sys
import tempfile
import unittest
from pathlib import Path
from unittest import mock

from cases import ROOT
from hraunlik.command import main

COMMAND = str(ROOT / "hraunlik")

#: The commands that take one file, and what they take behind it.
OF_ONE_FILE = {"open": ["1"], "numbers": [], "tidy": [], "rescue": [], "explain-tag": ["WORDTAG", "NN"]}


def run(*arguments, given=b""):
    """Status, standard output and standard error of the command, in this process."""
    streams = [io.TextIOWrapper(io.BytesIO(data), encoding="utf-8") for data in (given, b"", b"")]
    with mock.patch.multiple(sys, stdin=streams[0], stdout=streams[1], stderr=streams[2]):
        try:
            status = main([str(argument) for argument in arguments])
        except SystemExit as ended:
            status = ended.code
        streams[1].flush()
        streams[2].flush()
    return status, streams[1].buffer.getvalue(), streams[2].buffer.getvalue().decode()


def started(*arguments, **options):
    """The command as a process of its own."""
    return subprocess.run([COMMAND, *map(str, arguments)], capture_output=True, **options)


def on_a_terminal(*arguments, more):
    """What the command, as a process of its own, writes to a terminal."""
    ours, its = os.openpty()
    environment = {name: value for name, value in os.environ.items() if name != "NO_COLOR"}
    command = [COMMAND, *map(str, arguments)]
    with subprocess.Popen(command, stdin=its, stdout=its, stderr=its, env={**environment, **more}) as process:
        os.close(its)
        process.wait()
        shown = os.read(ours, 65536)
        os.close(ours)
    return shown


class InARoom(unittest.TestCase):
    def setUp(self):
        room = tempfile.TemporaryDirectory()
        self.addCleanup(room.cleanup)
        self.room = Path(room.name)

    def file(self, name, data):
        path = self.room / name
        path.write_bytes(data)
        return path
