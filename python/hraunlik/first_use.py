"""The library is made on first use, and anew if the crates have changed."""

from __future__ import annotations

import shutil
import subprocess
import tempfile
import threading
import time

from . import home, library, provenance
from .ending import say
from .files import Unusable
from .progress import Progress

FIRST_USE = "first use; the library is proved and compiled once, which takes 3 to 10 minutes"
ANEW = "the crates have changed since the library was made; it is proved and compiled anew"
OLDER = "the library is older than the crates, and without rt it can't be made anew"

#: Seconds between two looks at the maker.
TICK = 0.1


def prepare() -> None:
    """Sees to it that the library is there and fits the crates, as far as that can be had."""
    if library.find() is None:
        make(FIRST_USE)
    elif provenance.is_stale():
        if shutil.which("rt"):
            make(ANEW)
        else:
            say(OLDER)


def make(why: str) -> None:
    """Makes the library, and shows which crate of how many is proved."""
    if not home.MAKER.is_file():
        raise Unusable(f"{home.LIBRARY} is missing, and so is the repository that makes it")
    _see_that_it_can_be_written()
    say(why)
    began = time.monotonic()
    with subprocess.Popen([str(home.MAKER)], stdin=subprocess.DEVNULL, stdout=subprocess.PIPE, text=True) as making:
        _show(making, began)
    if making.returncode != 0:
        raise Unusable("the library couldn't be made (see above); without the toolchain, install the wheel (docs/USING.md)")
    say(f"made in {time.monotonic() - began:.0f} s; from now on it starts at once")


def _show(making: "subprocess.Popen[str]", began: float) -> None:
    """Shows the last line that the maker told, a crate of all, and the seconds."""
    progress, told = Progress(), ["proving and compiling"]
    listening = threading.Thread(target=lambda: told.extend(map(str.strip, making.stdout)), daemon=True)
    listening.start()
    while making.poll() is None:
        time.sleep(TICK)
        progress(f"{told[-1]}, {time.monotonic() - began:.0f} s so far")
    listening.join()
    progress.end()


def _see_that_it_can_be_written() -> None:
    target = home.REPOSITORY / "target"
    try:
        target.mkdir(exist_ok=True)
        tempfile.TemporaryFile(dir=target).close()
    except OSError as error:
        raise Unusable(f"can't be written ({error.strerror}), and the library is made there", str(target)) from None
