"""How the command ends: its statuses, and one line for whatever stops it."""

from __future__ import annotations

import os
import signal
import sys
import threading
from typing import Any, Callable, Dict

from .files import Unusable
from .library import LibraryMissing
from .showing import shown

ACCEPTED, REFUSED, UNUSABLE = 0, 1, 2

#: The shell's status of a program that a signal ended is so much more than the signal's number.
BY_SIGNAL = 128


class Ended(BaseException):
    """A signal asks the command to end; what it has begun to write is taken away first."""

    def __init__(self, number: int, frame: object) -> None:
        super().__init__(number)
        self.number = number


def _end(number: int, frame: object) -> None:
    raise Ended(number, frame)


def say(text: str) -> None:
    print(f"hraunlik: {text}", file=sys.stderr)


def steady_streams() -> None:
    """To write to a closed standard output fails, to a closed error output leads nowhere; letters that lack are written out."""
    if sys.stdout is None:
        sys.stdout = open(os.open(os.devnull, os.O_RDONLY), "w")
    if sys.stderr is None:
        sys.stderr = open(os.devnull, "w")
    for stream in (sys.stdout, sys.stderr):
        stream.reconfigure(errors="backslashreplace")


def watched(run: Callable[[], int]) -> int:
    """The status of a run; signals end it in good order while it goes on."""
    before = _watch()
    try:
        return ended(run)
    finally:
        for number, handler in before.items():
            signal.signal(number, handler)


def _watch() -> Dict[int, Any]:
    """Asks for the signals, and tells who had them; a signal that is ignored stays so."""
    if threading.current_thread() is not threading.main_thread():
        return {}
    asked = [signal.SIGINT, signal.SIGTERM, signal.SIGHUP]
    return {number: signal.signal(number, _end) for number in asked if signal.getsignal(number) is not signal.SIG_IGN}


def ended(run: Callable[[], int]) -> int:
    """The status of a run, whatever it meets."""
    try:
        status = run()
        sys.stdout.flush()
        return status
    except (Unusable, LibraryMissing) as error:
        say(shown(str(error)))
    except MemoryError:
        say("not enough memory")
    except BrokenPipeError:  # who read it has enough, as head has: no word is wanted
        _lead_output_nowhere()
    except OSError as error:
        _lead_output_nowhere()
        say(f"the output can't be written: {error.strerror}")
    except Ended as signalled:
        _lead_output_nowhere()
        say(f"ended by {signal.Signals(signalled.number).name}")
        return BY_SIGNAL + signalled.number
    return UNUSABLE


def _lead_output_nowhere() -> None:
    """What is still to be written would fail once more when Python ends."""
    try:
        os.dup2(os.open(os.devnull, os.O_WRONLY), sys.stdout.fileno())
    except (OSError, ValueError):
        pass  # it is no descriptor
