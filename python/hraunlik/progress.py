"""What is shown while work goes on: a line on standard error, on a terminal alone."""

from __future__ import annotations

import sys
import time

#: Seconds before the first line is shown, and between two.
PATIENCE, PAUSE = 1.0, 0.2

#: Bytes of a file that takes long enough for a word about it at once.
LARGE = 16_000_000


class Progress:
    """How far long work has come."""

    def __init__(self) -> None:
        self._shown = False
        self._next = time.monotonic() + PATIENCE
        self._wanted = sys.stderr.isatty()

    def __call__(self, text: str) -> None:
        if self._wanted and time.monotonic() >= self._next:
            self._show(text)

    def step(self, text: str, size: int) -> None:
        """A step of work on so many bytes begins."""
        if self._wanted and size >= LARGE:
            self._show(f"{text}, {size / 1e6:,.0f} MB")

    def _show(self, text: str) -> None:
        print(f"\r\x1b[K{text}", end="", file=sys.stderr, flush=True)
        self._shown, self._next = True, time.monotonic() + PAUSE

    def end(self) -> None:
        """Takes the line away."""
        if self._shown:
            print("\r\x1b[K", end="", file=sys.stderr, flush=True)
            self._shown = False
