"""How the command begins: until the package is loaded, an interrupt ends it without a word."""

import signal

signal.signal(signal.SIGINT, signal.SIG_DFL)

from hraunlik.command import main

__all__ = ["main"]
