"""Says on a terminal how far a call is that takes long: one line of standard error, which is taken away at the end."""
from __future__ import annotations

import sys
import time
from typing import Any, Optional

AFTER, EVERY = 2, 0.5  # seconds before the first word, and between two
CLEAR = "\r\x1b[K"


class Progress:
    """How far one call is; it says nothing where the stream is no terminal."""

    def __init__(self, name: str, stream: Any):
        self.name = name
        self.stream = stream
        self.is_shown = stream is not None and stream.isatty()
        self.begun = self.told = time.monotonic()
        self.has_line = False
        self.played = 0

    def say(self, what: str) -> None:
        now = time.monotonic()
        if self.is_shown and now - self.begun >= AFTER and now - self.told >= EVERY:
            self.told, self.has_line = now, True
            self.write(f"{CLEAR}{self.name}: {what}, {now - self.begun:.0f} s")

    def end(self) -> None:
        if self.has_line:
            self.write(CLEAR)
        self.has_line = False

    def write(self, text: str) -> None:
        try:
            self.stream.write(text)
            self.stream.flush()
        except OSError:  # of a terminal that is gone
            self.is_shown = False


# That of the command, which plays are told to; a process that only judges has none.
current: Optional[Progress] = None


def begin(name: str) -> None:
    global current
    current = Progress(name, sys.stderr)


def add_played(count: int) -> None:
    """So many requests more were played."""
    if current is not None:
        current.played += count
        current.say(f"{current.played:,} requests played")


def end() -> None:
    """Takes the line away, before something else is printed."""
    global current
    if current is not None:
        current.end()
    current = None
