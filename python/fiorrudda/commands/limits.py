"""A time limit for what is done in Python itself, whatever it does: no loop has to look at the clock."""
from __future__ import annotations

import signal
import threading
from typing import TYPE_CHECKING

if TYPE_CHECKING:
    from typing import Any


class Late(Exception):
    """The time is over. It may come between any two steps of the main thread."""


class Limit:
    """Use it as a context: after so many seconds it raises Late inside, and again each second, should that be lost in a
    destructor. Who catches Late calls `stop` first. Only the main thread has a limit."""

    def __init__(self, seconds: float) -> None:
        self.seconds = seconds
        self.is_set = threading.current_thread() is threading.main_thread()

    def __enter__(self) -> Any:
        if self.is_set:
            signal.signal(signal.SIGALRM, self.end)
            signal.setitimer(signal.ITIMER_REAL, self.seconds, 1)
        return self

    def __exit__(self, *error: object) -> None:
        self.stop()

    def stop(self) -> None:
        if self.is_set:
            signal.setitimer(signal.ITIMER_REAL, 0)
            signal.signal(signal.SIGALRM, signal.SIG_IGN)

    @staticmethod
    def end(number: int, frame: object) -> None:
        raise Late
