"""What the checks have beside unittest: cases that are compared one after another, whatever came of the others, and a
last line that says what was counted."""
from __future__ import annotations

import contextlib
import os
import sys
import threading
import time
import unittest
from typing import Any, Iterator, Optional

LOCK = threading.Lock()  # threads compare, too
COUNTED: list[str] = []
USUAL = 0.1  # seconds of a fixed piece of work on the machine where the bounds of checks were set


def pace() -> float:
    """How many times as long as there a fixed piece of work takes now; 1 at least."""
    began = time.process_time()
    sum(number * number % 7 for number in range(1000000))
    return max(1, (time.process_time() - began) / USUAL)


def spent() -> float:
    """The processor time so far, of what was started and has ended too."""
    times = os.times()
    return times.user + times.system + times.children_user + times.children_system


class Checks(unittest.TestCase):
    maxDiff = 4000

    def compare(self, name: str, got: Any, wanted: Any) -> None:
        """A case. Where it differs its name is told, and what differs, and the others go on."""
        if got != wanted:
            with LOCK, self.subTest(name):
                self.assertEqual(got, wanted)

    def fault(self, text: str) -> None:
        """A case that is not as it should be, in a sentence."""
        with LOCK, self.subTest(text):
            self.fail(text)

    @contextlib.contextmanager
    def within(self, name: str, seconds: float) -> Iterator[None]:
        """A case that is dear where it goes wrong: it has these seconds of processor time, on a machine that is slower
        more by as much, and the double of that, since what else runs there makes it dearer too."""
        began = spent()
        yield
        took = spent() - began
        if took > 2 * seconds and took > 2 * seconds * pace():
            self.fault(f"{name}: {took:.1f} s of processor time, and not {seconds}")

    def leave(self, part: str) -> None:
        """A part that is left out, and why."""
        with LOCK, self.subTest(part):
            self.skipTest(part)

    def counted(self, text: str) -> None:
        """What the last line says, where all is well."""
        COUNTED.append(text)


def main(name: str, module: str, words: Optional[list[str]] = None) -> int:
    """Runs the tests of a module as the check NAME: all, or those that the words name (those of the call, where none
    are given here): `Checks.test_table`, or behind -k a part of their names. The status is 0 where all is as it should
    be."""
    result = unittest.main(module, argv=[name, *(sys.argv[1:] if words is None else words)], exit=False).result
    for _, reason in result.skipped:
        print(f"{name}: left out: {reason}", file=sys.stderr)
    if result.testsRun == 0:
        print(f"{name}: no test has such a name", file=sys.stderr)
        return 1
    if result.wasSuccessful():
        print(f"{name}: {'; '.join(COUNTED) or 'as it should be'}")
    return 0 if result.wasSuccessful() else 1
