"""Plays tests: scenarios, each beside what it should come to.

    bin/expect TEST..               against the scripted servers of each scenario
    bin/expect --net TEST..         against the real servers of its routes
    bin/expect --strict TEST..      a test with a lint, or that leaves a fetch unnamed, is not met
    bin/expect --jobs 8 FOLDER      all files below a folder whose names end in expect.json, eight side by side

Without a TEST one is read from standard input. It prints TAP: a line for each test, in order, and below one that fails
what came otherwise, and why. The status is 0 where all are met, 1 where one is not, and 2 where the words are wrong.
docs/why.md says what stands in a test."""
from __future__ import annotations

import argparse
import sys
from typing import TYPE_CHECKING

from fiorrudda.commands import expectations, streams
from fiorrudda.places import called

if TYPE_CHECKING:
    from collections.abc import Iterator, Sequence

    from fiorrudda.commands.expectations import Outcome

SELF = called("expect")


def jobs(word: str) -> int:
    if not (word.isascii() and word.isdigit()) or not 1 <= int(word) <= 256:
        raise argparse.ArgumentTypeError("a number from 1 to 256")
    return int(word)


def words() -> argparse.Namespace:
    given = argparse.ArgumentParser(prog=SELF, description="plays tests: scenarios, each beside what it should come to",
                                    epilog="status: 0 all are met, 1 one is not, 2 wrong words")
    given.add_argument("tests", nargs="*", metavar="TEST",
                       help="a file, or a folder; standard input where none is named")
    given.add_argument("--net", action="store_true", help="ask the real servers of the scenarios' routes")
    given.add_argument("--strict", action="store_true",
                       help="a test with a lint, or that leaves a fetch or load unnamed, is not met")
    given.add_argument("--json", action="store_true", help="print JSON in place of TAP")
    given.add_argument("--jobs", metavar="N", type=jobs, default=1, help="tests side by side (1)")
    given.add_argument("--timeout", metavar="S", type=streams.seconds, default=20,
                       help="seconds that a server may be silent, with --net (20)")
    return given.parse_args()


def outcome(path: str | None, given: argparse.Namespace) -> Outcome:
    try:
        data = streams.read(path)
    except OSError as error:
        return expectations.Outcome(str(path), [f"{path}: {error.strerror}"])
    return expectations.outcome(path, data, given.net, given.timeout, given.strict)


def outcomes(paths: Sequence[str | None], given: argparse.Namespace) -> Iterator[Outcome]:
    """Those of all tests, in order."""
    if given.jobs == 1:
        yield from (outcome(path, given) for path in paths)
        return
    from concurrent.futures import ThreadPoolExecutor  # which takes longer than a test
    with ThreadPoolExecutor(given.jobs) as pool:
        yield from pool.map(lambda path: outcome(path, given), paths)


def tap(number: int, one: Outcome) -> list[str]:
    name = one.name.replace("#", "\\#")
    first = f"{'' if one.is_met else 'not '}ok {number} - {name}"
    return [first] + ["# " + line for line in one.lines + [line for line in one.warnings if line not in one.lines]]


def run() -> int:
    given = words()
    paths: list[str | None] = [*expectations.files(given.tests)] if given.tests else [None]
    if not paths:
        return streams.complain(2, f"{SELF}: there is no test in {', '.join(given.tests)}")
    if not given.json:
        streams.write(f"TAP version 13\n1..{len(paths)}\n")
    done = []
    for one in outcomes(paths, given):
        done.append(one)
        if not given.json:
            streams.write_lines(tap(len(done), one))
            sys.stdout.flush()
    if given.json:
        streams.write_json([one.data() for one in done])
    return 0 if all(one.is_met for one in done) else 1


def main() -> None:
    streams.run(run)
