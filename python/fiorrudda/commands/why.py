"""Plays a scenario, and says why each fetch came to what it came.

    bin/why [SCENARIO]              against its scripted servers
    bin/why --net [SCENARIO]        against the real servers of its routes
    bin/why --brief [SCENARIO]      the verdicts alone, and what to change
    bin/why --json [SCENARIO]       the same as JSON
    bin/why --serve                 scenarios from standard input, one in a line: each is answered by a line of JSON
    bin/why --ways                  a list of all that it may say, by the names that a test may want
    bin/why --lints                 a list of all warnings of headers and integrity texts

SCENARIO is a file, or a folder with a scenario.json; without it the scenario is read from standard input. The verdicts
come first, a line each. Lines that begin with < are what the server answered, lines that begin with # what is to be
said of it; without them it is the text of `bin/fetchplay`. What is wrong in a scenario that is refused is said with its
line and column. docs/why.md tells the rest.

The status is 0 where the scenario was played, 1 where it is refused, 2 where the words are wrong or a file cannot be
read, and 3 where the program fails. FETCHPLAY names another program than bin/fetchplay."""
from __future__ import annotations

import os
import re
import sys
import types

from fiorrudda.commands import streams
from fiorrudda.places import called

TYPE_CHECKING = False  # without the module typing, which takes long to read
if TYPE_CHECKING:
    from fiorrudda.commands.shapes import Given

SELF = called("why")

FLAGS = {
    "net": "ask the real servers of the scenario's routes",
    "brief": "print the verdicts alone, and what to change",
    "json": "print JSON",
    "serve": "answer each line of standard input, a scenario, by a line of JSON",
    "ways": "list the ways to the results, and play nothing",
    "lints": "list the warnings of headers and integrity texts, and play nothing",
}
FORMS = ("brief", "json", "serve")  # of which there is one at most
PATIENCE = 20  # seconds


def words() -> Given:
    return plain_words(sys.argv[1:]) or parsed_words()


def plain_words(given: list[str]) -> Given | None:
    """The words, where they are flags and a name as they mostly are; else None. argparse takes as long as a play."""
    flags = {word[2:] for word in given if word[:2] == "--" and word[2:] in FLAGS}
    names = [word for word in given if not word.startswith("-")]
    most = 0 if "serve" in flags else 1
    if len(flags) + len(names) < len(given) or len(flags.intersection(FORMS)) > 1 or len(names) > most:
        return None
    return types.SimpleNamespace(scenario=names[0] if names else None, timeout=PATIENCE,
                                 **{name: name in flags for name in FLAGS})


def parsed_words() -> Given:
    import argparse
    given = argparse.ArgumentParser(
        prog=SELF, description="plays a scenario, and says why each fetch came to what it came",
        epilog="status: 0 played, 1 the scenario is refused, 2 wrong words or files, 3 no play")
    given.add_argument("scenario", nargs="?", metavar="SCENARIO",
                       help="a file, or a folder with scenario.json; standard input where it is left out")
    form = given.add_mutually_exclusive_group()
    for name, what in FLAGS.items():
        (form if name in FORMS else given).add_argument("--" + name, action="store_true", help=what)
    given.add_argument("--timeout", metavar="S", type=streams.seconds, default=PATIENCE,
                       help=f"seconds that a server may be silent, with --net ({PATIENCE})")
    found = given.parse_args()
    if found.serve and found.scenario:
        given.error(f"--serve reads the scenarios from standard input: leave {found.scenario} out")
    return found


def file_of(name: str | None) -> str | None:
    """The file of a scenario: of a folder that in it."""
    return os.path.join(name, "scenario.json") if name and os.path.isdir(name) else name


def hint(name: str) -> str:
    """What is meant by a name that is no file."""
    if re.match(r"[a-z][a-z0-9+.-]*://", name, re.I):
        return f": this is a URL, and a scenario's file belongs here; bin/ask {name} asks the server itself"
    return ""


def run() -> int:
    given = words()
    if given.ways:
        from fiorrudda.commands import explanations
        streams.write_lines(explanations.way_lines())
        return 0
    if given.lints:
        from fiorrudda.commands import lints
        streams.write_lines(lints.lines())
        return 0
    from fiorrudda.commands import asking
    if given.serve:
        return asking.serve(given)
    path = file_of(given.scenario)
    name = path or "standard input"
    try:
        data = streams.read(path)
    except OSError as error:
        return streams.complain(2, f"{SELF}: {name}: {error.strerror}{hint(name)}")
    return asking.why(SELF, name, data, given)


def main() -> None:
    streams.run(run, 3)
