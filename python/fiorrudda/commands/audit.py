"""Says whether a text is the printed play of a scenario, and if not, where it first is none.

    bin/audit SCENARIO PLAY

It frames the two files and asks the proved `bin/playaudit`. Where that refuses the text, the place is shown: the line
of the play, what was found there, and what would be right, as far as that can be told. One of the two may be `-`, which
is standard input. docs/audit.md tells the rest.

The status is 0 where the text is a play, 1 where it is none, 2 where the words are wrong or a file cannot be read, and
3 where a program fails. PLAYAUDIT and FETCHPLAY name other programs than bin/playaudit and bin/fetchplay."""
from __future__ import annotations

import argparse

from fiorrudda.commands import auditing, running, streams
from fiorrudda.places import called

SELF = called("audit")


def words() -> argparse.Namespace:
    given = argparse.ArgumentParser(prog=SELF, description="says whether a text is the printed play of a scenario",
                                    epilog="status: 0 a play, 1 no play, 2 wrong words or files, 3 no verdict")
    given.add_argument("scenario", metavar="SCENARIO")
    given.add_argument("play", metavar="PLAY", help="what `fetchplay play`, or another engine, printed")
    return given.parse_args()


def run() -> int:
    given = words()
    read: list[bytes] = []
    for name in (given.scenario, given.play):
        try:
            read.append(streams.read(name))
        except OSError as error:
            return streams.complain(2, f"{SELF}: {name}: {error.strerror}")
    try:
        scenario, play = read
        verdict = auditing.verdict(scenario, play)
        streams.write_lines(auditing.told(verdict, scenario, play, given.play))
    except running.Failed as failure:
        return streams.complain(3, f"{SELF}: {failure}")
    return 0 if verdict is None else 1


def main() -> None:
    streams.run(run, 3)
