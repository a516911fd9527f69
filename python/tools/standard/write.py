"""Writes the page that has the standard with its proof beside it.

    bin/standard            writes docs/standard/index.html of docs/standard/steps.json
    bin/standard --check    changes nothing, and says whether the page is what would be written

In both cases every name of the table has to be there: definitions, functions, edits, ways, plays and the line that each
prints, points of covered/, rules of browsers/ and places of pages; and what belongs on the page has to be on it:
docs/standard/README.md says what. No program is run, and nothing outside the repository is looked up.

The status is 0 where all is well, 1 where it is not."""
from __future__ import annotations

import argparse
import sys

from tools.standard import faults, page, proof, table
from tools.standard.sources import ROOT

PAGE = "docs/standard/index.html"


def is_written(text: str) -> bool:
    path = ROOT / PAGE
    return path.is_file() and path.read_text("utf-8") == text


def made(known: table.Table) -> tuple[list[str], str, str]:
    """What is wrong; and where nothing is, the page and what is on it."""
    named = proof.named(known)
    proofs = {step.id: proof.proof_of(step, named) for _, step in known.steps()}
    wrong = faults.all_faults(known, proofs)
    text = "" if wrong else page.written(known, proofs)
    dead = list(faults.of_page(text))
    return wrong + dead, "" if dead else text, "" if wrong else page.counted(known, proofs)


def words() -> argparse.Namespace:
    given = argparse.ArgumentParser(prog="bin/standard", description=__doc__,
                                    formatter_class=argparse.RawDescriptionHelpFormatter)
    given.add_argument("--check", action="store_true", help="change nothing, and fail where the page is another")
    return given.parse_args()


def main() -> int:
    given = words()
    try:
        known = table.read(table.stored())
    except table.Bad as error:
        print(f"bin/standard: {table.TABLE}: {error}", file=sys.stderr)
        return 1
    wrong, text, count = made(known)
    if given.check and text and not is_written(text):
        wrong.append(f"{PAGE} is not what is written of its sources: bin/standard writes it")
    elif text and not given.check:
        (ROOT / PAGE).write_text(text, "utf-8")
    for fault in wrong:
        print(f"bin/standard: {fault}", file=sys.stderr)
    if not wrong:
        print(f"bin/standard: {count}")
    return 1 if wrong else 0
