"""Checks that the gallery is in the stored run of crates/rows_plays, and that its pages quote their plays.

    gallery/rows          checks; says each difference on standard error, and ends with 1 where there is one
    gallery/rows write    appends the rows that are missing to stdin and stdout of the crate, renews those that differ,
                          takes out those of scenarios that are gone, and then checks

The stored input has for each folder NAME of gallery/ a title and the row below it,

    # gallery/NAME: the question, which is the title of gallery/NAME/README.md
    the scenario as compact JSON, the same value as gallery/NAME/scenario.json

and the stored output the same title, `status 0` and the play, which is gallery/NAME/play.txt. Where documents on
threads call the shared book, the printed text may differ from run to run. Such rows have a word before the scenario
(see crates/rows_links/src/inputs.rt), and the stored output what is printed of every such play.

A folder that has the reports of its scenario, reports.txt, has the same title once more, further down, with a row that
has the word `report` before the scenario; the stored output there is `status 0` and the reports.

The lines that a README quotes (those with four blanks before them) are in the play and then in the reports, in this
order.

The script never plays anything: play.txt, reports.txt and the stored output are compared with the program by `rt ci`,
which runs the crate. It needs python3 alone.
"""
from __future__ import annotations

import json
import os
import re
import sys
from typing import Dict, Iterator, Tuple

from fiorrudda.places import ROOT

HERE = os.path.join(ROOT, "gallery")
RUN = os.path.join(ROOT, "crates", "rows_plays")
MARK = "# gallery/"
# The rows with a word: what is printed of their plays is the same in every run, and the play may not be.
WORDS = {"tabs-apart": "shared", "tabs-share": "joint"}
# Behind the name of a folder: the row and the stored output with its reports.
REPORTS = ", reports"
# Each row of the stored run: its title, the row, and what the stored output has below the title.
Rows = Dict[str, Tuple[str, str, str]]


def read(path: str) -> str:
    with open(path, encoding="utf-8", newline="") as file:
        return file.read()


def names() -> list[str]:
    return sorted(name for name in os.listdir(HERE) if os.path.isdir(os.path.join(HERE, name)))


def parts(play: str) -> tuple[str, list[list[str]]]:
    """The text of the documents, and the history as pairs of a document and what it called."""
    whole = r"(fetchplay 1\ndocument 0 .*\nend \w+( \w+)?)\nhistory\n((\d+ \d+ [^\n]*\n)*)done\n"
    found = re.fullmatch(whole, play, re.S)
    if found is None:
        raise ValueError("play.txt is not a whole play")
    return found.group(1), [line.split(" ", 2)[1:] for line in found.group(3).splitlines()]


def shared(play: str) -> str:
    """What a row with `shared` prints: the documents, and the history by documents, without turns."""
    documents, calls = parts(play)
    lines = [documents, f"entries {len(calls)}"]
    for line in documents.splitlines():
        if line.startswith("document "):
            number = line.split(" ")[1]
            lines += [f"of {number}"] + [call for document, call in calls if document == number]
    return "".join(f"{line}\n" for line in lines)


def joint(play: str) -> str:
    """What a row with `joint` prints of a play of two documents that share a key
    (crates/rows_links/src/histories.rt)."""
    calls = [call for _, call in parts(play)[1]]
    learnt = [turn for turn, call in enumerate(calls) if call.startswith("learn http://t.test null other ")]
    question = "covers http://t.test null other PUT () http://c.test/y "
    asked = [call for call in calls[: learnt[0]] if call.startswith(question)]
    if len(calls) != (12 if len(asked) == 2 else 11):
        return f"not a play of two tabs: {len(calls)} entries\n"
    return "joint as it should be\n"


def printed(name: str, play: str) -> str:
    word = WORDS.get(name)
    return play if word is None else shared(play) if word == "shared" else joint(play)


def reports_of(folder: str) -> str | None:
    """The reports of a folder's scenario; none where it has none."""
    path = os.path.join(folder, "reports.txt")
    return read(path) if os.path.exists(path) else None


def own_faults(play: str, reports: str | None, page: str) -> Iterator[str]:
    """What is wrong with a folder's own files: a history that is not the documents' calls, a quote that is no line."""
    documents, calls = parts(play)
    made = []
    for line in documents.splitlines():
        if line.startswith("document "):
            number = line.split(" ")[1]
        elif line.startswith("call "):
            made.append([number, line[len("call "):]])
    if sorted(made, key=lambda call: int(call[0])) != sorted(calls, key=lambda call: int(call[0])):
        yield "the history of play.txt is not the calls of its documents"
    rest = iter((play + (reports or "")).split("\n"))
    for line in page.splitlines():
        if line.startswith("    ") and line[4:] not in rest:
            yield ("README.md quotes a line that is neither in play.txt nor in reports.txt, or not in this order: "
                   f"{line[4:]}")


def wanted(name: str) -> tuple[Rows, list[str]]:
    """The title, the row, and what the stored output has below the title, for the play and for the reports; and the
    folder's own faults."""
    folder = os.path.join(HERE, name)
    page = read(os.path.join(folder, "README.md"))
    question = page.split("\n", 1)[0].removeprefix("# ")
    scenario = json.loads(read(os.path.join(folder, "scenario.json")))
    row = json.dumps(scenario, separators=(",", ":"), ensure_ascii=False)
    play = read(os.path.join(folder, "play.txt"))
    reports = reports_of(folder)
    word = WORDS.get(name)
    title = f"{MARK}{name}: {question}"
    rows = {name: (title, row if word is None else f"{word}\t{row}", f"status 0\n{printed(name, play)}")}
    if reports is not None:
        rows[name + REPORTS] = (title, f"report\t{row}", f"status 0\n{reports}")
    return rows, list(own_faults(play, reports, page))


def blocks(text: str) -> tuple[list[str], list[str | None]]:
    """The blocks of a stored text, each a title and what stands below it, and the gallery's names of them. The second
    block of a folder has its reports."""
    found = text.rstrip("\n").split("\n\n")
    of: list[str | None] = []
    for block in found:
        name = block[len(MARK):].split(":", 1)[0] if block.startswith(MARK) else None
        of.append(name + REPORTS if name is not None and name in of else name)
    return found, of


def block_of(title: str, below: str) -> str:
    return f"{title}\n{below}".rstrip("\n")


def renewed(text: str, wants: Rows, place: int) -> str:
    """A stored text with the gallery's blocks as they should be: by the place in a row of what stands below its
    title."""
    found, of = blocks(text)
    made = {name: block_of(want[0], want[place]) for name, want in wants.items()}
    kept = [block if name is None else made[name] for block, name in zip(found, of) if name is None or name in made]
    kept += [block for name, block in made.items() if name not in of]
    return "\n\n".join(kept) + "\n"


def write(wants: Rows) -> None:
    """Renews the stored run."""
    for file, place in (("stdin", 1), ("stdout", 2)):
        path = os.path.join(RUN, file)
        new = renewed(read(path), wants, place)
        if new != read(path):
            with open(path, "w", encoding="utf-8", newline="") as out:
                out.write(new)


def faults_in(wants: Rows) -> Iterator[str]:
    """What is wrong with the stored run."""
    for file, place in (("stdin", 1), ("stdout", 2)):
        found, of = blocks(read(os.path.join(RUN, file)))
        for name in of:
            if name is not None and name not in wants:
                yield f"{name}: crates/rows_plays/{file} has it, and gallery/ has not"
        for name, want in wants.items():
            if of.count(name) != 1:
                yield f"{name}: stands {of.count(name)} times in crates/rows_plays/{file}"
            elif found[of.index(name)] != block_of(want[0], want[place]):
                yield f"{name}: differs in crates/rows_plays/{file}"


def all_wanted() -> tuple[Rows, list[str]]:
    """The rows of all folders, and the folders' own faults."""
    wants: Rows = {}
    faults: list[str] = []
    for name in names():
        try:
            rows, own = wanted(name)
        except (OSError, ValueError) as error:
            sys.exit(f"gallery/rows: {name}: {error}")
        wants.update(rows)
        faults += [f"{name}: {fault}" for fault in own]
    return wants, faults


def main() -> int:
    words = sys.argv[1:]
    if words not in ([], ["write"]):
        sys.exit("usage: gallery/rows [write]")
    wants, faults = all_wanted()
    if words:
        write(wants)
    faults += faults_in(wants)
    for fault in faults:
        print(f"gallery/rows: {fault}", file=sys.stderr)
    if not faults:
        reports = sum(name.endswith(REPORTS) for name in wants)
        print(f"gallery/rows: {len(wants) - reports} plays, and {reports} with their reports, are in "
              "crates/rows_plays, as in gallery/")
    return 1 if faults else 0
