"""What bin/audit does: asks playaudit for its verdict, and shows the place that the verdict names."""
from __future__ import annotations

import os
import re
import subprocess
from typing import TYPE_CHECKING

from fiorrudda.commands import running
from fiorrudda.commands.there import there
from fiorrudda.names import STATUSES
from fiorrudda.places import ROOT

if TYPE_CHECKING:
    from collections.abc import Iterator
    from typing import Any

LINE = re.compile(rb"not a play: (\w+) (.*)\n", re.S)
ENTRY = re.compile(r"(\d+) (\d+) (.*): (yes|no|done)")
LONGEST = 160  # bytes of a line that is shown
TRIES = 5  # plays that are made, where the order of documents matters


class Verdict:
    """The name of a case, and its value: a number, of a scenario a place."""

    def __init__(self, name: str, value: str) -> None:
        self.name = name
        self.value = value if name == "Scenario" else int(value)


def program() -> str:
    return os.environ.get("PLAYAUDIT", os.path.join(ROOT, "bin", "playaudit"))


def framed(scenario: bytes, play: bytes) -> bytes:
    """The input of playaudit."""
    return b"%d\n%s%s" % (len(scenario), scenario, play)


def verdict(scenario: bytes, play: bytes) -> Verdict | None:
    """The verdict on two files' bytes, or None where the text is a play."""
    try:
        ran = subprocess.run([program()], input=framed(scenario, play), stdout=subprocess.PIPE)
    except OSError as error:
        raise running.Failed(f"{program()}: {error.strerror}") from error
    if ran.returncode == STATUSES["Ok"] and ran.stdout == b"play\n":
        return None
    found = LINE.fullmatch(ran.stdout)
    if ran.returncode != STATUSES["Refused"] or not found:
        raise running.Failed(f"{program()} ended with the status {ran.returncode}")
    return Verdict(found.group(1).decode(), found.group(2).decode("utf-8", "replace"))


class Text:
    """The lines of a printed text, and where its history stands among them."""

    def __init__(self, data: bytes) -> None:
        self.text = data.decode("latin-1")
        self.lines = self.text.split("\n")
        self.heading = self.lines.index("history") if "history" in self.lines else None

    def line_at(self, offset: int) -> tuple[int, int]:
        """The number of the line, from 0, in which a byte stands, and the byte's place in it."""
        number = self.text.count("\n", 0, offset)
        return number, offset - (self.text.rfind("\n", 0, offset) + 1)

    def line(self, number: int) -> str:
        return self.lines[number] if number < len(self.lines) else ""

    def entries(self) -> list[tuple[int, int, str, str]]:
        """The entries of the history: turn, document, operation and reply."""
        if self.heading is None:
            return []
        found = [ENTRY.fullmatch(line) for line in self.lines[self.heading + 1:]]
        return [(int(one[1]), int(one[2]), one[3], one[4]) for one in found if one]

    def calls(self) -> dict[int, list[tuple[str, str]]]:
        """The calls of each document, in order."""
        by: dict[int, list[tuple[str, str]]] = {}
        for _, document, op, reply in self.entries():
            by.setdefault(document, []).append((op, reply))
        return by

    def blocks(self) -> dict[int, list[str]]:
        """The lines of each document, by its number."""
        by: dict[int, list[str]] = {}
        document = -1
        for line in self.lines[1:self.heading]:
            found = re.match(r"document (\d+) ", line)
            document = int(found.group(1)) if found else document
            by.setdefault(document, []).append(line)
        return by


def shown(line: str) -> str:
    """A line, cut where it is long."""
    return line if len(line) <= LONGEST else f"{line[:LONGEST]} ... ({len(line) - LONGEST} bytes more)"


def told(found: Verdict | None, scenario: bytes, play: bytes, name: str) -> list[str]:
    """What is said of a verdict, line by line."""
    if found is None:
        return ["play"]
    text = Text(play)
    return [f"not a play: {found.name} {found.value}", *CASES[found.name](found.value, scenario, text, name)]


def at(name: str, number: int, text: Text, what: Any) -> list[str]:
    """A place in the play: its file, the line's number from 1, and the line."""
    return [f"{name}:{number + 1}: {what}", "  found:  " + shown(text.line(number))]


def of_scenario(place: str, scenario: bytes, text: Text, name: str) -> list[str]:
    return [f"The scenario itself is refused at {place}: bin/why says what is wrong there."]


def of_history(number: int, scenario: bytes, text: Text, name: str) -> list[str]:
    if number == 0 and text.heading is None:
        return ["The text has no line `history`."]
    if number == 0:
        return at(name, len(text.lines) - 1, text, "the text does not end in the line `done` and its LF")
    return at(name, there(text.heading) + number, text, "this is no line of a history")


def of_illegal(index: int, scenario: bytes, text: Text, name: str) -> list[str]:
    turn, _, op, reply = text.entries()[index]
    lines = at(name, there(text.heading) + 1 + index, text, f"entry {index} is not what the book gives")
    if turn != index:
        return lines + [f"  wanted: turn {index}, since each entry has the number of its place"]
    if op.split(" ", 1)[0] in ("match", "covers"):
        return lines + [f"  wanted: the reply `{'no' if reply == 'yes' else 'yes'}`, by the entries before it"]
    return lines + ["  wanted: the reply `done`"]


def of_stranger(index: int, scenario: bytes, text: Text, name: str) -> list[str]:
    told = at(name, there(text.heading) + 1 + index, text, f"entry {index} names no document of the scenario")
    return told + [f"All {len(text.entries())} entries are what the book gives: a history alone is legal where this is "
                   "said of it."]


def plays(scenario: bytes) -> Iterator[Text]:
    """Plays of the scenario: with more than one document they may differ."""
    for _ in range(TRIES):
        yield Text(running.played(scenario).encode("latin-1"))


def of_calls(document: int, scenario: bytes, text: Text, name: str) -> list[str]:
    given = text.calls().get(document, [])
    lines = [f"Document {document} has {len(given)} entries of the history, and its run over them makes other calls."]
    for made in plays(scenario):
        calls = made.calls().get(document, [])
        same = 0
        while same < len(given) and same < len(calls) and given[same] == calls[same]:
            same += 1
        if same < len(given) and same < len(calls) and given[same][0] == calls[same][0]:
            continue  # Only the reply is another: this play tells nothing of what comes then.
        number = place_of(text, document, same)
        lines += at(name, number, text, f"entry {same} of document {document}") if number is not None else []
        wanted = calls[same][0] if same < len(calls) else "no call more"
        return lines + ["  wanted: " + shown(wanted)]
    return lines


def place_of(text: Text, document: int, count: int) -> int | None:
    """The line of a document's entry of this number, counted from 0."""
    for number, (_, whose, _, _) in enumerate(text.entries()):
        if whose == document:
            if count == 0:
                return int(there(text.heading) + 1 + number)
            count -= 1
    return None


def of_text(offset: int, scenario: bytes, text: Text, name: str) -> list[str]:
    number, column = text.line_at(offset)
    lines = at(name, number, text, f"byte {offset}, byte {column} of this line, is not that of the play")
    wanted = right(scenario, text)
    if wanted is None:
        return lines + ["  (The plays that were made here have other replies: what a play says there is not known.)"]
    return lines + ["  a play: " + shown(wanted.line(number))]


def right(scenario: bytes, text: Text) -> Text | None:
    """The text that the play with this history has, where plays that are made here tell each document's part: a
    document does the same where it calls the same and is replied to the same."""
    parts: dict[int, list[str]] = {}
    given = text.calls()
    for made in plays(scenario):
        calls, blocks = made.calls(), made.blocks()
        parts.update((one, lines) for one, lines in blocks.items() if calls.get(one, []) == given.get(one, []))
        if len(parts) == len(blocks):
            lines = ["fetchplay 1"] + [line for one in sorted(parts) for line in parts[one]]
            return Text("\n".join(lines + text.lines[text.heading:]).encode("latin-1"))
    return None


CASES: dict[str, Any] = {"Scenario": of_scenario, "History": of_history, "Illegal": of_illegal, "Stranger": of_stranger,
                         "Calls": of_calls, "Text": of_text}
