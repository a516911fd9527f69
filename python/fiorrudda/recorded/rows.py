"""The rows of the page that --html writes: each request with what came of it, what would come of it with changes, and
when it was."""
from __future__ import annotations

from dataclasses import dataclass, field
from typing import Any, Iterator, Optional

from fiorrudda.commands.scenario import origin_of
from fiorrudda.commands.there import there
from fiorrudda.commands.verdicts import shown
from fiorrudda.recorded import telling, verdicts
from fiorrudda.recorded.differences import BROKEN, MENDED, WITH
from fiorrudda.recorded.model import Entry, Recording
from fiorrudda.recorded.redacting import without_user

GOOD, BAD, DOUBTFUL, QUIET = "good", "bad", "doubtful", "quiet"
MARKS = {verdicts.PASSED: GOOD, verdicts.REFUSED: BAD, verdicts.UNREACHED: BAD, verdicts.FAILED: BAD}
CHANGED = {BROKEN: BAD, WITH: BAD, MENDED: GOOD}
AS_BEFORE, NO_ANSWER = "as before", "no answer"
Pairs = list[tuple[str, str]]


@dataclass
class Side:
    """What comes of a request: a mark, a few words, and what is told of it, each with what it is."""

    mark: str
    words: str
    told: Pairs = field(default_factory=list)


@dataclass
class Row:
    """A request; `after` is None where nothing is changed. It began and ended at these seconds, if that is recorded."""

    url: str
    method: str
    kind: str
    before: Side
    after: Optional[Side] = None
    begin: Optional[float] = None
    end: Optional[float] = None

    @property
    def origin(self) -> str:
        return origin_of(self.url) or self.url.partition(":")[0] + ":"

    @property
    def name(self) -> str:
        """What stands behind the origin."""
        return shown(self.url[len(self.origin):] if self.url.startswith(self.origin) else self.url) or "/"

    @property
    def is_plain(self) -> bool:
        """Whether it passed, and comes as before."""
        return self.before.mark in (GOOD, QUIET) and (self.after is None or self.after.mark == QUIET)

    @property
    def is_failed(self) -> bool:
        return self.before.mark == BAD

    @property
    def is_broken(self) -> bool:
        """Whether it is refused, or not asked, with the changes alone."""
        return self.after is not None and self.after.mark == BAD


def of_page(number: int, found: dict[str, Any], recording: Recording) -> list[Row]:
    """The rows of a page of this number, in the order of their entries."""
    page = found["pages"][number]
    entries = {entry.number: entry for entry in recording.entries}
    changed = changed_of(number, found)
    rows = [(one["entry"], of_finding(one, entries, changed)) for one in page["findings"]]
    rows += [(one["entry"], of_left(one, entries[one["entry"]], changed is not None)) for one in page["left_out"]]
    if page["entry"] is not None and page["entry"] not in [place for place, _ in rows]:
        rows.append((page["entry"], of_document(entries[page["entry"]], changed is not None)))
    return [row for _, row in sorted(rows, key=lambda pair: int(pair[0]))]


def changed_of(number: int, found: dict[str, Any]) -> Optional[dict[int, list[dict[str, Any]]]]:
    """The differences of a page by their entries; None where nothing is changed."""
    if "changes" not in found:
        return None
    by_entry: dict[int, list[dict[str, Any]]] = {}
    for one in found["differences"]:
        if one["page"] == number:
            by_entry.setdefault(one["entry"], []).append(one)
    return by_entry


def timed(row: Row, entries: list[Entry]) -> Row:
    times = [(entry.started, entry.started + entry.took) for entry in entries if entry.started is not None]
    if times:
        row.begin = min(begin for begin, _ in times)
        row.end = max(end for _, end in times)
    return row


def of_finding(one: dict[str, Any], entries: dict[int, Entry],
               changed: Optional[dict[int, list[dict[str, Any]]]]) -> Row:
    word = verdicts.WORDS.get(one["verdict"], "passed")
    before = Side(MARKS.get(one["verdict"], DOUBTFUL), f"{word}, {one['status'] or NO_ANSWER}", list(told_of(one)))
    after = None if changed is None else of_differences(changed.get(one["entry"], []))
    row = Row(without_user(one["url"]), one["method"], one["kind"], before, after)
    return timed(row, [entries[number] for number in one["entries"] if number in entries])


def told_of(one: dict[str, Any]) -> Iterator[tuple[str, str]]:
    """What is told of a finding, as the text has it; of one that passed what was guessed and noted."""
    if one["verdict"] == verdicts.PASSED:
        yield from (("guessed", guess) for guess in one["guesses"])
        yield from (("note", note) for note in one["notes"])
        return
    _, *lines = telling.finding_lines(one, False)
    yield "why", telling.said_of(one, False)
    for line in lines:
        name, _, text = line.strip().partition(": ")
        yield name, text


def of_differences(changed: list[dict[str, Any]]) -> Side:
    """What comes with the changes, the gravest first."""
    if not changed:
        return Side(QUIET, AS_BEFORE)
    marks = [CHANGED.get(one["kind"], DOUBTFUL) for one in changed]
    mark = next(mark for mark in (BAD, DOUBTFUL, GOOD) if mark in marks)
    told = [("why", reason) for reason in map(telling.reason_of, changed) if reason]
    return Side(mark, "; ".join(map(telling.kind_of, changed)), told)


def of_left(one: dict[str, Any], entry: Entry, is_changed: bool) -> Row:
    side = Side(QUIET, f"left out, {entry.status or NO_ANSWER}", [("why", one["why"])])
    return timed(Row(without_user(entry.url), entry.method, "", side, quiet(is_changed)), [entry])


def of_document(entry: Entry, is_changed: bool) -> Row:
    side = Side(QUIET, f"the page, {entry.status or NO_ANSWER}")
    return timed(Row(without_user(entry.url), entry.method, "document", side, quiet(is_changed)), [entry])


def quiet(is_changed: bool) -> Optional[Side]:
    return Side(QUIET, "") if is_changed else None


def by_origin(rows: list[Row]) -> dict[str, list[Row]]:
    """The rows by their origins, in the order of the first requests."""
    found: dict[str, list[Row]] = {}
    for row in rows:
        found.setdefault(row.origin, []).append(row)
    return found


def span_of(rows: list[Row]) -> tuple[float, float]:
    """When the first began, and how many seconds lie between that and the end of the last."""
    times = [(row.begin, there(row.end)) for row in rows if row.begin is not None]
    begin = min((begin for begin, _ in times), default=0)
    return begin, max((end for _, end in times), default=0) - begin
