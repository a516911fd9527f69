"""The page that --html writes: a waterfall by origin with each request, what came of it and why, and with changes what
would come of it, side by side. It asks for nothing more, and has no script."""
from __future__ import annotations

import os
from html import escape
from typing import Any, Iterable, Iterator, Optional

from fiorrudda.commands import files, streams
from fiorrudda.commands.verdicts import shown
from fiorrudda.places import ROOT
from fiorrudda.recorded import rows, telling
from fiorrudda.recorded.model import Recording
from fiorrudda.recorded.rows import AS_BEFORE, Row, Side
from fiorrudda.view import page as pages

FOLDER = os.path.join(ROOT, "recorded")
MARK = b'<meta name="generator" content="bin/har --html">'
BEGIN = 2048  # bytes in which the mark stands
MOST_PLAIN = 500  # rows of an origin that passed, and come as before
WIDTH = 1000  # of the drawing of a bar
BEFORE, AFTER = "as recorded", "with the changes"


def write(path: str, name: str, found: dict[str, Any], recording: Recording) -> Optional[str]:
    """Writes the page, for its owner alone. What is wrong, in a sentence, or None."""
    return refusal(path) or files.replace(path, page(name, found, recording))


def refusal(path: str) -> Optional[str]:
    """Why it may not be written there, in a sentence, or None."""
    return files.refusal(path, "--html", lambda data: MARK in data[:BEGIN])


def page(name: str, found: dict[str, Any], recording: Recording) -> bytes:
    """The page of what is said of a recording, in ASCII."""
    made = pages.replaced(pages.part(FOLDER, "waterfall.html"), "TITLE", text(f"{name}: what came of its requests"))
    made = pages.filled(made, {"waterfall.css": pages.part(FOLDER, "waterfall.css")}, {})
    return pages.replaced(made, "\nBODY\n", "\n".join(["", *body(name, found, recording), ""])).encode(
        "ascii", "xmlcharrefreplace")


def body(name: str, found: dict[str, Any], recording: Recording) -> Iterator[str]:
    yield f"<h1>{text(name)}</h1>"
    yield from map(paragraph, heading(found))
    if "changes" in found:
        yield listed(line.strip() for line in telling.group_lines(found, True))
    for number, one in enumerate(found["pages"]):
        yield from section(one, rows.of_page(number, found, recording))
    yield listed(telling.bad_lines(found))


def heading(found: dict[str, Any]) -> Iterator[str]:
    """What is said of the whole recording."""
    yield ", ".join(filter(None, [found["creator"], telling.count(found["entries"], "request")]))
    if "changes" not in found:
        return
    yield from (f"with {change}" for change in found["changes"])
    yield telling.outcome(found)
    yield from (f"warning: {warning}" for warning in found["warnings"])
    yield from map(telling.moved_line, found["moved"])


# ---- a page of the recording

def section(found: dict[str, Any], own: list[Row]) -> Iterator[str]:
    is_changed = any(row.after for row in own)
    yield f'<section{" class=changed" if is_changed else ""}>'
    yield f"<h2>{text(shown(found['url']))}</h2>"
    yield paragraph(telling.heading(found))
    yield from map(paragraph, (f"in all: {policy}" for policy in found["policies"]))
    begin, seconds = rows.span_of(own)
    heads = ["request", BEFORE, *([AFTER] if is_changed else []), f"0 to {seconds:.2f} s"]
    yield f'<div class="row heads">{"".join(f"<span>{text(head)}</span>" for head in heads)}</div>'
    for origin, group in rows.by_origin(own).items():
        yield from host(origin, group, begin, seconds)
    more = [line.strip() for line in telling.rest_of_page(found)]
    if more:
        yield f"<details><summary>what else is told of this page ({len(more)})</summary>{listed(more)}</details>"
    yield "</section>"


def host(origin: str, group: list[Row], begin: float, seconds: float) -> Iterator[str]:
    """The rows of an origin; of many that passed the first."""
    counts = ((sum(row.is_failed for row in group), "refused or failed"),
              (sum(row.is_broken for row in group), "would break"))
    counted = [telling.count(len(group), "request"), *(f"{number} {what}" for number, what in counts if number)]
    yield f"<h3>{text(origin)} <span>{', '.join(counted)}</span></h3>"
    plain = 0
    yield '<ul class="rows">'
    for row in group:
        plain += row.is_plain
        if not row.is_plain or plain <= MOST_PLAIN:
            yield f"<li>{request(row, begin, seconds)}</li>"
    if plain > MOST_PLAIN:
        yield f"<li>and {plain - MOST_PLAIN} more that passed, which --json lists</li>"
    yield "</ul>"


def request(row: Row, begin: float, seconds: float) -> str:
    """A row; where more is told of it, that opens on a click."""
    cells = "".join([name_of(row), cell(row.before, BEFORE), cell(row.after, AFTER) if row.after else "",
                     bar(row, begin, seconds)])
    mark = (row.after if row.after and row.after.words != AS_BEFORE else row.before).mark
    sides = [(BEFORE, row.before), *([(AFTER, row.after)] if row.after else [])]
    if not any(side.told for _, side in sides):
        return f'<div class="row {mark}">{cells}</div>'
    told = "".join(side_of(head, side, row.after is not None) for head, side in sides)
    return f'<details><summary class="row {mark}">{cells}</summary><div class="sides">{told}</div></details>'


def name_of(row: Row) -> str:
    kind = f" <small>{text(row.kind)}</small>" if row.kind else ""
    return f'<span class="name">{text(row.method)} {text(row.name)}{kind}</span>'


def cell(side: Side, head: str) -> str:
    if not side.words:
        return "<span></span>"
    return f'<span class="{side.mark}" data-head="{text(head)}">{text(side.words)}</span>'


def bar(row: Row, begin: float, seconds: float) -> str:
    """When a request was, as a bar."""
    if row.begin is None or row.end is None or seconds <= 0:
        return '<span class="when"></span>'
    left, width = (round(WIDTH * part / seconds, 1) for part in (row.begin - begin, row.end - row.begin))
    left, width = min(left, WIDTH - 4), max(width, 4)
    told = f"from {row.begin - begin:.3f} s, {(row.end - row.begin) * 1000:.0f} ms"
    return (f'<span class="when"><svg class="bar" viewBox="0 0 {WIDTH} 10" preserveAspectRatio="none" role="img" '
            f'aria-label="{told}"><title>{told}</title><rect x="{left}" width="{width}" height="10"/></svg></span>')


def side_of(head: str, side: Side, has_other: bool) -> str:
    """What is told of a request, each line with what it is."""
    lines = "".join(f"<dt>{text(name)}</dt><dd>{text(told)}</dd>" for name, told in side.told)
    title = f"<h4>{text(head)}: {text(side.words)}</h4>" if has_other else ""
    return f"<div>{title}<dl>{lines}</dl></div>"


# ---- text

def text(value: str) -> str:
    """A text in HTML, in which control characters are told by their numbers."""
    return escape(streams.printable(value))


def paragraph(value: str) -> str:
    return f"<p>{text(value)}</p>"


def listed(lines: Iterable[str]) -> str:
    items = "".join(f"<li>{text(line)}</li>" for line in lines)
    return f"<ul>{items}</ul>" if items else ""
