"""Reads the Markdown of this repository's documents: titles, paragraphs, code, tables, lists and quotes.

A block is a tuple whose first part names it:

    ("title", level, spans)      ("paragraph", spans)      ("code", lines)      ("table", head, rows)
    ("list", ordered, items)     ("quote", blocks)

Rows are lists of spans, items are lists of blocks. A span is ("text", text), ("code", text), ("strong", spans),
("emphasis", spans), ("link", spans, address) or ("image", text, address)."""
from __future__ import annotations

import re
from typing import TYPE_CHECKING, Any

from fiorrudda.commands.there import there

if TYPE_CHECKING:
    from collections.abc import Callable

Block = tuple[Any, ...]
Span = tuple[Any, ...]

TITLE = re.compile(r"(#+) (.*)")
ITEM = re.compile(r"(- |\d+\. +)(.*)")
RULE_OF_TABLE = re.compile(r"\|( *:?-+:? *\|)+")
CELL_END = re.compile(r"(?<!\\)\|")
SPAN = re.compile(r"(?P<code>`+)(?P<coded>.+?)(?P=code)(?!`)"
                  r"|!\[(?P<alt>[^]]*)\]\((?P<source>[^)]*)\)"
                  r"|\[(?P<name>(?:`[^`]*`|[^]`])*)\]\((?P<address>[^)]*)\)"
                  r"|\*\*(?P<strong>.+?)\*\*"
                  r"|(?<![\w*])\*(?P<emphasis>[^*\s](?:[^*]*[^*\s])?)\*(?![\w*])", re.S)


def blocks(text: str) -> list[Block]:
    lines = text.expandtabs(4).splitlines()
    found: list[Block] = []
    at = 0
    while at < len(lines):
        block, at = block_at(lines, at)
        if block is not None:
            found.append(block)
    return found


def block_at(lines: list[str], at: int) -> tuple[Block | None, int]:
    """The block that begins at a line, or None for an empty one; and the line after it."""
    line = lines[at]
    if not line.strip():
        return None, at + 1
    for starts, read in ((line.startswith("```"), fenced), (line.startswith("    "), indented),
                         (TITLE.fullmatch(line), title), (line.startswith("|"), table), (line.startswith(">"), quote),
                         (ITEM.match(line), items)):
        if starts:
            return read(lines, at)
    return paragraph(lines, at)


def taken(lines: list[str], at: int, belongs: Callable[[str], object]) -> tuple[list[str], int]:
    """The lines from here on that belong, and the line after them."""
    end = at
    while end < len(lines) and belongs(lines[end]):
        end += 1
    return lines[at:end], end


def fenced(lines: list[str], at: int) -> tuple[Block, int]:
    code, end = taken(lines, at + 1, lambda line: not line.startswith("```"))
    return ("code", code), end + 1


def indented(lines: list[str], at: int) -> tuple[Block, int]:
    code, end = taken(lines, at, lambda line: line.startswith("    ") or not line.strip())
    while not code[-1].strip():
        code.pop()
    return ("code", [line[4:] for line in code]), end


def title(lines: list[str], at: int) -> tuple[Block, int]:
    signs, text = there(TITLE.fullmatch(lines[at])).groups()
    return ("title", len(signs), spans(text)), at + 1


def table(lines: list[str], at: int) -> tuple[Block, int]:
    rows, end = taken(lines, at, lambda line: line.startswith("|"))
    cells = [[spans(cell.strip().replace("\\|", "|")) for cell in CELL_END.split(row.strip()[1:-1])]
             for row in rows if not RULE_OF_TABLE.fullmatch(row.strip())]
    return ("table", cells[0], cells[1:]), end


def quote(lines: list[str], at: int) -> tuple[Block, int]:
    quoted, end = taken(lines, at, lambda line: line.startswith(">"))
    return ("quote", blocks("\n".join(line[1:].removeprefix(" ") for line in quoted))), end


def items(lines: list[str], at: int) -> tuple[Block, int]:
    ordered = not lines[at].startswith("- ")
    found = []
    while at < len(lines) and ITEM.match(lines[at]) and ordered != lines[at].startswith("- "):
        sign, first = there(ITEM.match(lines[at])).groups()
        rest, at = taken(lines, at + 1, lambda line: line.startswith(" ") or not line.strip())
        found.append(blocks("\n".join([first] + [line[len(sign):] if line[:len(sign)].isspace() else line.lstrip()
                                                 for line in rest])))
    return ("list", ordered, found), at


def paragraph(lines: list[str], at: int) -> tuple[Block, int]:
    text, end = taken(lines, at,
                      lambda line: line.strip() and not ITEM.match(line) and not line.startswith(("|", ">", "#")))
    if not text:  # a line that begins as something else, and is not
        text, end = [lines[at]], at + 1
    return ("paragraph", spans(" ".join(line.strip() for line in text))), end


def spans(text: str) -> list[Span]:
    found: list[Span] = []
    at = 0
    for match in SPAN.finditer(text):
        if match.start() > at:
            found.append(("text", text[at:match.start()]))
        found.append(span_of(match))
        at = match.end()
    if at < len(text):
        found.append(("text", text[at:]))
    return found


def span_of(match: re.Match[str]) -> Span:
    if match["coded"] is not None:
        return "code", match["coded"].strip() if match["code"] != "`" else match["coded"]
    if match["source"] is not None:
        return "image", match["alt"], match["source"]
    if match["address"] is not None:
        return "link", spans(match["name"]), match["address"]
    if match["strong"] is not None:
        return "strong", spans(match["strong"])
    return "emphasis", spans(match["emphasis"])


def plain(parts: list[Span]) -> str:
    """The text of spans, without their signs."""
    return "".join(part[1] if part[0] in ("text", "code", "image") else plain(part[1]) for part in parts)


def anchor(parts: list[Span]) -> str:
    """The anchor of a title, as a forge makes it."""
    return re.sub(r"[^a-z0-9 _-]", "", plain(parts).lower()).replace(" ", "-")
