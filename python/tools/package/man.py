"""Writes man pages of the repository's documents, in the macros of man(7) with tables by tbl."""
from __future__ import annotations

import re
from typing import Iterable, Tuple

from fiorrudda.playground import markdown
from fiorrudda.playground.markdown import Block, Span
from tools.package import contents

Cell = list[Span]
# A title, the forms of words that stand above it, and what stands below it.
Part = Tuple[str, list[str], list[Block]]


def one_of(parts: Iterable[contents.Command]) -> str:
    return "|".join(part.name for part in parts)


NAMES = [(re.compile(rf"\bbin/({one_of(contents.PROGRAMS)})\b"), r"\1"),
         (re.compile(rf"\bbin/({one_of(contents.SCRIPTS)})\b"), r"fiorrudda-\1"),
         (re.compile(r"(?<![\w/.-])(examples|gallery|schema)/"), r"/usr/share/fiorrudda/\1/")]
WIDTH = 66  # characters of a table
GAP = 3  # characters between columns


def installed(text: str) -> str:
    """Programs and files by the names that they have where the package is installed."""
    for old, new in NAMES:
        text = old.sub(new, text)
    return text


def quoted(text: str) -> str:
    """Text as roff prints it as it is."""
    text = text.replace("\\", "\\(rs").replace("-", "\\-").replace("'", "\\(aq").replace("`", "\\(ga")
    text = text.replace("^", "\\(ha").replace("~", "\\(ti").replace('"', "\\(dq")
    return re.sub(r"^\.", r"\\&.", text, flags=re.M)


def unbroken(text: str) -> str:
    """Words that get no hyphen at the end of a line."""
    return " ".join(f"\\%{word}" if word else "" for word in text.split(" "))


def page(name: str, section: int, what: str, version: str, day: str, parts: Iterable[Part],
         see_also: Iterable[tuple[str, int]]) -> str:
    """A man page: `parts` are a title and blocks each; the first title is for what stands above any title."""
    lines = ["'\\\" t", f'.TH {name.upper()} {section} {day} "Fiorrudda {version}"',
             ".ad l", ".SH NAME", f"{quoted(name)} \\- {quoted(what)}"]
    for title, synopsis, blocks in parts:
        lines += synopsis_of(synopsis) + [f".SH {quoted(title.upper())}"]
        lines += [line for block in blocks for line in block_of(block)]
    lines += [".SH FILES", ".I /usr/share/fiorrudda/docs", "has the documents that this page is made of.",
              ".SH SEE ALSO", ",\n".join(f".BR {quoted(other)} ({place})" for other, place in see_also)]
    return "".join(f"{line}\n" for line in lines)


def synopsis_of(forms: list[str]) -> list[str]:
    if not forms:
        return []
    return [".SH SYNOPSIS"] + ["\n.br\n".join(f".B {quoted(form)}" for form in forms)]


def block_of(block: Block) -> list[str]:
    kind = block[0]
    if kind == "title":
        return [] if block[1] == 1 else [f".SS {spans_of(block[2])}"]
    if kind == "paragraph":
        return [".PP", spans_of(block[1])]
    if kind == "code":
        return [".PP", ".in +4n", ".EX"] + [quoted(installed(line)) for line in block[1]] + [".EE", ".in"]
    if kind == "table":
        return table_of(block[1], block[2])
    if kind == "quote":
        return [".RS"] + [line for inner in block[1] for line in block_of(inner)] + [".RE"]
    return [line for number, item in enumerate(block[2], 1) for line in item_of(block[1], number, item)]


def item_of(ordered: bool, number: int, item: list[Block]) -> list[str]:
    sign = f"{number}." if ordered else "\\(bu"
    lines = [line for block in item for line in block_of(block)]
    return [f".IP {sign} 3"] + (lines[1:] if lines[:1] == [".PP"] else lines)


def table_of(head: list[Cell], rows: list[list[Cell]]) -> list[str]:
    """A table, where each column has room for its longest word; else a list, whose items are the rows."""
    rows = [row + [[]] * (len(head) - len(row)) for row in rows]
    widths = widths_of([head, *rows])
    if widths is None:
        return [line for row in rows for line in row_of_list(head, row)]
    columns = " ".join(f"lw({width}n)" for width in widths)
    lines = [".PP", ".TS", "tab(\x07);", " ".join(["lb"] * len(head)), f"{columns}."]
    lines += ["\x07".join(map(cell_of, row)) for row in [head, *rows]]
    return lines + [".TE"]


def widths_of(rows: list[list[Cell]]) -> list[int] | None:
    """How wide each column is: its longest word at least, and of the room that is left a part by what it would take."""
    columns = [[installed(markdown.plain(cell)) for cell in column] for column in zip(*rows)]
    least = [max(len(word) for text in column for word in text.split(" ")) for column in columns]
    wanted = [max(map(len, column)) for column in columns]
    room = WIDTH - GAP * (len(columns) - 1) - sum(least)
    more = [most - width for width, most in zip(least, wanted)]
    if room < 0:
        return None
    return [width + min(own, own * room // max(1, sum(more))) for width, own in zip(least, more)]


def cell_of(spans: Cell) -> str:
    return f"T{{\n{spans_of(spans)}\nT}}" if spans else ""


def row_of_list(head: list[Cell], row: list[Cell]) -> list[str]:
    """The first cell, and below it each other one with the title of its column."""
    others = [f"{spans_of(title)}: {spans_of(cell)}" for title, cell in zip(head[1:], row[1:]) if cell]
    return [".TP", spans_of(row[0]) or "\\(bu", "\n.br\n".join(others)]


def spans_of(spans: list[Span]) -> str:
    return "".join(map(span_of, spans))


def span_of(span: Span) -> str:
    kind, content = span[:2]
    if kind == "text":
        return quoted(installed(content))
    if kind == "code":
        return f"\\fB{unbroken(quoted(installed(content)))}\\fR"
    if kind == "image":
        return ""
    if kind == "emphasis":
        return f"\\fI{spans_of(content)}\\fR"
    return spans_of(content)
