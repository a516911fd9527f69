"""The documents of the repository that the playground's page holds, each by its address. Those in Markdown become HTML,
in which all that they say is text. A link to what the page does not hold stays as its text, and so does a picture."""
from __future__ import annotations

import os
from collections.abc import Container
from html import escape
from typing import TYPE_CHECKING, Any
from urllib.parse import urljoin, urlsplit

from fiorrudda.playground import markdown

if TYPE_CHECKING:
    from fiorrudda.playground.markdown import Block, Span


ENDS = (".md", ".json", ".txt", ".table")
FOLDERS = ["docs", "gallery", "examples", "schema"]


def addresses(root: str) -> list[str]:
    """As a link names them from the root of the repository on."""
    found = ["/README.md"]
    for top in FOLDERS:
        for folder, _, names in os.walk(os.path.join(root, top)):
            paths = [os.path.join(folder, name) for name in names if name.endswith(ENDS)]
            found += ["/" + os.path.relpath(path, root).replace(os.sep, "/") for path in paths]
    return sorted(found)


def texts(root: str) -> dict[str, str]:
    """Each as HTML."""
    all_held = addresses(root)
    held, found = set(all_held), {}
    for address in all_held:
        with open(os.path.join(root, address[1:]), encoding="utf-8", errors="replace", newline="") as file:
            text = file.read()
        found[address] = (Writer(address, held).body(markdown.blocks(text)) if address.endswith(".md")
                          else f"<pre><code>{escape(text)}</code></pre>")
    return found


class Writer:
    """Writes the document at an address as HTML; `held` has the addresses of all documents."""

    def __init__(self, address: str, held: Container[str]) -> None:
        self.address = address
        self.held = held

    def body(self, blocks: list[Block]) -> str:
        return "\n".join(map(self.block, blocks))

    def block(self, block: Block) -> str:
        kind = block[0]
        if kind == "title":
            level, text = block[1:]
            return f'<h{level} id="{markdown.anchor(text)}">{self.spans(text)}</h{level}>'
        if kind == "paragraph":
            return f"<p>{self.spans(block[1])}</p>"
        if kind == "code":
            lines = "\n".join(block[1])
            return f"<pre><code>{escape(lines)}</code></pre>"
        if kind == "table":
            rows = [self.heads(block[1])] + [self.row(row, block[1]) for row in block[2]]
            return "\n".join(["<table>", *rows, "</table>"])
        if kind == "quote":
            return f"<blockquote>{self.body(block[1])}</blockquote>"
        name = "ol" if block[1] else "ul"
        items = "\n".join(f"<li>{self.item(item)}</li>" for item in block[2])
        return f"<{name}>{items}</{name}>"

    def item(self, item: list[Block]) -> str:
        """An item of one paragraph stands without it."""
        if len(item) == 1 and item[0][0] == "paragraph":
            return self.spans(item[0][1])
        return self.body(item)

    def heads(self, cells: list[list[Span]]) -> str:
        names = "".join(f"<th>{self.spans(cell)}</th>" for cell in cells)
        return f"<tr>{names}</tr>"

    def row(self, cells: list[list[Span]], heads: list[list[Span]]) -> str:
        """On a narrow screen each cell stands by itself, behind the head of its column."""
        names = [escape(markdown.plain(head)) for head in heads] + [""] * len(cells)
        marks = [f' data-head="{name}"' if name else "" for name in names]
        own = "".join(f"<td{mark}>{self.spans(cell)}</td>" for mark, cell in zip(marks, cells))
        return f"<tr>{own}</tr>"

    def spans(self, spans: list[Span]) -> str:
        return "".join(map(self.span, spans))

    def span(self, span: Span) -> str:
        kind: str = span[0]
        content: Any = span[1]
        if kind in ("text", "image"):
            return escape(str(content))
        if kind == "code":
            return f"<code>{escape(content)}</code>"
        if kind == "link":
            inner = self.spans(content)
            return inner if self.is_dead(span[2]) else f'<a href="{escape(span[2])}">{inner}</a>'
        name = {"strong": "strong", "emphasis": "em"}[kind]
        return f"<{name}>{self.spans(content)}</{name}>"

    def is_dead(self, link: str) -> bool:
        """Whether a link within the repository leads to what the page does not hold."""
        whole = urlsplit(urljoin("http://here" + self.address, link))
        return whole.netloc == "here" and whole.path not in self.held
