"""Follows every link of every document that the playground's page holds:

    python3 python/run.py tests.playground.crawl crawl [LINK..]

Each LINK is one that the page's scripts make, as `/docs/..`. It prints as JSON how many documents and links there are,
and those that lead nowhere: the page does not hold the document, or this has no such anchor. Links that lead to other
hosts are not followed."""
from __future__ import annotations

import html.parser
import json
import sys
import urllib.parse
from typing import Optional

from fiorrudda.places import ROOT
from fiorrudda.playground import documents

HERE = "http://here"


class Document(html.parser.HTMLParser):
    """What a document links to, and its anchors."""

    def __init__(self, text: str):
        super().__init__()
        self.links: list[str] = []
        self.anchors = {""}
        self.feed(text)

    def handle_starttag(self, tag: str, attributes: list[tuple[str, Optional[str]]]) -> None:
        given = dict(attributes)
        self.links += [link for link in map(given.get, ("href", "src")) if link]
        self.anchors.add(given.get("id") or "")


def is_dead(link: str, held: dict[str, Document]) -> bool:
    """Whether a link within the page leads to no document, or to no anchor of one."""
    whole = urllib.parse.urlsplit(link)
    document = held.get(whole.path)
    return document is None or urllib.parse.unquote(whole.fragment) not in document.anchors


def main() -> None:
    held = {address: Document(text) for address, text in documents.texts(ROOT).items()}
    all_links = [("the page", urllib.parse.urljoin(HERE, link)) for link in sys.argv[1:]]
    for address, document in held.items():
        all_links += [(address, urllib.parse.urljoin(HERE + address, link)) for link in document.links]
    links = [(address, link) for address, link in all_links if link.startswith(HERE + "/")]
    dead = [f"{link} in {address}" for address, link in links if is_dead(link, held)]
    print(json.dumps({"documents": len(held), "links": len(links), "dead": dead}))
