"""Takes the policies of `meta` elements out of HTML, and leaves all else as it is."""
from __future__ import annotations

from html.parser import HTMLParser
from itertools import accumulate
from typing import Optional

POLICY = "content-security-policy"
MARK = "http-equiv"


class Finder(HTMLParser):
    """Finds where such elements begin and end."""

    def __init__(self, text: str):
        super().__init__(convert_charrefs=True)
        self.begins = [0, *accumulate(len(line) + 1 for line in text.split("\n"))]  # of the lines
        self.places: list[tuple[int, int]] = []

    def handle_starttag(self, tag: str, attrs: list[tuple[str, Optional[str]]]) -> None:
        given = dict(reversed(attrs))  # of two with one name the first
        if tag == "meta" and (given.get(MARK) or "").strip().lower() == POLICY:
            line, column = self.getpos()
            begin = self.begins[line - 1] + column
            self.places.append((begin, begin + len(self.get_starttag_text() or "")))

    handle_startendtag = handle_starttag


def without(html: bytes) -> bytes:
    """The HTML without them."""
    if MARK.encode() not in html.lower():
        return html
    text = html.decode("latin-1")  # a character for each byte
    finder = Finder(text)
    try:
        finder.feed(text)
        finder.close()
    except (AssertionError, ValueError):  # of markup that html.parser cannot read on
        pass
    for begin, end in reversed(finder.places):
        text = text[:begin] + text[end:]
    return text.encode("latin-1")
