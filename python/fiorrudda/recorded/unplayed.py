"""Which requests of a recording no page is asked for here, and why: the browser made them by itself, or what asked
for them is none that a scenario can have."""
from __future__ import annotations

from typing import Optional

from fiorrudda.commands.urls import scheme_of
from fiorrudda.recorded import kinds
from fiorrudda.recorded.model import Entry, Html

LONGEST_URL = 8192
LOADED = ("http", "https", "data", "blob", "ws", "wss")
EXTENSIONS = ("chrome-extension:", "moz-extension:", "safari-web-extension:")
PLAYED = (*kinds.LOADS, kinds.FETCH, kinds.DOCUMENT, kinds.FRAME)
FRAME = "the navigation of a frame, which is not played"


def reason(entry: Entry, kind: str, html: Optional[Html]) -> Optional[str]:
    """Why a request is not played; None where it is, or where it opens a page."""
    scheme = scheme_of(entry.url)
    if scheme not in LOADED:
        return f"a URL of the scheme {scheme}, which is not played"
    if len(entry.url) > LONGEST_URL and scheme not in ("data", "blob"):
        return f"its URL has more than {LONGEST_URL:,} characters, which no scenario takes"
    if "prefetch" in (entry.asked("Sec-Purpose") or entry.asked("Purpose") or ""):
        return "the browser fetches it beforehand, which is not played"
    if entry.initiator.startswith(EXTENSIONS):
        return "an extension of the browser asked for it"
    if is_own_icon(entry, html):
        return "the browser asks for the icon of a page by itself"
    if entry.asked("Origin") == "null" and (entry.asked("Sec-Fetch-Mode") or "cors") == "cors":
        return "a document of an opaque origin asked for it, such as a sandboxed frame, which is not played"
    if entry.asked("Access-Control-Request-Private-Network") or entry.asked("Access-Control-Request-Local-Network"):
        return "the browser asks whether a page may reach a local address, which is not played"
    return None if kind in PLAYED else f"what is loaded as {kind} is not played"


def is_own_icon(entry: Entry, html: Optional[Html]) -> bool:
    """Whether it is the page's icon, of which its HTML says nothing."""
    is_named = html is not None and entry.bare_url in html.elements
    return entry.url.partition("?")[0] == f"{entry.origin}/favicon.ico" and not is_named
