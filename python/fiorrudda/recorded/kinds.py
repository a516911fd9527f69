"""What an entry is to the page: a fetch, or the load of which kind, in which mode, with credentials or not. What the
browser wrote into the request comes first (Sec-Fetch-Dest, Sec-Fetch-Mode), then the tools' own fields, then the
page's HTML; what is left is guessed, and each guess is told."""
from __future__ import annotations

import re
from dataclasses import dataclass, field
from typing import Optional

from fiorrudda import names
from fiorrudda.commands.urls import scheme_of
from fiorrudda.recorded.model import Chain, Element, Entry, Html

LOADS = tuple(sorted(names.LOADS))
DOCUMENT, FRAME, FETCH = "document", "frame", "fetch"
DESTINATIONS = {**{kind: kind for kind in LOADS}, "document": DOCUMENT, "iframe": FRAME, "frame": FRAME, "embed": FRAME,
                "object": FRAME, "empty": FETCH}
TYPES = {"stylesheet": "style", "css": "style", "image": "image", "font": "font", "script": "script", "xhr": FETCH,
         "fetch": FETCH, "eventsource": FETCH, "ping": FETCH, "websocket": FETCH, "manifest": "manifest",
         "document": DOCUMENT, "media": "video"}
ACCEPTS = (("text/css", "style"), ("image/", "image"), ("application/font", "font"), ("audio/", "audio"),
           ("video/", "video"), ("application/manifest", "manifest"))
CONTENTS = (("text/css", "style"), ("image/", "image"), ("font/", "font"), ("application/font", "font"),
            ("application/x-font", "font"), ("application/vnd.ms-fontobject", "font"), ("audio/", "audio"),
            ("video/", "video"), ("application/manifest+json", "manifest"), ("text/javascript", "script"),
            ("application/javascript", "script"), ("application/x-javascript", "script"))
ENDINGS = {"css": "style", "js": "script", "mjs": "script", "webmanifest": "manifest",
           **dict.fromkeys(("png", "jpg", "jpeg", "gif", "webp", "svg", "avif", "ico", "bmp"), "image"),
           **dict.fromkeys(("woff", "woff2", "ttf", "otf", "eot"), "font"),
           **dict.fromkeys(("mp4", "webm", "ogv", "mov", "m4v"), "video"),
           **dict.fromkeys(("mp3", "ogg", "oga", "wav", "m4a", "flac", "aac"), "audio")}
NAVIGATION = "text/html,application/xhtml+xml"  # as browsers' Accept begins where they open a page
ENDING = re.compile(r"\.([A-Za-z0-9]+)$")
ARTICLES = {"image": "an", "audio": "an"}
MODES = tuple(mode for mode in names.MODES if mode != "navigate")
WITHOUT = "taken to be asked without credentials, since no cookie went along"


@dataclass
class Asked:
    """How the page asked: `kind` is fetch or a load's, or another word for what is not played. `is_open` says that the
    recording cannot tell whether credentials went along."""

    kind: str
    mode: str = "cors"
    credentials: str = "same-origin"
    crossorigin: Optional[str] = None
    element: Optional[Element] = None
    is_open: bool = False
    guesses: list[str] = field(default_factory=list)

    @property
    def all_guesses(self) -> list[str]:
        return self.guesses + ([WITHOUT] if self.is_open else [])

    @property
    def is_load(self) -> bool:
        return self.kind in LOADS


def kind_of(entry: Entry, html: Optional[Html]) -> tuple[str, Optional[str]]:
    """What an entry is, and a guess's reason; None where it is no guess."""
    if scheme_of(entry.url) in ("ws", "wss"):
        return FETCH, None
    destination = (entry.asked("Sec-Fetch-Dest") or "").lower()
    if destination:
        return DESTINATIONS.get(destination, destination), None
    if entry.resource_type:
        return of_type(entry)
    if html and entry.bare_url in html.frames:
        return FRAME, None
    if html and entry.bare_url in html.elements:
        return html.elements[entry.bare_url][0].kind, None
    return guessed(entry)


def of_type(entry: Entry) -> tuple[str, Optional[str]]:
    """By the tools' own field. What they call other is mostly the page's icon."""
    if entry.resource_type == "other":
        return guessed(entry)
    if entry.resource_type == "media" and (entry.answered("Content-Type") or "").startswith("audio/"):
        return "audio", None
    return TYPES.get(entry.resource_type, entry.resource_type), None


def guessed(entry: Entry) -> tuple[str, str]:
    accept = (entry.asked("Accept") or "").lower()
    is_plain = entry.method in ("GET", "POST") and entry.asked("X-Requested-With") is None
    if is_plain and (accept.startswith(NAVIGATION) or entry.asked("Upgrade-Insecure-Requests") == "1"):
        return DOCUMENT, "by the headers of a navigation"
    if is_scripted(entry):
        return FETCH, "by its method or headers, which no element sends"
    found = next((kind for start, kind in ACCEPTS if accept.startswith(start)), None)
    if found:
        return found, "by its Accept"
    content = (entry.answered("Content-Type") or str(entry.content.get("mimeType") or "")).lower()
    found = next((kind for start, kind in CONTENTS if content.startswith(start)), None)
    if found:
        return found, "by the type of its answer"
    ending = ENDING.search(entry.bare_url.partition("?")[0])
    kind = ENDINGS.get(ending.group(1).lower()) if ending else None
    return (kind, "by the end of its name") if kind else (FETCH, "since nothing says otherwise")


def is_scripted(entry: Entry) -> bool:
    return entry.method != "GET" or entry.asked("X-Requested-With") is not None


def asked_of(chain: Chain, page_origin: str, html: Optional[Html], element: Optional[Element]) -> Asked:
    """How the page asked for the beginning of a chain, by an element of its HTML perhaps."""
    entry = chain.first
    kind, reason = kind_of(entry, html)
    if chain.preflights or entry.method != "GET" and kind in LOADS:  # which no element sends
        kind, reason = FETCH, None
    guesses = [f"taken for {ARTICLES.get(kind, 'a')} {kind}, {reason}"] if reason else []
    element = element if element and element.kind == kind else None
    mode = (entry.asked("Sec-Fetch-Mode") or "").lower()
    if kind in LOADS:
        return of_load(chain, Asked(kind, element=element, guesses=guesses), mode, page_origin)
    return of_fetch(chain, Asked(kind, guesses=guesses), mode, page_origin)


def of_load(chain: Chain, asked: Asked, mode: str, page_origin: str) -> Asked:
    is_cors = asked.kind in names.CORS_LOADS
    entry = chain.first
    if asked.element and asked.element.crossorigin and mode != "no-cors":
        asked.crossorigin = asked.element.crossorigin
    elif not is_cors and (mode == "cors" or not mode and entry.asked("Origin") is not None):
        is_foreign = entry.origin != page_origin
        asked.crossorigin = "use-credentials" if entry.has_cookies and is_foreign else "anonymous"
        asked.is_open = not entry.has_cookies and is_foreign
    asked.mode = "cors" if is_cors or asked.crossorigin else "no-cors"
    asked.credentials = "same-origin" if asked.mode == "cors" and asked.crossorigin != "use-credentials" else "include"
    return asked


def of_fetch(chain: Chain, asked: Asked, mode: str, page_origin: str) -> Asked:
    entry = chain.first
    asked.mode = mode if mode in MODES else "no-cors" if entry.resource_type == "ping" else "cors"
    is_without_origin = entry.has_all_headers and entry.asked("Origin") is None and entry.origin != page_origin
    if not mode and is_without_origin and scheme_of(entry.url) in ("http", "https"):
        asked.mode = "no-cors"
        asked.guesses.append("taken to be asked in mode no-cors, since it has no Origin")
    foreign = [hop for hop in chain.hops if hop.origin != page_origin]
    if any(hop.has_cookies for hop in foreign) or asked.mode == "no-cors":
        asked.credentials = "include"
    elif foreign and asked.kind == FETCH and scheme_of(entry.url) in ("http", "https"):
        asked.is_open = True
    return asked
