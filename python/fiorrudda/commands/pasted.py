"""What the words of bin/ask come to for a page: which of the headers a script can set, what a browser sends in the
place of the others, and what a request that was copied as cURL says of its page."""
from __future__ import annotations

import base64
from typing import TYPE_CHECKING

import fiorrudda
from fiorrudda.commands import guards
from fiorrudda.commands.ask_words import KINDS, Wrong
from fiorrudda.commands.scenario import joined, origin_of
from fiorrudda.commands.slips import of_cookies
from fiorrudda.commands.stray_words import OWN_WORD
from fiorrudda.names import CORS_LOADS

if TYPE_CHECKING:
    import argparse
    from typing import Any

OWN = "a browser sends its own"
OWN_AGENT = (OWN + ", which asks for no preflight; where a script sets one, Firefox sends that and asks another origin "
             "for a preflight first, and Chromium sends its own")
CACHE = "a browser's cache adds it"
ELEMENT = "an element sets no header"
NO_CORS = f"in mode no-cors a script sets {', '.join(guards.NO_CORS)} alone"
# What is said otherwise here of a header that no script may set: guards.py has the others.
HERE = {
    "accept-encoding": "a browser names the codings that it decodes; here the request says identity, and with "
                       "--compressed what is decoded here",
    "host": "a browser sends that of the URL; --connect-to leads it to another server",
}
# Headers that browsers add themselves.
ADDED = {
    "user-agent": OWN_AGENT,
    "priority": OWN,
    "authority": "a browser sends the host of the URL",
    "alt-used": OWN,
    "x-client-data": OWN,
    "upgrade-insecure-requests": "a browser sends it where it opens a page",
}
# The same where the request was copied from a browser: of others a script may have set them.
COPIED = {"pragma": CACHE, "cache-control": CACHE, "if-none-match": CACHE, "if-modified-since": CACHE}
# Client hints without `sec-` in their names.
HINTS = ("device-memory", "downlink", "dpr", "ect", "rtt", "save-data", "viewport-width")
ABOUT_PAGE = ("origin", "referer")


class Said:
    """The request of a page: `url`, `method`, `headers`, `body`, `mode`, `credentials`, `load`, `crossorigin`; its
    `page` (None where nothing says it) and its `cookies`; `notes` say what became of the rest, and `was_navigation`
    that what was copied opened a page, which is asked as a fetch."""

    def __init__(self, given: argparse.Namespace, url: str) -> None:
        self.given = given
        self.notes: list[str] = []
        self.left_out: list[tuple[str, str | None]] = []
        self.was_navigation = False
        self.url, self.body = url, given.body
        if given.get and self.body is not None:
            self.url, self.body = with_query(url, self.body), None
        self.method = given.method or ("HEAD" if given.head else None)
        self.mode, self.load, self.crossorigin = given.mode, given.load, given.crossorigin
        self.pairs = pairs_of(given, self.body)
        self.values = {name.lower(): value for name, value in self.pairs}
        self.refuse_preflight()
        self.is_copied = "sec-fetch-mode" in self.values or "Mozilla/" in self.values.get("user-agent", "")
        self.page = given.page or self.page_of_headers()
        self.read_metadata()
        self.headers = [pair for pair in self.pairs if self.is_kept(*pair)]
        self.take_cookies()
        if given.insecure:
            self.note("-k changes nothing: a page cannot ask a server whose certificate is not trusted")
        self.note_left_out()
        self.note_kept()

    def refuse_preflight(self) -> None:
        """A preflight is the browser's own request: no script sends it, and it says nothing of what the page reads."""
        asked = self.values.get("access-control-request-method")
        if asked and (self.method or "").upper() == "OPTIONS":
            raise Wrong(f"this is a preflight, which a browser makes by itself: copy the request itself, the {asked} "
                        "that it "
                        "asks for")

    def note(self, sentence: str) -> None:
        if sentence not in self.notes:
            self.notes.append(sentence)

    # ---- the page

    def page_of_headers(self) -> Any:
        """The page that Origin and Referer name, or None."""
        origin, referer = self.values.get("origin"), self.values.get("referer")
        found = [referer] if referer and origin in (None, origin_of(referer)) else []
        found += [origin + "/"] if origin else []
        page = next((one for one in found if origin_of(one)), None)
        names = " and ".join(f"`{name}`" for name, _ in self.pairs if name.lower() in ABOUT_PAGE)
        if page:
            self.note(f"{names} {'name' if ' and ' in names else 'names'} the page: --from {page}")
        elif found:
            self.note(f"{names} is left out: it names no page of http or https")
        return page

    # ---- what kind of request was copied

    def read_metadata(self) -> None:
        """What Sec-Fetch-Mode and Sec-Fetch-Dest say, where no word says it."""
        mode, kind = self.values.get("sec-fetch-mode"), self.values.get("sec-fetch-dest")
        if self.load or self.mode or mode is None:
            return
        if mode == "navigate":
            self.was_navigation = True
        elif kind in KINDS and self.body is None and self.method in (None, "GET"):
            self.load = kind
            with_cookies = self.given.pasted or "cookie" in self.values
            if mode == "cors" and kind not in CORS_LOADS:
                self.crossorigin = self.crossorigin or ("use-credentials" if with_cookies else "anonymous")
            crossorigin = f" --crossorigin {self.crossorigin}" if self.crossorigin else ""
            self.note(f"the copied request was that of an element: --load {kind}{crossorigin}")
        elif mode in ("no-cors", "same-origin"):
            self.mode = mode
            self.note(f"the copied request says so: --mode {mode}")

    # ---- headers

    def is_kept(self, name: str, value: str) -> bool:
        """Whether a script sets this header. Where it does not, that is noted, with what a browser sends."""
        word = name.lower()
        if word == "cookie":
            return False
        if word in ABOUT_PAGE:
            self.left_out += [(name, "--from names the page")] if self.given.page else []
            return False
        reason = self.reason_against(word, value)
        self.left_out += [(name, reason)] if reason else []
        return reason is None

    def note_left_out(self) -> None:
        """All headers that are left out, in one note: first those that a script may have set."""
        if self.left_out:
            mine = [pair for pair in self.left_out if pair[1] in (ELEMENT, NO_CORS)]
            self.note("left out: " + guards.told(mine + [pair for pair in self.left_out if pair not in mine]))

    def note_kept(self) -> None:
        """What is odd in the headers that are sent."""
        for name, value in self.headers:
            if "'" in name:
                self.note(f"the header `{name}` has a quote in its name, which is sent: take it away where it is one "
                          "of the shell")
            if not value:
                self.note(f"`{name}` is sent without a value")
            if name in self.given.glued:
                self.note(f"the URL behind `{name}:` is sent as the value of that header{OWN_WORD}")
        hints = [name for name, _ in self.headers if name.lower() in HINTS]
        if hints and self.is_copied and self.is_foreign():
            names = ", ".join(f"`{name}`" for name in hints)
            self.note(f"the browser may have added {names} by itself (client hints), which asks for no preflight: "
                      "leave out what no script has set; what one has set has to stand in Access-Control-Allow-Headers")

    def reason_against(self, word: str, value: str) -> str | None:
        if word == "user-agent" and (self.load or self.mode == "no-cors"):  # where no script sets one
            return OWN
        if word in ADDED:
            return ADDED[word]
        if word == "cache-control" and value.lower() == "no-cache" and "pragma" not in self.values:
            return None  # a browser adds it together with Pragma alone, so a script has set it
        if self.is_copied and (word in COPIED or word == "accept" and not fiorrudda.is_safelisted(word, value)):
            return COPIED.get(word, OWN)
        if is_forbidden(word, value):
            return HERE.get(word) or guards.in_place(word, value) or OWN
        if self.load and self.given.load is None:
            return ELEMENT
        if self.mode == "no-cors" and word not in guards.NO_CORS:
            return NO_CORS
        return None

    def is_foreign(self) -> bool:
        """Whether a page is named, and the URL is of another origin."""
        return self.page is not None and origin_of(self.page) != origin_of(joined(self.url, self.page))

    # ---- cookies

    def take_cookies(self) -> None:
        """All cookies; those that were copied went along, so the request was one that takes credentials along. As with
        curl, a header that names some stands for those of -b."""
        given = self.given
        copied = [value for name, value in self.pairs if name.lower() == "cookie"]
        if copied:
            self.note("`Cookie` is taken as --cookie")
        self.cookies = [*given.cookie, *(copied or given.pasted)]
        for note in filter(None, map(of_cookies, self.cookies)):
            self.note(note)
        self.credentials = given.credentials
        went_along = copied or given.pasted or given.is_curl and given.cookie
        if went_along and self.is_foreign() and not self.load and self.credentials is None:
            self.credentials = "include"
            self.note("the cookies went along to another origin, so it is asked with --credentials include")


def is_forbidden(name: str, value: str) -> bool:
    """Whether no script can set it; what is no header at all is left to the engine, which says so."""
    try:
        return fiorrudda.is_forbidden_header(name, value)
    except fiorrudda.FiorruddaError:
        return False


def pairs_of(given: argparse.Namespace, body: Any) -> Any:
    """All headers that the words name."""
    pairs = list(given.header)
    pairs += [("User-Agent", given.agent)] if given.agent is not None else []
    pairs += [("Referer", given.referer)] if given.referer is not None else []
    if given.user is not None:
        secret = base64.b64encode(given.user.encode("utf-8", "surrogateescape")).decode("ascii")
        pairs.append(("Authorization", "Basic " + secret))
    kind = given.body_type or ("application/x-www-form-urlencoded" if given.is_curl else None)
    if kind and body is not None and not any(name.lower() == "content-type" for name, _ in pairs):
        pairs.append(("Content-Type", kind))  # as curl does
    return pairs


def with_query(url: str, data: bytes) -> str:
    """A URL with data in its query."""
    base, mark, fragment = url.partition("#")
    query = data.decode("utf-8", "surrogateescape")
    return base + ("&" if "?" in base else "?") + query + mark + fragment
