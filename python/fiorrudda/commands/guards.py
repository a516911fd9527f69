"""Which headers a script may set, and which of them ask for a preflight: Fetch, sections 2.2.1, 2.2.2 and 5.1, as
docs/rules/headers.md has them. Each header that is dropped has its note: what the browser sends in its place."""
from __future__ import annotations

import re
from typing import TYPE_CHECKING

if TYPE_CHECKING:
    from collections.abc import Iterable, Iterator, Sequence

    from fiorrudda.commands.shapes import Pairs

CLOSED = {
    "accept-charset": "browsers send none",
    "accept-encoding": "a browser sends the codings that it decodes, and the engine here `identity`",
    "access-control-request-headers": "the browser sends it with a preflight, with the names that it asks for",
    "access-control-request-method": "the browser sends it with a preflight, with the method that it asks for",
    "connection": "connections are the browser's own matter",
    "content-length": "the browser sends the length of the body",
    "cookie": "the browser sends the cookies that it keeps for the URL, to another origin with `credentials` `include`",
    "cookie2": "browsers send none",
    "date": "browsers send none",
    "dnt": "the browser sends what its user has set",
    "expect": "browsers send none",
    "host": "the browser sends the host of the URL",
    "keep-alive": "connections are the browser's own matter",
    "origin": "the browser sends the origin of the page, where it sends one",
    "referer": "the browser sends the page's URL, as far as the referrer policy lets it",
    "set-cookie": "it belongs to answers",
    "te": "connections are the browser's own matter",
    "trailer": "connections are the browser's own matter",
    "transfer-encoding": "connections are the browser's own matter",
    "upgrade": "connections are the browser's own matter",
    "via": "proxies send it",
}
OVERRIDES = ("x-http-method", "x-http-method-override", "x-method-override")
FORBIDDEN_METHODS = ("CONNECT", "TRACE", "TRACK")
SAFELISTED_METHODS = ("GET", "HEAD", "POST")
NORMALISED = ("DELETE", "GET", "HEAD", "OPTIONS", "POST", "PUT")
NO_CORS = ("accept", "accept-language", "content-language", "content-type")
FORMS = ("application/x-www-form-urlencoded", "multipart/form-data", "text/plain")
UNSAFE = re.compile('[\x00-\x08\x0a-\x1f"():<>?@\\[\\\\\\]{}\x7f]')
LANGUAGES = re.compile(r"[0-9A-Za-z *,\-.;=]*")
RANGE = re.compile(r"bytes=([0-9]+)-([0-9]*)")
# What says who asks: of several headers that are dropped these are told first.
CREDENTIALS = ("authorization", "cookie", "proxy-authorization")
USER_AGENT = ("`User-Agent` is the script's: browsers send their own, and one that lets a script set it asks for a "
              "preflight of another origin first; leave it out, where it came with a command line of curl")


def normalised(method: str) -> str:
    return method.upper() if method.upper() in NORMALISED else method


def in_place(name: str, value: str) -> str | None:
    """What the browser sends in the place of a header that no script may set; None of one that it may."""
    lowered = name.lower()
    if lowered in CLOSED:
        return CLOSED[lowered]
    if lowered.startswith("sec-"):
        return "the browser sends such headers itself"
    if lowered.startswith("proxy-"):
        return "that is between the browser and its proxy"
    if lowered in OVERRIDES and any(part.strip().upper() in FORBIDDEN_METHODS for part in value.split(",")):
        return "it names a method that scripts may not use"
    return None


def is_safelisted(name: str, value: str) -> bool:
    """Whether a header is a CORS-safelisted request-header."""
    lowered = name.lower()
    if len(value.encode("utf-8", "replace")) > 128:
        return False
    if lowered == "accept":
        return not UNSAFE.search(value)
    if lowered in ("accept-language", "content-language"):
        return LANGUAGES.fullmatch(value) is not None
    if lowered == "content-type":
        return not UNSAFE.search(value) and value.partition(";")[0].strip(" \t").lower() in FORMS
    found = RANGE.fullmatch(value) if lowered == "range" else None
    return found is not None and (found.group(2) == "" or int(found.group(1)) <= int(found.group(2)))


def kept(headers: Iterable[Sequence[str]], mode: str) -> Pairs:
    """The headers of a script that go along in a mode, with their blanks gone at the ends."""
    found: Pairs = []
    for name, value in headers:
        value = value.strip("\t\n\r ")
        if mode == "no-cors":
            before = [own for one, own in found if one.lower() == name.lower()]
            if name.lower() in NO_CORS and is_safelisted(name, ", ".join([*before, value])):
                found.append((name, value))
        elif in_place(name, value) is None:
            found.append((name, value))
    return found


def unsafe_names(headers: Pairs) -> list[str]:
    """The names of a list that ask for a preflight."""
    safe = [(name, value) for name, value in headers if is_safelisted(name, value)]
    size = sum(len(value.encode("utf-8", "replace")) for _, value in safe)
    unsafe = [name for name, value in headers if size > 1024 or not is_safelisted(name, value)]
    return sorted({name.lower() for name in unsafe})


def told(dropped: Iterable[tuple[str, str | None]]) -> str:
    """Headers that are dropped in one text, by pairs of a name and a reason, which may be empty: the names of one
    reason together, and credentials first."""
    by_reason: dict[str | None, dict[str, None]] = {}
    for name, reason in sorted(dropped, key=lambda pair: pair[0].lower() not in CREDENTIALS):
        by_reason.setdefault(reason, {})[f"`{name}`"] = None
    return "; ".join(", ".join(names) + (f" ({reason})" if reason else "") for reason, names in by_reason.items())


def notes(headers: Pairs, mode: str) -> Iterator[str]:
    """What is to be said of the headers that are dropped, and of `User-Agent`."""
    left = kept(headers, mode)
    closed = [(name, in_place(name, value)) for name, value in headers if in_place(name, value) is not None]
    others = [(name, value.strip("\t\n\r ")) for name, value in headers if in_place(name, value) is None]
    unsafe = [name for name, value in others if (name, value) not in left]
    if closed:
        yield f"dropped, since no script may set it: {told(closed)}"
    if unsafe:
        own = {"user-agent": "browsers send their own"}
        dropped = told([(name, own.get(name.lower(), "")) for name in unsafe])
        yield ("dropped, since in mode no-cors a script sets Accept, Accept-Language, Content-Language and "
               f"Content-Type alone, with values that a form could send: {dropped}")
    if any(name.lower() == "user-agent" and (name, value) in left for name, value in others):
        yield USER_AGENT
