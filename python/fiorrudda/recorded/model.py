"""What a recording is, as data: entries, the chains of redirects that they make, and the pages whose loads and fetches
these are. Functions of the other modules make it, ask it, and change nothing in it."""
from __future__ import annotations

import base64
import binascii
from collections import Counter
from dataclasses import dataclass, field
from typing import Any, Optional

from fiorrudda.commands.scenario import origin_of


@dataclass
class Entry:
    """One request of the recording with its answer. `status` is 0 where there is no answer, and `error` what the
    browser called the failure, or an empty text."""

    number: int
    page: Optional[str]
    started: Optional[float]
    method: str
    url: str
    origin: Optional[str]
    sent: list[tuple[str, str]]
    status: int
    got: list[tuple[str, str]]
    content: dict[str, Any] = field(default_factory=dict)
    error: str = ""
    resource_type: str = ""
    initiator: str = ""
    redirect: str = ""
    has_cookies: bool = False
    is_from_worker: bool = False
    took: float = 0  # seconds
    read: Optional[list[tuple[str, str]]] = None  # the headers of `got` that rules look at, once they are asked for
    sent_values: dict[str, list[str]] = field(default_factory=dict)  # the values of each name, in lower case
    got_values: dict[str, list[str]] = field(default_factory=dict)

    def __post_init__(self) -> None:
        self.bare_url = self.url.partition("#")[0]

    def asked(self, name: str) -> Optional[str]:
        """The value of a request's header; None where there is none."""
        values = self.sent_values.get(name.lower())
        return ", ".join(values) if values else None

    def answered(self, name: str) -> Optional[str]:
        """The value of a header of the answer; None where there is none."""
        values = self.got_values.get(name.lower())
        return ", ".join(values) if values else None

    @property
    def is_hidden(self) -> bool:
        """Whether nothing of an answer is recorded."""
        return self.status == 0

    @property
    def is_still_good(self) -> bool:
        """Whether the answer says that what the HTTP cache has is still so: a page sees that answer, which is not
        recorded."""
        return self.status == 304

    @property
    def is_failed(self) -> bool:
        return self.is_hidden or bool(self.error)

    @property
    def is_preflight(self) -> bool:
        return self.method == "OPTIONS" and (self.asked("Access-Control-Request-Method") is not None
                                             or self.resource_type == "preflight")

    @property
    def is_internal_redirect(self) -> bool:
        """Whether the browser made this answer itself, since the host is a known one."""
        return self.status == 307 and self.answered("Non-Authoritative-Reason") is not None

    @property
    def has_all_headers(self) -> bool:
        """Whether the request's headers are those that went out: of one that was stopped tools tell a part of them."""
        is_sent = any(name in self.sent_values for name in ("host", "accept", "accept-encoding"))
        return is_sent and "user-agent" in self.sent_values

    @property
    def body(self) -> Optional[bytes]:
        """The body's bytes, without the codings of the answer; None where they are not recorded."""
        text = self.content.get("text")
        if not isinstance(text, str):
            return None
        if self.content.get("encoding") == "base64":
            try:
                data = base64.b64decode(text, validate=True)
            except (binascii.Error, ValueError):
                return None
        else:
            data = text.encode("utf-8", "replace")
        return data or None  # of an empty one nothing says that it is not left out

    @property
    def whole_body(self) -> Optional[bytes]:
        """The same, where it is as long as the recording says: a text that was decoded or cut is not."""
        data, size = self.body, self.content.get("size")
        return data if data is not None and size in (None, -1, len(data)) else None

    @property
    def is_body_exact(self) -> bool:
        """Whether the body's bytes are surely those that came, and not those of a text that was decoded."""
        is_plain = self.content.get("encoding") == "base64" or str(self.content.get("text", "")).isascii()
        return is_plain and self.content.get("size") is not None


@dataclass(frozen=True)
class Element:
    """What the page's HTML says of a URL that it loads. It is whole where its scheme is written, and does not go with
    the page's."""

    kind: str
    url: str
    crossorigin: Optional[str] = None
    integrity: str = ""
    nonce: str = ""
    referrer_policy: str = ""
    is_whole: bool = False


@dataclass
class Html:
    """What is read from the page's own body: policies of its `meta` elements, and the elements that load."""

    policies: list[str] = field(default_factory=list)
    referrer_policy: str = ""
    elements: dict[str, list[Element]] = field(default_factory=dict)
    inline: Counter[str] = field(default_factory=Counter)  # how many scripts and styles stand in it
    frames: set[str] = field(default_factory=set)

    def element_of(self, url: str, number: int, count: int) -> Optional[Element]:
        """The element of the request of this number, of so many for a URL. Where there are fewer requests than elements
        one answer serves several, and an integrity text counts for all."""
        own = self.elements.get(url)
        if not own:
            return None
        if count < len(own):
            return next((element for element in own if element.integrity), own[0])
        return own[min(number, len(own) - 1)]


@dataclass
class Chain:
    """A request with the redirects behind it, and the preflights of its hops by their number. `url` is as the page
    asked: an upgrade may lie between it and the first hop."""

    hops: list[Entry]
    preflights: dict[int, Entry] = field(default_factory=dict)
    url: str = ""
    is_known_host: bool = False  # the browser upgraded the URL, since the host was a known one
    is_lone_preflight: bool = False  # the request that the preflight asks for is not recorded

    @property
    def first(self) -> Entry:
        return self.hops[0]

    @property
    def last(self) -> Entry:
        return self.hops[-1]

    @property
    def entries(self) -> list[Entry]:
        return [*self.hops, *self.preflights.values()]


@dataclass
class Page:
    """A document, and what it asked for. `entry` is the answer that it came with, where it is recorded; `top` the URL
    of the page at the top, where it is a frame."""

    url: str
    entry: Optional[Entry] = None
    top: Optional[str] = None
    html: Optional[Html] = None
    chains: list[Chain] = field(default_factory=list)
    left_out: list[tuple[Entry, str]] = field(default_factory=list)
    hsts: list[dict[str, Any]] = field(default_factory=list)
    notes: list[str] = field(default_factory=list)

    @property
    def origin(self) -> str:
        return origin_of(self.url) or ""


@dataclass
class Recording:
    """All of it. `entries` are in the order of their times, and `bad` those that could not be read, each with a
    sentence that says why."""

    browser: str  # chromium, firefox, or an empty text
    creator: str
    tells_errors: bool  # whether each answer that a rule has refused has an error word
    count: int
    pages: list[Page] = field(default_factory=list)
    entries: list[Entry] = field(default_factory=list)
    bad: list[tuple[int, str]] = field(default_factory=list)
    notes: list[str] = field(default_factory=list)


def values_by_name(headers: list[tuple[str, str]]) -> dict[str, list[str]]:
    """The values of each name, in lower case."""
    found: dict[str, list[str]] = {}
    for name, value in headers:
        name = name.lower()
        if name in found:
            found[name].append(value)
        else:
            found[name] = [value]
    return found
