"""What is to be changed, for the question what if: policies of the pages, their referrer policy, known hosts, and
headers of answers."""
from __future__ import annotations

import functools
import re
from dataclasses import dataclass, field
from typing import Any

from fiorrudda.commands.csp import HEADERS as POLICIES
from fiorrudda.commands.scenario import origin_of
from fiorrudda.commands.urls import host_of, secure
from fiorrudda.recorded.known_hosts import LATEST, is_known
from fiorrudda.recorded.lacks import Lacks

Pairs = list[tuple[str, str]]
AUTHORITY = re.compile(r"^[A-Za-z]+://[^/?#]*")
UPGRADE = "upgrade-insecure-requests"
POLICY = "Content-Security-Policy"
REPORT_ONLY = POLICY + "-Report-Only"
REFERRER_POLICY = "Referrer-Policy"


@functools.lru_cache(64)
def form_of(pattern: str) -> re.Pattern[str]:
    """The form of the URLs that fit a pattern, whose `*` stands for any text."""
    return re.compile(".*".join(map(re.escape, pattern.split("*"))), re.S)


@dataclass(frozen=True)
class HeaderChange:
    """A header of the answers whose URL fits a pattern: its new value, or None where it goes."""

    pattern: str
    name: str
    value: str | None = None

    def fits(self, url: str) -> bool:
        return form_of(self.pattern).fullmatch(url.partition("#")[0]) is not None

    def made(self, headers: Pairs) -> Pairs:
        left = [pair for pair in headers if pair[0].lower() != self.name.lower()]
        return left if self.value is None else left + [(self.name, self.value)]


@dataclass(frozen=True)
class Changes:
    """All of it; without any it changes nothing."""

    csp: str | None = None
    csp_report_only: str | None = None
    no_csp: bool = False
    referrer_policy: str | None = None
    hsts: tuple[tuple[str, bool], ...] = ()
    upgrade: bool = False
    headers: tuple[HeaderChange, ...] = ()
    origins: tuple[tuple[str, str], ...] = ()  # of sites that move: the old one and the new one
    lacks: Lacks = field(default_factory=dict)  # what single answers get that CORS wants of them

    def __bool__(self) -> bool:
        return self != Changes()

    @property
    def may_upgrade(self) -> bool:
        """Whether more may be asked over https than was recorded."""
        texts = [self.csp or "", *(one.value or "" for one in self.headers)]
        return bool(self.hsts) or self.upgrade or any(UPGRADE in text.lower() for text in texts)

    def moved(self, url: str) -> str:
        """Where a URL is, should its site move."""
        for old, new in self.origins:
            if origin_of(url) == old:
                return new + AUTHORITY.sub("", url, 1)
        return url

    def of_answer(self, url: str, headers: Pairs) -> Pairs:
        """The headers of the answer at a URL. One that redirects to a site that moves leads to where it is then."""
        for change in self.headers:
            headers = change.made(headers) if change.fits(url) else headers
        return [(name, self.moved(value) if name.lower() == "location" else value) for name, value in headers]

    def of_page(self, url: str, headers: Pairs, policies: list[str]) -> tuple[Pairs, list[str]]:
        """The headers of a document, and the policies of its meta elements. A policy stands in the place of those
        that there were; one that only reports comes beside them."""
        headers = self.of_answer(url, headers)
        if self.csp is not None or self.no_csp:
            headers = [pair for pair in headers if POLICIES.get(pair[0].lower()) is not True]
            policies = []
        if self.csp_report_only is not None or self.no_csp:
            headers = [pair for pair in headers if POLICIES.get(pair[0].lower()) is not False]
        added = [(POLICY, self.csp), (REPORT_ONLY, self.csp_report_only), (POLICY, UPGRADE if self.upgrade else None),
                 (REFERRER_POLICY, self.referrer_policy)]
        return headers + [(name, value) for name, value in added if value is not None], policies

    def page_url(self, url: str) -> str:
        """Where the page itself is, should its site move, or its host be a known one now."""
        url = self.moved(url)
        return secure(url) if url.startswith("http:") and is_known(host_of(url), self.known_hosts()) else url

    def known_hosts(self) -> list[dict[str, Any]]:
        return [{"host": host, "subdomains": below, "until": LATEST} for host, below in self.hsts]

    def told(self) -> list[str]:
        """Each of them in words."""
        found = [f"{name}: {value}" for name, value in (
            (POLICY, self.csp), (REPORT_ONLY, self.csp_report_only), (REFERRER_POLICY, self.referrer_policy))
            if value is not None]
        found += ["no Content-Security-Policy"] if self.no_csp else []
        found += [f"{POLICY}: {UPGRADE}, beside the others"] if self.upgrade else []
        found += [f"{host}{' and its subdomains' if below else ''} known to want https (HSTS)"
                  for host, below in self.hsts]
        found += [f"{old} moved to {new}" for old, new in self.origins]
        found += [f"answers of {one.pattern}: " + (f"{one.name}: {one.value}" if one.value is not None
                                                   else f"without {one.name}") for one in self.headers]
        return found


NONE = Changes()
NAME = re.compile(r"[!#$%&'*+\-.^_`|~0-9A-Za-z]+")


def header_change(text: str, is_set: bool) -> HeaderChange:
    """The change that words name: `URL-PATTERN Name: value`, or `URL-PATTERN Name`. Raises ValueError."""
    pattern, _, rest = text.strip().partition(" ")
    name, colon, value = rest.strip().partition(":")
    is_whole = bool(pattern) and NAME.fullmatch(name.strip()) is not None and bool(colon) == is_set
    if not is_whole or "\n" in value or "\r" in value or "\0" in value:
        raise ValueError("write it as 'https://api.example/* Name: value'" if is_set
                         else "write it as 'https://api.example/* Name'")
    return HeaderChange(pattern, name.strip(), value.strip() if is_set else None)


def move(text: str) -> tuple[str, str]:
    """The origins that words name: `OLD=NEW`. Raises ValueError."""
    old, equals, new = (part.strip().rstrip("/") for part in text.partition("="))
    if not equals or origin_of(old) != old or origin_of(new) != new:
        raise ValueError("write it as https://old.example=https://new.example: two origins, without a path")
    return old, new
