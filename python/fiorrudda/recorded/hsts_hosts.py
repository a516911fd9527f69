"""What breaks under Strict-Transport-Security of the recorded pages' hosts and of their parents, by plays in which they
are known hosts; and which header is safe to send, as far as the recording shows it."""
from __future__ import annotations

from dataclasses import replace
from typing import Any, Iterator, Optional

from fiorrudda.commands.known_hosts import ROLL_OUT
from fiorrudda.commands.scenario import origin_of
from fiorrudda.commands.there import there
from fiorrudda.commands.urls import host_of, is_address, is_trustworthy, scheme_of
from fiorrudda.recorded import differences, unplayed, verdicts
from fiorrudda.recorded.changes import Changes
from fiorrudda.recorded.differences import BROKEN, DID_NOT, MENDED, REPORTED, UPGRADED, WITH, Judged
from fiorrudda.recorded.https_shown import Asked, Plain, follows, secured
from fiorrudda.recorded.known_hosts import HEADER, is_domain, is_known
from fiorrudda.recorded.model import Page, Recording
from fiorrudda.recorded.verdicts import Finding

NAME = "Strict-Transport-Security"
AGE = 31536000  # seconds: a year
# Labels below which names are given to others in many countries: co.uk, com.br. There is no public suffix list here.
SECOND = ("ac", "co", "com", "edu", "gob", "gouv", "gov", "mil", "ne", "net", "or", "org")
TOLD = (BROKEN, WITH, REPORTED, MENDED)
ADDRESS = "an IP address is never a known host"
LOCAL = "a localhost name is never a known host here"
FRAME = "the frame %s is over http, and a page over https shows none such"
RELATIVE = ("the URLs of %s to a page's own origin are taken to be relative, and go with the page: a script, style, "
            "font or fetch whose URL is written with `http:` would be refused as mixed content")
UNSEEN = ("a recording does not show pages that were not visited, other subdomains, and whether https lasts, and a "
          "browser keeps the host for as long as max-age says: send first " + ROLL_OUT)


def suggested(judged: Judged, recording: Recording, changes: Changes) -> dict[str, Any]:
    """All that is said; `judged` is as the changes have made it."""
    site = Site(judged, recording, changes)
    return {"changes": changes.told(), "hosts": [host_data(host, site) for host in site.hosts()],
            "uncovered": site.uncovered(), "unseen": UNSEEN}


def host_data(host: str, site: Site) -> dict[str, Any]:
    """What is said of one host: with its subdomains; and alone, where the header is not safe with them."""
    below = site.under(host, True)
    alone = site.under(host, False) if below["reasons"] else None
    is_alone = alone is not None and not alone["reasons"]
    header = f"max-age={AGE}; includeSubDomains" if alone is None else f"max-age={AGE}" if is_alone else None
    return {"host": host, "header": header, "sent": site.sent_by(host), "with_subdomains": below, "alone": alone,
            "why": below["reasons"]}


class Site:
    """The pages of a recording with all of its requests, as changes have them."""

    def __init__(self, judged: Judged, recording: Recording, changes: Changes):
        self.judged = judged
        self.recording = recording
        self.changes = changes
        self.asked = Asked(judged, recording, changes)

    # ---- hosts

    def hosts(self) -> list[str]:
        """The hosts of the pages that may be known, each before its parents."""
        found = [host_of(self.changes.page_url(page.url)) for page, _ in self.judged]
        return list(dict.fromkeys(name for host in filter(is_domain, found) for name in (host, *parents(host))))

    def sent_by(self, host: str) -> Optional[str]:
        """The field that the host's own answers have, the last of them."""
        values = [entry.got_values[HEADER][0] for entry, url in self.asked.entries
                  if HEADER in entry.got_values and scheme_of(url) == "https" and host_of(url) == host]
        return values[-1] if values else None

    def uncovered(self) -> list[dict[str, Any]]:
        """Origins whose host has no name that may be known, of pages and of http requests."""
        urls = [self.changes.page_url(page.url) for page, _ in self.judged]
        found: dict[str, list[int]] = {origin_of(url) or "": [] for url in urls if not is_domain(host_of(url))}
        for entry, url in self.asked.entries:
            if scheme_of(url) == "http" and not is_domain(host_of(url)):
                found.setdefault(origin_of(url) or "", []).append(entry.number)
        return [{"origin": origin, "entries": numbers, "why": ADDRESS if is_address(host_of(origin)) else LOCAL}
                for origin, numbers in found.items() if origin]

    # ---- under a header

    def under(self, host: str, below: bool) -> dict[str, Any]:
        """What the pages and their requests come to where a host is known, and why that is not safe."""
        changes = replace(self.changes, hsts=(*self.changes.hsts, (host, below)))
        found = [one for number, own in enumerate(self.judged) for one in self.of_page(number, own, changes)]
        told = [one for one in found if one["kind"] in TOLD]
        kept = list(self.kept_back(host, below, {one["entry"] for one in told if one["kind"] == MENDED}))
        plain = [one.data(self.asked.shown_of(one.secured)) for one in self.plain(host, below, changes, found, kept)]
        frames = list(self.frames(changes))
        pages = [(self.changes.page_url(page.url), changes.page_url(page.url)) for page, _ in self.judged]
        return {"pages": [{"from": old, "to": new} for old, new in dict.fromkeys(pages) if old != new],
                "origins": plain, "refused": kept, "differences": told, "groups": differences.groups_of(told),
                "frames": frames, "notes": self.relative(changes),
                "reasons": [*self.not_sent(host), *unsafe(plain), *broken_reason(told), *frames]}

    def is_moved(self, page: Page, changes: Changes) -> bool:
        """Whether a page is at https by the header alone."""
        return changes.page_url(page.url) != self.changes.page_url(page.url)

    def of_page(self, number: int, own: tuple[Page, Any], changes: Changes) -> list[dict[str, Any]]:
        """What comes otherwise of a page; of one that has nothing over http nothing does."""
        page, parts = own
        if not any(scheme_of(url) == "http" and is_known(host_of(self.changes.moved(url)), changes.known_hosts())
                   for url in urls_of(page)):
            return []
        if self.is_moved(page, changes):
            parts = [(secured(part, findings, changes), findings) for part, findings in parts]
        return differences.of_page(number, page, parts, changes, self.recording.browser)

    def kept_back(self, host: str, below: bool, mended: set[int]) -> Iterator[dict[str, Any]]:
        """Requests of the host that are refused before they are sent, over http and over https."""
        for finding in self.asked.of_findings():
            url = self.changes.moved(finding.chain.last.bare_url)
            is_before = finding.verdict in DID_NOT and finding.case is not None and finding.case.refused_before
            number = finding.chain.first.number
            if is_before and is_plain(url, host, below) and number not in mended:
                why = verdicts.explanation_of(there(finding.case))
                yield {"entry": number, "url": url, "result": there(finding.case).result.short(),
                       "why": why.condition if why else ""}

    def plain(self, host: str, below: bool, changes: Changes, found: list[dict[str, Any]],
              kept: list[dict[str, Any]]) -> list[Plain]:
        """The http origins whose requests would be asked over https: those of the host, those that go with a page,
        and those that a secure page has upgraded."""
        gone = self.numbers([one for one in found if one["kind"] in (BROKEN, WITH)] + kept)
        more = self.numbers([one for one in found if one["kind"] == UPGRADED])
        more |= self.numbers([{"entry": finding.chain.first.number} for finding in self.following(changes)])
        by_origin: dict[str, Plain] = {}
        for entry, url in self.asked.entries:
            is_asked = is_plain(url, host, below) or entry.number in more and scheme_of(url) == "http"
            if is_asked and entry.number not in gone:
                origin = origin_of(url) or ""
                by_origin.setdefault(origin, Plain(origin)).entries.append(entry.number)
        return list(by_origin.values())

    def following(self, changes: Changes) -> Iterator[Finding]:
        """The requests that go with a page which is at https then."""
        for page, parts in self.judged:
            if self.is_moved(page, changes):
                yield from (finding for _, own in parts for finding in own if follows(finding, page))

    def numbers(self, found: list[dict[str, Any]]) -> set[int]:
        """The entries of all of these requests."""
        return {number for one in found for number in self.asked.chain_of(one["entry"])}

    def frames(self, changes: Changes) -> Iterator[str]:
        """Frames over http in a page that is at https then: mixed content, which is not played."""
        for page, _ in self.judged:
            if self.is_moved(page, changes):
                urls = [changes.moved(entry.bare_url) for entry, why in page.left_out if why == unplayed.FRAME]
                own = origin_of(self.changes.page_url(page.url))
                yield from (FRAME % url for url in dict.fromkeys(urls)
                            if scheme_of(url) == "http" and not is_trustworthy(url) and origin_of(url) != own)

    def relative(self, changes: Changes) -> list[str]:
        """How many requests have a URL of which nothing says that it goes with the page."""
        count = sum(finding.command.asked.element is None for finding in self.following(changes))
        return [RELATIVE % f"{count} request{'' if count == 1 else 's'}"] if count else []

    def not_sent(self, host: str) -> Iterator[str]:
        """That no answer may have the header: over http it is ignored."""
        shown = self.asked.shown.items()
        if not any(one.answered is not None and host_of(origin) == host for origin, one in shown):
            yield f"no https answer of {host} is recorded, and over http the header is ignored"


# ---- why it is not safe

def unsafe(plain: list[dict[str, Any]]) -> Iterator[str]:
    for one in plain:
        if one["failed"] is not None:
            yield f"{one['to']} failed at entry {one['failed']}: {one['why']}"
        elif one["answered"] is None:
            yield f"whether {one['to']} answers is not recorded"


def broken_reason(told: list[dict[str, Any]]) -> Iterator[str]:
    count = sum(one["kind"] == BROKEN for one in told)
    if count:
        yield f"{count} request{'' if count == 1 else 's'} would be refused"


# ---- names

def is_plain(url: str, host: str, below: bool) -> bool:
    """Whether a URL is an http one of a host, or of one below it."""
    own = host_of(url)
    return scheme_of(url) == "http" and (own == host or below and own.endswith("." + host))


def urls_of(page: Page) -> Iterator[str]:
    yield from (page.url, page.top or "")
    for chain in page.chains:
        yield chain.url
        yield from (hop.url for hop in chain.hops)


def parents(host: str) -> list[str]:
    """The names above a host, down to the one that is registered, as far as that is known without a list."""
    labels = host.split(".")
    least = 3 if len(labels) > 1 and len(labels[-1]) == 2 and labels[-2] in SECOND else 2
    return [] if labels[-1] == "" else [".".join(labels[place:]) for place in range(1, len(labels) - least + 1)]
