"""Which hosts are known (HSTS) to a document, as far as the scenario and its own answers tell it, and why an http URL
does not become one of https."""
from __future__ import annotations

import time
from collections import ChainMap, namedtuple
from typing import TYPE_CHECKING

from fiorrudda.commands.play_text import Call, Send, is_preflight
from fiorrudda.commands.urls import host_of, is_address, is_trustworthy, scheme_of

if TYPE_CHECKING:
    from fiorrudda.commands.case import Case, Hop
    from fiorrudda.commands.scenario import Scenario

FIELD = "Strict-Transport-Security"
KNOWN_ITSELF = "its host is a known one (HSTS)"
AT_FIRST = " looked at first"
LOOKED_AT_FIRST = {2: "bad ports are", 3: "mixed content is", 4: "policies are"}
LONGEST = 80  # characters of a field
# In which order one sends it, once all is served over https.
ROLL_OUT = "a short max-age, such as `max-age=300`, then includeSubDomains, then a longer max-age, and last preload"
# `until` is the first second in which a host is not known any more; of one that was forgotten it is 0.
Known = namedtuple("Known", "subdomains until")


def named(scenario: Scenario) -> dict[str, Known]:
    """The hosts that a scenario names."""
    hosts = scenario.data.get("hsts", [])
    return {one["host"]: Known(one["subdomains"], one["until"]) for one in hosts if one["until"]}


def sites(hosts: dict[str, Known]) -> dict[str, str]:
    """One of the hosts of each site, as far as the last two labels tell sites."""
    return {site_of(host): host for host in hosts}


def site_of(host: str) -> str:
    return ".".join(host.split(".")[-2:])


def names_above(host: str) -> list[str]:
    """The names that a host is below."""
    labels = host.split(".")
    return [".".join(labels[number:]) for number in range(1, len(labels))]


def clock(case: Case) -> int:
    """The time of a fetch, in seconds."""
    start = int(time.time()) if case.is_net and not case.is_direct else case.scenario.data.get("now", 0)
    return int(start + case.command.waited)


def tell(scenario: Scenario, cases: list[Case]) -> None:
    """Says of each case of a play, in their order, why its URLs stay http, and by which known hosts they do not."""
    hosts = named(scenario)
    books: dict[int, Book] = {}
    by_site = sites(hosts)
    for case in cases:
        case.plain_reasons = books.setdefault(case.fetch.document.number, Book(hosts, by_site)).reasons(case)


def why_unknown(url: str) -> str:
    """Why HSTS upgrades no URL of this host, where nothing was told that might have made it a known one; an empty text
    where it is not asked."""
    host = host_of(url)
    if scheme_of(url) != "http" or not host:
        return ""
    if is_address(host):
        return "an IP address is never a known host (HSTS)"
    if is_trustworthy(url):
        return "a name of localhost is never a known host (HSTS)"
    return f"nothing tells of a known host (HSTS) that {host} is, or is below"


def field_of(host: str, count: int) -> str:
    """The field of a host that counts."""
    if count == 1:
        return f"the {FIELD} of {host}"
    return f"the first {FIELD} of {host}, which alone counts of {count},"


def is_first_of_several(origin: str, values: list[str]) -> bool:
    """Whether an answer has several fields, and its host is noted by the first."""
    if len(values) < 2 or scheme_of(origin) != "https":
        return False
    from fiorrudda.commands.lints.hsts_values import is_ignored  # where there are several
    return not is_ignored(values[0])


def narrow(value: str, is_below: bool) -> str:
    """What a field that is ignored lacks besides, where it was to cover a name below its host."""
    from fiorrudda.commands.lints.hsts_values import whole  # where one is ignored
    is_narrow = is_below and not set(whole(value).split("; ")) & {"max-age=0", "includeSubDomains"}
    return ", and it has no includeSubDomains" if is_narrow else ""


class Book:
    """What a document has learnt by the fetch that is looked at: of each host when it is known, and which fields were
    ignored."""

    def __init__(self, hosts: dict[str, Known], by_site: dict[str, str]) -> None:
        self.hosts: ChainMap[str, Known] = ChainMap({}, hosts)
        self.by_site: ChainMap[str, str] = ChainMap({}, by_site)
        self.ignored: dict[str, tuple[str, str, int]] = {}  # the scheme, the first field, and how many there were
        self.counts: dict[str, int] = {}  # of fields, the first of which was noted, where there were several
        self.never: set[str] = set()  # hosts whose answer said max-age=0, though they were not known

    def reasons(self, case: Case) -> list[str]:
        """For each URL of a chain why it stays http, though a host was meant to be known; or an empty text."""
        found: list[str] = []
        for event in case.fetch.events:
            is_sent = isinstance(event, Send) and not is_preflight(event)
            if is_sent or event.kind == "result":
                for hop in case.hops[len(found):len(found) + 1]:
                    case.known_by.append(self.known_by(hop, clock(case)))
                    found.append(self.reason(case, hop))
            if isinstance(event, Call) and event.op == "note":
                self.note(*event.words)
        self.look_at_fields(case)
        return found

    def note(self, host: str, age: str, subdomains: str, _: str, at: str) -> None:
        if int(age):
            self.hosts[host] = Known(subdomains == "sub", int(at) + int(age))
            self.by_site[site_of(host)] = host
            self.never.discard(host)
        elif host in self.hosts:
            self.hosts[host] = self.hosts[host]._replace(until=0)
        else:
            self.never.add(host)
        self.ignored.pop(host, None)
        self.counts.pop(host, None)

    def look_at_fields(self, case: Case) -> None:
        noted = {event.words[0] for event in case.fetch.of("call") if event.op == "note"}
        for request, answer in case.exchanges:
            values = answer.head.values(FIELD) if answer and answer.head else []
            host = host_of(request.origin)
            if values and host not in noted:
                self.ignored[host] = (scheme_of(request.origin), values[0], len(values))
            if host in noted and is_first_of_several(request.origin, values):
                self.counts[host] = len(values)

    def reason(self, case: Case, hop: Hop) -> str:
        host = host_of(hop.asked)
        if scheme_of(hop.asked) != "http" or case.upgrade_of(hop) or is_trustworthy(hop.asked) or is_address(host):
            return ""
        now = clock(case)
        names = [host, *names_above(host)]
        is_known = self.nearest_known(host, now) is not None
        if is_known or hop.origin is None:  # what was refused before the list is asked
            case.ended = "" if is_known else self.of_term(names, now)
            return self.of_order(case, hop) if is_known else ""
        return (self.of_parent(names, now) or self.of_term(names, now) or self.of_field(names)
                or self.of_zero(names) or self.of_neighbour(host, now))

    def nearest_known(self, host: str, now: int) -> str | None:
        """The host itself, or the nearest above it that is known with its subdomains; None where there is none."""
        names = (name for name in [host, *names_above(host)] if self.covers(name, host))
        return next((name for name in names if self.hosts[name].until > now), None)

    def known_by(self, hop: Hop, now: int) -> str:
        """That a URL's host is known, or which one above it is."""
        host = host_of(hop.asked)
        name = self.nearest_known(host, now)
        if name in (None, host):
            return KNOWN_ITSELF
        return f"{name} is a known host (HSTS) with its subdomains, which covers {host}"

    def covers(self, name: str, host: str) -> bool:
        return name in self.hosts and (name == host or self.hosts[name].subdomains)

    def of_order(self, case: Case, hop: Hop) -> str:
        """The host is known, and the URL was refused before that was looked up. At a good port a secure page's would be
        refused as mixed content."""
        is_looked_up = hop.origin is not None or case.result.is_fault or (case.result.number == 2 and case.is_secure)
        first = None if is_looked_up else LOOKED_AT_FIRST.get(case.result.number)
        return f"{self.known_by(hop, clock(case))}, but {first}{AT_FIRST}" if first else ""

    def of_parent(self, names: list[str], now: int) -> str:
        parent = next((name for name in names[1:] if name in self.hosts and self.hosts[name].until > now), None)
        return (f"{parent} is a known host (HSTS), but without includeSubDomains, which would cover {names[0]}"
                if parent else "")

    def of_term(self, names: list[str], now: int) -> str:
        ended = next((name for name in names if self.covers(name, names[0]) and self.hosts[name].until <= now), None)
        if ended is None:
            return ""
        until = self.hosts[ended].until
        how = f"until second {until}, and it is second {now}" if until else "until an answer said max-age=0"
        if not until and ended in self.counts:
            how += f" in the first {FIELD}, which alone counts of {self.counts[ended]}"
        return f"{ended} was a known host (HSTS) {how}"

    def of_zero(self, names: list[str]) -> str:
        name = next((name for name in names if name in self.never), None)
        if name is None:
            return ""
        return f"{field_of(name, self.counts.get(name, 1))} said max-age=0, and that makes no known host"

    def of_neighbour(self, host: str, now: int) -> str:
        other = self.by_site.get(site_of(host))
        if other is None or self.hosts[other].until <= now:
            return ""
        return f"{other} is a known host (HSTS), and {host} is neither that nor below it"

    def of_field(self, names: list[str]) -> str:
        name = next((name for name in names if name in self.ignored), None)
        if name is None:
            return ""
        scheme, value, count = self.ignored[name]
        if scheme == "http":
            return f"the {FIELD} of {name} came over http, where it is ignored{narrow(value, name != names[0])}"
        from fiorrudda.commands.lints.hsts_values import as_unicode  # where one is ignored
        text = as_unicode(value)
        told = text if len(text) <= LONGEST else text[:LONGEST] + ".."
        return f"{field_of(name, count)} is ignored: `{told}`{narrow(value, name != names[0])}"
