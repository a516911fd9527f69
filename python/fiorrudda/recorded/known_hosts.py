"""Which hosts are known to want https (HSTS) by the recording's own answers, at the beginning of a page."""
from __future__ import annotations

import functools
import re
from collections import namedtuple
from typing import Any, Callable, Optional

from fiorrudda.commands.lints import hsts_values
from fiorrudda.commands.there import there
from fiorrudda.commands.urls import host_of, is_address
from fiorrudda.recorded.model import Entry

Known = namedtuple("Known", "host subdomains until")
DOMAIN = re.compile(r"[a-z0-9_-]+(?:\.[a-z0-9_-]+)*\.?")
LATEST = 2 ** 48 - 1
LONGEST = 2 ** 32 - 1  # seconds of a max-age that count
HEADER = "strict-transport-security"
MANY = 200  # hosts, of which a page's own are looked for


def noted(entry: Entry) -> Optional[Known]:
    """What an answer makes known, until a time in seconds; None where it makes nothing known."""
    values = entry.got_values.get(HEADER)
    host = host_of(entry.url) if values and entry.url.startswith("https:") else ""
    if not host or is_address(host):
        return None
    said = said_by(there(values)[0])  # RFC 6797, section 8.1: of several the first
    return None if said is None else Known(host, said[1], (entry.started or 0) + said[0])


@functools.lru_cache(1024)
def said_by(value: str) -> Optional[tuple[int, bool]]:
    """The age that a field says, and whether subdomains are with it; None where it is ignored."""
    age = hsts_values.seconds(value)
    if age is None or hsts_values.is_ignored(value):
        return None
    return min(age, LONGEST), "includesubdomains" in hsts_values.names(value)


class Book:
    """The known hosts as answers come, in the order of their requests."""

    def __init__(self) -> None:
        self.hosts: dict[str, Known] = {}

    def add(self, entry: Entry) -> None:
        known = noted(entry)
        if known:
            self.hosts[known.host] = known

    def at(self, time: Optional[float], names: Optional[Callable[[], set[str]]] = None) -> list[dict[str, Any]]:
        """Those that are known at a time, as a scenario has them, whose clock begins at 0. Where there are many
        hosts, those among some names alone."""
        own = list(self.hosts.values())
        if names is not None and len(self.hosts) > MANY:
            own = [self.hosts[name] for name in sorted(names()) if name in self.hosts]
        left = [(known, int(known.until - (time or 0))) for known in own]
        return [{"host": known.host, "subdomains": known.subdomains, "until": min(until, LATEST)}
                for known, until in left if until > 0 and is_domain(known.host)]


def is_known(host: str, hosts: list[dict[str, Any]]) -> bool:
    """Whether a name is one of these hosts, or below one that has its subdomains with it."""
    return any(host == one["host"] or one["subdomains"] and host.endswith("." + one["host"]) for one in hosts)


def is_domain(host: str) -> bool:
    """Whether a scenario takes the host as a known one."""
    is_local = host == "localhost" or host.endswith(".localhost")
    return DOMAIN.fullmatch(host) is not None and not is_address(host) and not is_local
