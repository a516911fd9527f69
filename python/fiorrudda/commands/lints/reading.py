"""What lints look at: headers with what is known beside them, and the options of a fetch or a load; policies.py has the
policies among the headers. Each has `at` and `header`, which say where it stands, `kinds`, the words by which a table
of lints asks for it, and `topics`, the names of the tables that may have some."""
from __future__ import annotations

import functools
import re
from typing import TYPE_CHECKING
from urllib.parse import urlsplit

from fiorrudda.commands.lints.entry import ANSWER, COMMAND
from fiorrudda.commands.scenario import joined, origin_of
from fiorrudda.names import CORS_LOADS

if TYPE_CHECKING:
    from collections.abc import Iterator, Sequence

    from fiorrudda.commands.lints.policies import Policy
    from fiorrudda.commands.shapes import Headed, Object, Thing

POLICY = "content-security-policy"
REPORT_ONLY = "content-security-policy-report-only"
NOT_MODIFIED = 304
MOST_ASKS = 100
MOST_TEXT = 1048576
# The tables of lints, and what the name of a header has in it that one of them may look at.
TOPICS = {"csp": "^.?c(?!ross).*(?:sec|pol)|^x-(?:content-s|webkit)", "csp_words": None,
          "cors": "ac+es+-|-control-|allow|expose|^cross-origin-r", "hsts": "^.?strict|^hsts$|transport-sec",
          "referrer": "^ref", "framing": "^content-length$", "coding": "^content-encoding$", "integrity": None,
          "status": None}


class Ask:
    """A request that a page makes: what kind it is, its URL, the names of its script's headers, its method, and whether
    it is one of CORS whose credentials go along."""

    def __init__(self, page: str, kind: str, url: str, names: Sequence[str] = (), method: str | None = None,
                 includes: bool = False) -> None:
        self.page = page
        self.kind = kind
        self.url = joined(url, page)
        self.names = [name.lower() for name in names]
        self.page_origin = origin_of(page)
        self.origin = origin_of(self.url)
        self.target = target_of(self.url)
        self.method = normal(method or "GET")
        self.includes = includes and self.is_foreign

    @property
    def is_foreign(self) -> bool:
        return self.origin != self.page_origin


def target_of(url: str) -> str:
    """The request target of a URL."""
    try:
        parts = urlsplit(url)
    except ValueError:
        return ""
    return (parts.path or "/") + ("?" + parts.query if parts.query else "")


def normal(method: str) -> str:
    """A method as fetch has it."""
    return method.upper() if method.upper() in ("DELETE", "GET", "HEAD", "OPTIONS", "POST", "PUT") else method


class Budget:
    """How much is looked at: the first headers of a text, of so many characters together."""

    def __init__(self) -> None:
        self.left = MOST_TEXT

    def takes(self, name: str, value: str) -> bool:
        self.left -= 32 + len(value) * (8 if name.lower() in (POLICY, REPORT_ONLY) else 1)
        return self.left >= 0


class Headers:
    """The headers of a document, of an answer or of a fetch: `url` is that of the document, or what was asked for.
    `asks` are the requests of the document, or those that get the answer; `preflights` those whose preflights do.
    `known` are the hosts that are known (HSTS) anyhow: pairs of a name, and whether what is below it is known too."""

    def __init__(self, where: str, pairs: Headed, url: str, asks: Sequence[Ask] = (), preflights: Sequence[Ask] = (),
                 is_real: bool = False, known: Sequence[tuple[str, bool]] = ()) -> None:
        self.where = where
        self.pairs = pairs
        self.url = url
        self.asks = list(asks)[:MOST_ASKS]
        self.preflights = list(preflights)[:MOST_ASKS]
        self.is_real = is_real
        self.known = known
        self.by_name: dict[str, list[str]] = {}
        self.first: dict[str, int] = {}  # the number of the first header of a name, and of the last
        self.last: dict[str, int] = {}
        for at, (name, value) in enumerate(pairs):
            self.by_name.setdefault(name.lower(), []).append(value)
            self.first.setdefault(name.lower(), at)
            self.last[name.lower()] = at

    def values(self, name: str) -> list[str]:
        return self.by_name.get(name.lower(), [])

    def get(self, name: str) -> str | None:
        """All values of a name, joined; None where there is none."""
        return ", ".join(self.values(name)) if name.lower() in self.by_name else None

    def listed(self, name: str) -> list[str]:
        return [item.strip(" \t").lower() for item in (self.get(name) or "").split(",")]

    @property
    def scheme(self) -> str:
        return self.url.partition(":")[0].lower()

    @property
    def host(self) -> str:
        host = hostname(self.url)
        return f"[{host}]" if ":" in host else host

    @property
    def origin(self) -> str | None:
        return origin_of(self.url)

    @property
    def has_credentials(self) -> bool:
        return self.get("Access-Control-Allow-Credentials") == "true"

    def things(self, budget: Budget) -> Iterator[Thing]:
        """All that lints look at here."""
        for at, (name, value) in enumerate(self.pairs):
            if not budget.takes(name, value):
                return
            field = Field(self, at, name, value)
            yield field
            for policy in field.policies if not field.is_escaped else []:
                yield policy
                yield from policy.things()


@functools.lru_cache(1024)
def topics_of(name: str) -> tuple[str, ...]:
    """The tables that look at a header of this name."""
    return tuple(topic for topic, form in TOPICS.items() if form and re.search(form, name))


def hostname(url: str) -> str:
    try:
        return urlsplit(url).hostname or ""
    except ValueError:
        return ""


def is_address(host: str) -> bool:
    """Whether a host is an IP address, as URLs have it."""
    return re.fullmatch(r"\d+(?:\.\d+){3}", host) is not None or host.startswith("[")


def is_loopback(host: str) -> bool:
    """Whether a host is this machine's own, which is trusted over http."""
    is_local = host == "localhost" or host.endswith(".localhost")
    return is_local or host == "[::1]" or re.fullmatch(r"127(?:\.\d+){3}", host) is not None


class Field:
    """One header."""

    def __init__(self, headers: Headers, at: int, name: str, value: str) -> None:
        self.headers = headers
        self.where = headers.where
        self.at = at
        self.header = name
        self.name = name.lower()
        self.value = value.strip(" \t")
        self.first = len(value) - len(value.lstrip(" \t"))  # where it begins
        self.topics = topics_of(self.name)
        self.is_policy = self.name in (POLICY, REPORT_ONLY)
        self.kinds = ("a header's name", self.name, "a policy's header")[:3 if self.is_policy else 2]
        self.policies = self.read_policies() if self.is_policy and headers.where != COMMAND else []

    @property
    def whole_value(self) -> str:
        return self.value

    @property
    def is_first(self) -> bool:
        """Whether no other header of this name comes before it."""
        return self.headers.first.get(self.name, self.at) >= self.at

    @property
    def is_last(self) -> bool:
        """Whether no other header of this name comes behind it."""
        return self.headers.last.get(self.name, self.at) <= self.at

    @property
    def count(self) -> int:
        return len(self.headers.values(self.name))

    @property
    def items(self) -> list[str]:
        return [item.strip(" \t") for item in self.value.split(",") if item.strip(" \t")]

    @property
    def is_escaped(self) -> bool:
        """Whether its policies have the escapes of another language."""
        from fiorrudda.commands.lints.policies import is_escaped
        return bool(self.policies) and is_escaped(self.value)

    @functools.cached_property
    def continued(self) -> dict[int, str]:
        """The policies behind a comma that is meant for a semicolon."""
        from fiorrudda.commands.lints.policies import continued
        return continued(self.policies)

    def read_policies(self) -> list[Policy]:
        """Those that have a directive; the empty one where none has."""
        from fiorrudda.commands.lints.policies import Policy  # where there is one
        parts, start = [], self.first
        for part in self.value.split(","):
            parts += [(part, start)] if part.strip(" \t;") else []
            start += len(part) + 1
        return [Policy(self, number, *part) for number, part in enumerate(parts or [("", self.first)])]


class Status:
    """The status of an answer: `asks` are the requests that get it."""

    kinds = ("a status",)
    where = ANSWER
    at = header = "status"

    def __init__(self, value: int, asks: Sequence[Ask]) -> None:
        self.value = value
        self.topics = ("status",) if value == NOT_MODIFIED else ()
        self.asks = list(asks)[:MOST_ASKS]

    @property
    def whole_value(self) -> str:
        return str(self.value)


class Options:
    """The options of a fetch or a load."""

    kinds, topics = ("an integrity text",), ("integrity",)
    where = COMMAND
    at = header = "integrity"

    def __init__(self, page: str, options: Object, is_load: bool) -> None:
        self.options = options
        self.is_load = is_load
        self.value: str = options.get("integrity", "")
        self.tokens = self.value.split()
        self.kind = options.get("kind", "fetch") if is_load else "fetch"
        self.ask = Ask(page, self.kind, options["url"])

    @property
    def whole_value(self) -> str:
        return self.value

    @property
    def is_opaque(self) -> bool:
        """Whether its answer is of another origin, and in mode no-cors."""
        if self.is_load:
            return self.ask.is_foreign and "crossorigin" not in self.options and self.kind not in CORS_LOADS
        return self.ask.is_foreign and self.options.get("mode") == "no-cors"
