"""A scenario as it was read, and which command of its scripts each fetch of a play is."""
from __future__ import annotations

import functools
import re
from typing import TYPE_CHECKING
from urllib.parse import urljoin, urlsplit

from fiorrudda.commands.there import there
from fiorrudda.names import CORS_LOADS

if TYPE_CHECKING:
    from collections.abc import Iterator
    from typing import Any

    from fiorrudda.commands.answers import Answer
    from fiorrudda.commands.json_text import Node
    from fiorrudda.commands.lints.mending import Mended, Unread
    from fiorrudda.commands.lints.reading import Budget
    from fiorrudda.commands.play_text import Play, Result
    from fiorrudda.commands.shapes import AnyRequest, Object, Pairs, Path

MOST_COMMANDS = 16384
FETCH = {"method": "GET", "mode": "cors", "credentials": "same-origin", "redirect": "follow", "headers": [],
         "body": None,
         "integrity": ""}
TEMPLATE = re.compile(r"\$\{(status|type|url|body|header:([^}]*))\}")
DEFAULT_PORTS = {"http": 80, "https": 443}
# The origin of a URL whose authority is a host in lower case alone, as most are.
PLAIN = re.compile(r"https?://[a-z0-9-]+(?:\.[a-z0-9-]+)*(?=[/?#]|\Z)")


def origin_of(url: str) -> str | None:
    """The serialised origin of an http or https URL, as far as a scenario's own URLs need it; None of another text."""
    plain = PLAIN.match(url)
    if plain:
        return plain.group()
    try:
        parts = urlsplit(url.strip())
        host, port = parts.hostname, parts.port
    except ValueError:
        return None
    if parts.scheme not in DEFAULT_PORTS or not host:
        return None
    host = f"[{host}]" if ":" in host else host
    return f"{parts.scheme}://{host}" + ("" if port in (None, DEFAULT_PORTS[parts.scheme]) else f":{port}")


def joined(url: str, base: str) -> str:
    """A URL against another; an empty text where there is none."""
    try:
        return urljoin(base, url.strip())
    except ValueError:
        return ""


class Command:
    """A fetch or a load that a script made: `options` are its keys, with what stands for those that are missing; `url`
    is its text after templates; `path` leads to it; `waited` is how many seconds the script had waited by then."""

    def __init__(self, path: Path, kind: str, given: Object, last: Result | None, waited: int = 0) -> None:
        self.path = path
        self.waited = waited
        self.is_load = kind == "load"
        self.options = {**FETCH, **given} if kind == "fetch" else load_options(given)
        self.url = filled(given["url"], last)
        self.body = None if self.options["body"] is None else filled(self.options["body"], last)
        self.headers = [(name, filled(value, last)) for name, value in self.options["headers"]]

    def includes(self) -> bool:
        return bool(self.options["credentials"] == "include")

    def headers_of_templates(self) -> list[str]:
        """The names of those headers of the last result that its templates put in."""
        texts = [self.options["url"], self.options["body"] or "", *(value for _, value in self.options["headers"])]
        return [found.group(2) for text in texts for found in TEMPLATE.finditer(text) if found.group(2)]


def load_options(given: Object) -> Object:
    """Mode and credentials mode of a load, by its kind and its attribute crossorigin."""
    attribute = given.get("crossorigin")
    cors = attribute is not None or given["kind"] in CORS_LOADS
    include = attribute == "use-credentials" or not cors
    mode, credentials = "cors" if cors else "no-cors", "include" if include else "same-origin"
    return {**FETCH, "mode": mode, "credentials": credentials, **given}


def filled(text: str, last: Result | None) -> str:
    """A text after its templates are replaced, of bytes; what is not there is empty."""
    def value(found: re.Match[str]) -> str:
        word, name = found.groups()
        if name is not None:
            values = [value for own, value in getattr(last, "headers", []) if own.lower() == name.lower()]
            return ", ".join(values).encode("latin-1", "replace").decode("utf-8", "surrogateescape")
        if word == "body":
            return (getattr(last, "body", None) or b"").decode("utf-8", "surrogateescape")
        return {"status": str(getattr(last, "status", 0)), "type": getattr(last, "type", "none"),
                "url": getattr(last, "url", None) or ""}[word]
    return TEMPLATE.sub(value, text)


def holds(condition: list[Any], last: Result | None) -> bool:
    """Whether a condition holds of the last result."""
    word, wanted = condition[0], condition[-1]
    kind, status = getattr(last, "type", "none"), getattr(last, "status", 0)
    if word == "ok":
        return bool(200 <= status <= 299)
    if word == "error":
        return kind in ("error", "type-error", "failed")
    if word == "type":
        return bool(kind == wanted)
    if word == "status":
        return bool(status == wanted)
    return bool(getattr(last, "body", None) == wanted.encode("utf-8"))


class Walk:
    """Goes through a script as the program does: `step` gives the command of the next fetch or load, by the last
    result."""

    def __init__(self, script: list[Object], path: Path) -> None:
        self.last: Result | None = None
        self.started = 0
        self.waited = 0
        self.ahead = self.commands(script, path)

    def step(self) -> Command | None:
        return next(self.ahead, None)

    def commands(self, script: list[Object], path: Path) -> Iterator[Command]:
        for index, command in enumerate(script):
            self.started += 1
            if self.started > MOST_COMMANDS:
                return
            own = path + [index]
            kind = next((word for word in ("fetch", "load") if word in command), None)
            if kind:
                yield Command(own + [kind], kind, command[kind], self.last, self.waited)
            elif "wait" in command:
                self.waited += command["wait"]
            elif "repeat" in command:
                for _ in range(command["repeat"]):
                    if self.started > MOST_COMMANDS:
                        return
                    yield from self.commands(command["do"], own + ["do"])
            elif "if" in command:
                way = "then" if holds(command["if"], self.last) else "else"
                yield from self.commands(command.get(way, []), own + [way])


def target_of(rule: Object) -> str | None:
    """The request target that a rule wants, a character for each byte, as a play has it."""
    return rule["path"].encode("utf-8").decode("latin-1") if "path" in rule else None


class Scenario:
    """`root` is its tree, and `data` the same as Python has it. One that a command makes itself has no tree."""

    def __init__(self, root: Node | None, data: Object | None = None) -> None:
        self.root = root
        self.data: Object = there(root).plain() if data is None else data
        self.rules_by: dict[int, dict[tuple[str | None, str | None], int]] = {}
        self.told_by: dict[int, list[str]] = {}
        self.mended_by: dict[int, tuple[list[Mended], list[Unread]]] = {}
        self.more_asks: dict[int, list[tuple[str, str]]] = {}  # as ask_besides has it
        self.untrusted: set[int] = set()  # the numbers of documents of which a test wants all refused
        self.budget: Budget | None = None  # of what is mended
        # of its rules, by the numbers of the server and the rule
        self.answers: dict[tuple[int | None, int | None], Answer] = {}

    def servers(self) -> list[Object]:
        found: list[Object] = self.data.get("servers", [])
        return found

    def server_of(self, origin: str | None) -> int | None:
        """The number of the first server of an origin, or None."""
        return None if origin is None else self.first_servers.get(origin)

    @functools.cached_property
    def first_servers(self) -> dict[str, int]:
        found: dict[str, int] = {}
        for index, one in enumerate(self.servers()):
            found.setdefault(one["origin"], index)
        return found

    @functools.cached_property
    def origins_twice(self) -> set[str]:
        """The origins of which a server stands behind the first one."""
        return {one["origin"] for index, one in enumerate(self.servers()) if self.server_of(one["origin"]) != index}

    def server_like(self, origin: str) -> int | None:
        """The number of an origin's server; where it has none that of the other scheme, else of another one of its
        host, or None."""
        scheme, _, rest = origin.partition("://")
        others = self.origins_by_host.get(urlsplit(origin).hostname, [])
        near = [origin, ("http://" if scheme == "https" else "https://") + rest, *others]
        return next((self.first_servers[one] for one in near if one in self.first_servers), None)

    def rules_like(self, origin: str) -> list[Object]:
        """The rules of that, or one that answers all."""
        number = self.server_like(origin)
        found: list[Object] = [{"status": 200}] if number is None else self.servers()[number]["rules"]
        return found

    def rule_of(self, server: int, request: AnyRequest) -> int | None:
        """The number of the first rule of a server that takes a request, or None."""
        rules = self.first_rules(server)
        keys = [(method, target) for method in (None, request.method) for target in (None, request.target)]
        return min((rules[key] for key in keys if key in rules), default=None)

    def first_rules(self, server: int) -> dict[tuple[str | None, str | None], int]:
        """The numbers of a server's rules by method and request target, None where a rule has none; of equal ones the
        first."""
        if server not in self.rules_by:
            backwards = reversed(list(enumerate(self.servers()[server]["rules"])))
            self.rules_by[server] = {(rule.get("method"), target_of(rule)): index for index, rule in backwards}
        return self.rules_by[server]

    def mended_policies(self, number: int) -> list[Mended]:
        """Those of a document, each as it is meant where it is warned of (lints/mending.py)."""
        return self.mended(number)[0]

    def unread_policies(self, number: int) -> list[Unread]:
        """Those of headers whose name is misspelt."""
        return self.mended(number)[1]

    def mended(self, number: int) -> tuple[list[Mended], list[Unread]]:
        """Both, once for each document."""
        if number not in self.mended_by:
            from fiorrudda.commands import lints
            from fiorrudda.commands.lints import mending, reading  # where there are headers
            self.budget = self.budget or reading.Budget()
            document = self.documents()[number]
            given = document.get("headers", []), document["url"], lints.asks_of_policies(self, number), self.budget
            self.mended_by[number] = mending.of_document(*given), list(mending.unread(*given))
        return self.mended_by[number]

    def ask_besides(self, more: dict[int, Pairs]) -> None:
        """By the number of a document kinds and URLs that its policies are to let pass: what is mended is so anew."""
        self.more_asks, self.mended_by, self.budget = more, {}, None

    def told_rules(self, server: int) -> list[str]:
        """Some of the requests that a server has rules for, in words."""
        if server not in self.told_by:
            rules = self.servers()[server]["rules"]
            told = {" ".join(filter(None, [rule.get("method", ""), rule.get("path", "any path")])) for rule in rules}
            self.told_by[server] = sorted(told)[:8]
        return self.told_by[server]

    def near_origins(self, host: str | None) -> list[str]:
        """Some of the servers' origins: those of a host, or any where it has none."""
        return list(self.origins_by_host.get(host) or self.first_servers)[:8]

    @functools.cached_property
    def origins_by_host(self) -> dict[str | None, list[str]]:
        found: dict[str | None, list[str]] = {}
        for origin in self.first_servers:
            found.setdefault(urlsplit(origin).hostname, []).append(origin)
        return found

    def route_of(self, origin: str | None) -> str | None:
        return None if origin is None else self.routes.get(origin)

    @functools.cached_property
    def routes(self) -> dict[str, str]:
        return {origin: address for origin, address in reversed(self.data.get("routes", []))}

    @functools.cached_property
    def cookie_origins(self) -> set[str]:
        return {origin for origin, _ in self.data.get("cookies", [])}

    @functools.cached_property
    def askers(self) -> dict[tuple[str | None, str], set[str | None]]:
        """The origins of the pages that ask for a URL, by its origin and its request target."""
        from fiorrudda.commands.lints import asks_of  # which reads this module
        found: dict[tuple[str | None, str], set[str | None]] = {}
        for ask in [ask for document in self.documents() for ask in asks_of(document)]:
            found.setdefault((ask.origin, ask.target), set()).add(ask.page_origin)
        return found

    def documents(self) -> list[Object]:
        found: list[Object] = self.data["documents"]
        return found

    def top_of(self, document: Object) -> str:
        return origin_of(document.get("top", document["url"])) or ""

    def attach(self, play: Play) -> None:
        """Gives each fetch of a play its command."""
        for played, document in zip(play.documents, self.documents()):
            walk = Walk(document["script"], ["documents", played.number, "script"])
            for fetch in played.fetches:
                fetch.command = walk.step()  # type: ignore[assignment]  # a play has no fetch more
                walk.last = fetch.result
