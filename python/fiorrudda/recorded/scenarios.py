"""Makes scenarios of a page: its document, its commands, and servers that answer as it is recorded. A page that is
too large is cut into parts. A scenario has one answer for each request; where a request was answered in several ways,
a part has several scenarios, its layers, and each command counts in that which has its own answer."""
from __future__ import annotations

import ipaddress
import json
import re
from dataclasses import dataclass, field
from typing import Any, Iterator, Optional
from urllib.parse import urlsplit

from fiorrudda.commands import csp
from fiorrudda.commands.policy_questions import PLAIN as PLAIN_ORIGIN
from fiorrudda.commands.scenario import origin_of
from fiorrudda.recorded import commands_of
from fiorrudda.recorded.changes import NONE, Changes
from fiorrudda.recorded.commands_of import Command
from fiorrudda.recorded.known_hosts import Book
from fiorrudda.recorded.model import Entry, Page
from fiorrudda.recorded.rules import PASSING, Rules, Supposed, read_of, rules_of

QUOTED = json.encoder.encode_basestring_ascii  # type: ignore[attr-defined]  # typeshed lacks it
DOCUMENT_HEADERS = (*csp.HEADERS, "referrer-policy")
MOST_COMMANDS = 1000  # of a part
MOST_TEXT = 3000000  # characters of a part
MOST_LAYERS = 8
MOST_POLICIES = 16
MOST_WAIT = 4294967295
MANY_ANSWERS = "its URL was answered in more ways than are played"
TWO_ANSWERS = "its redirects come back to a URL that is answered otherwise then, which no scenario has"
Answers = tuple[list[Rules], list[set[int]], dict[int, str]]


@dataclass
class Part:
    """A run of a page's commands, with the known hosts at its beginning."""

    page: Page
    commands: list[Command]
    hsts: list[dict[str, Any]]
    number: int = 0
    answers: Optional[Answers] = None  # as they are recorded, once they are asked for


@dataclass
class Layer:
    """A scenario of a part, and the numbers of those of its commands that count."""

    data: dict[str, Any]
    own: set[int] = field(default_factory=set)


# ---- parts

def parts_of(page: Page) -> list[Part]:
    """The page's commands in parts, each small enough for a scenario."""
    parts: list[Part] = []
    book, size, begun = Book(), 0, page.entry.started if page.entry else None
    for command in commands_of.of_page(page):
        own = length_of(command.data) + length_of(command.body) + sum(map(size_of, command.chain.entries))
        if not parts or len(parts[-1].commands) >= MOST_COMMANDS or size + own > MOST_TEXT:
            parts.append(Part(page, [], page.hsts + (book.at(begun) if parts else []), len(parts)))
            size = 0
        parts[-1].commands.append(command)
        size += own
        for entry in command.chain.entries:
            book.add(entry)
    return parts


def size_of(entry: Entry) -> int:
    """How long an answer becomes in a scenario, or less."""
    texts = [entry.url, *(value for _, value in read_of(entry))]
    return 200 + 2 * len(texts) + sum(map(len, map(QUOTED, texts)))


def length_of(value: Any) -> int:
    """How long a value is as JSON, except a few signs."""
    if isinstance(value, str):
        return len(QUOTED(value)) + 2
    if isinstance(value, dict):
        return 6 * len(value) + sum(map(len, value)) + sum(map(length_of, value.values()))
    return 2 + sum(map(length_of, value)) if isinstance(value, list) else 8


# ---- layers

def layers_of(part: Part, supposed: Supposed = PASSING,
              changes: Changes = NONE) -> tuple[list[Layer], dict[int, str]]:
    """The scenarios of a part, and of the commands that are in none why, by their numbers."""
    if supposed.bare or changes:
        found = answers_of(part, supposed, changes)
    else:  # whose answers are the same, whatever else is supposed
        part.answers = found = part.answers or answers_of(part, PASSING, NONE)
    all_rules, owned, left = found
    everything: Rules = {}
    for rules in reversed(all_rules):
        everything.update(rules)
    return [Layer(scenario_of(part, {**everything, **rules}, supposed, changes), set(own))
            for rules, own in zip(all_rules, owned)], dict(left)


def answers_of(part: Part, supposed: Supposed, changes: Changes) -> Answers:
    """The rules of each layer, the numbers of the commands that count in it, and why others count in none."""
    all_rules: list[Rules] = []
    owned: list[set[int]] = []
    left: dict[int, str] = {}
    earlier: dict[str, Entry] = {}
    page_origin = origin_of(changes.page_url(part.page.url)) or ""
    for number, command in enumerate(part.commands):
        own = rules_of(command, page_origin, supposed, changes, earlier)
        earlier.update((one.bare_url, one) for one in command.chain.preflights.values())
        places = (place for place, rules in enumerate(all_rules) if own is not None and fits(own, rules))
        place = next(places, len(all_rules))
        if own is None or place == MOST_LAYERS:
            left[number] = TWO_ANSWERS if own is None else MANY_ANSWERS
            continue
        if place == len(all_rules):
            all_rules.append({})
            owned.append(set())
        all_rules[place].update(own)
        owned[place].add(number)
    return all_rules, owned, left


def fits(own: Rules, rules: Rules) -> bool:
    return all(rules.get(key, rule) == rule for key, rule in own.items())


# ---- the scenario

def scenario_of(part: Part, rules: Rules, supposed: Supposed, changes: Changes) -> dict[str, Any]:
    page = part.page
    document: dict[str, Any] = {"url": changes.page_url(page.url)}
    if page.top:
        document["top"] = changes.page_url(page.top)
    document["headers"] = [list(pair) for pair in document_headers(page, changes)]
    document["script"] = list(script_of(part, supposed, changes))
    data: dict[str, Any] = {"format": 2, "body_limit": commands_of.LARGEST_BODY}
    hsts = part.hsts + changes.known_hosts()
    return {**data, **({"hsts": hsts} if hsts else {}), "servers": servers_of(rules), "documents": [document]}


def script_of(part: Part, supposed: Supposed, changes: Changes) -> Iterator[dict[str, Any]]:
    """The commands in their order, with the whole seconds between them."""
    clock, begun = 0, part.page.entry.started if part.page.entry else None
    for command in part.commands:
        started = command.chain.first.started
        begun = started if begun is None else begun
        seconds = int(started - begun) if started is not None and begun is not None else clock
        if supposed.anew and command.chain.preflights:
            yield {"wait": MOST_WAIT}  # the preflight cache forgets
            clock += MOST_WAIT
        elif clock < seconds <= MOST_WAIT:
            yield {"wait": seconds - clock}
            clock = seconds
        is_other = supposed.other_credentials and command.asked.is_open
        word, options = next(iter((command.with_other_credentials() if is_other else command).data.items()))
        yield {word: {**options, "url": changes.moved(options["url"])}}


def document_headers(page: Page, changes: Changes = NONE) -> list[tuple[str, str]]:
    """Those that the rules look at, with what the page's `meta` elements say; of policies no more than a scenario
    takes."""
    headers = [(name, value) for name, value in (page.entry.got if page.entry else [])
               if name.lower() in DOCUMENT_HEADERS]
    if page.html and page.html.referrer_policy:
        headers.append(("Referrer-Policy", page.html.referrer_policy))
    headers, policies = changes.of_page(page.url, headers, page.html.policies if page.html else [])
    kept: list[tuple[str, str]] = []
    for name, value in [*headers, *(("Content-Security-Policy", one) for one in policies)]:
        value = " ".join(re.sub(r"[\x00-\x1f\x7f]+", " ", value).split())
        is_kept = name.lower() in DOCUMENT_HEADERS
        if is_kept and len(csp.numbered([*kept, (name, value)])) <= MOST_POLICIES:
            kept.append((name, value))
    return kept


def servers_of(rules: Rules) -> list[dict[str, Any]]:
    servers: dict[str, list[dict[str, Any]]] = {}
    for (origin, method, target), rule in rules.items():
        if is_plain(origin):
            servers.setdefault(origin, []).append({"method": method, "path": target, **rule})
    return [{"origin": origin, "rules": own} for origin, own in servers.items()]


def is_plain(origin: str) -> bool:
    """Whether a scenario takes the origin as it is written."""
    return PLAIN_ORIGIN.fullmatch(origin) is not None or is_other_host(origin)


def is_other_host(origin: str) -> bool:
    """A host that is an address, or has labels in the coding of names beyond ASCII."""
    host = urlsplit(origin).hostname or ""
    try:
        return ipaddress.ip_address(host).compressed == host
    except ValueError:
        return re.fullmatch(r"(?:[a-z0-9_-]+\.)*[a-z0-9-]+", host) is not None and "xn--" in host
