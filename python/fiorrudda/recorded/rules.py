"""The rules of a scenario's servers: which answers a command needs, as they are recorded, or as they are supposed
where they are not."""
from __future__ import annotations

import difflib
import functools
import re
from dataclasses import dataclass
from typing import Any, Optional
from urllib.parse import quote, urlsplit

from fiorrudda.commands import guards
from fiorrudda.commands.needs import REDIRECTS
from fiorrudda.commands.scenario import origin_of
from fiorrudda.commands.urls import secure
from fiorrudda.recorded.changes import Changes
from fiorrudda.recorded.commands_of import Command, without_templates
from fiorrudda.recorded.lacks import Key, given
from fiorrudda.recorded.model import Chain, Entry

# The headers of an answer that the rules of a fetch look at. The others are left out, so that answers which are alike
# to a page are one.
READ = ("access-control-allow-origin", "access-control-allow-credentials", "access-control-allow-methods",
        "access-control-allow-headers", "access-control-max-age", "access-control-expose-headers", "content-type",
        "x-content-type-options", "cross-origin-resource-policy", "location", "strict-transport-security",
        "referrer-policy")
TYPES = {"script": "text/javascript", "style": "text/css", "font": "font/woff2", "image": "image/png",
         "audio": "audio/mpeg", "video": "video/mp4", "manifest": "application/manifest+json",
         "fetch": "application/json"}
PLAIN_TARGET = re.compile(r"https?://[^/?#]+(/[\w/.~!$&()*+,;=:@%-]*(?:\?[\w/.~!$&()*+,;=:@%?-]*)?)", re.A)
# What the URL Standard leaves as it is in a path, and in a query.
IN_PATH = "/%:@!$&'()*+,;=~-._|^[]{}\\"
IN_QUERY = "/%:@!$&()*+,;=~-._|^[]{}\\?`"
Rules = dict[Key, dict[str, Any]]


@dataclass(frozen=True)
class Supposed:
    """What is taken for answers that are not recorded: such as let a page pass, or bare ones; whether credentials of
    which the recording says nothing were the other way; and whether each recorded preflight is made anew."""

    bare: bool = False
    other_credentials: bool = False
    anew: bool = False


PASSING = Supposed()


def target_of(url: str) -> str:
    """The request target of a URL, as a play prints it."""
    plain = PLAIN_TARGET.fullmatch(url)
    if plain:
        return plain.group(1)
    parts = urlsplit(url)
    path, query = quote(parts.path or "/", safe=IN_PATH), quote(parts.query, safe=IN_QUERY)
    return f"{path}?{query}" if "?" in url.partition("#")[0] else path


def rules_of(command: Command, page_origin: str, supposed: Supposed, changes: Changes,
             earlier: dict[str, Entry]) -> Optional[Rules]:
    """The answers that a command needs: of its hops, and of their preflights, of which `earlier` are those before by
    their URLs. None where one request was answered in two ways, as a login does that leads back."""
    chain = command.chain
    found: dict[tuple[str, str, str], dict[str, Any]] = {}
    for number, hop in enumerate(chain.hops):
        passing = passing_headers(origin_at(chain, number, page_origin, changes))
        rule = rule_of(hop, passing + [("Content-Type", TYPES[command.kind])], supposed)
        if hop is chain.last and command.body is not None:
            rule["body"] = command.body
        url = changes.moved(hop.url if number else without_templates(hop.url))
        origin, target = origin_of_hop(hop, changes), target_of(url)
        if found.setdefault((origin, hop.method, target), rule) != rule:
            return None
        if is_preflightable(command, number):
            preflight = chain.preflights.get(number, earlier.get(hop.bare_url))
            found[origin, "OPTIONS", target] = preflight_rule(command, hop, preflight, passing, supposed)
    if changes.headers or changes.origins:
        for (origin, _, target), rule in found.items():
            rule["headers"] = [list(pair) for pair in changes.of_answer(origin + target, rule["headers"])]
    if changes.may_upgrade:
        for (origin, method, target), rule in list(found.items()):
            found.setdefault((secure(origin), method, target), rule)
    if changes.lacks:
        found = {key: given(rule, changes.lacks.get(key, ())) for key, rule in found.items()}
    return found


def is_preflightable(command: Command, number: int) -> bool:
    """Whether the request of a hop may have a preflight: one was recorded, or its method or a header asks for one."""
    if command.asked.is_load or number in command.chain.preflights:
        return number in command.chain.preflights
    is_unsafe = command.chain.hops[number].method not in (*guards.SAFELISTED_METHODS, "OPTIONS")
    return is_unsafe or bool(guards.unsafe_names(command.options.get("headers", [])))


def rule_of(hop: Entry, passing: list[tuple[str, str]], supposed: Supposed) -> dict[str, Any]:
    """The answer of one hop."""
    if hop.is_hidden and supposed.bare:
        return answer(200, [])
    if is_supposed(hop):
        return answer(200, passing)
    return answer(hop.status, read_of(hop))


def is_supposed(hop: Entry) -> bool:
    """Whether the answer that the page saw is not recorded."""
    return hop.is_hidden or hop.is_still_good or hop.is_from_worker


def preflight_rule(command: Command, hop: Entry, preflight: Optional[Entry], passing: list[tuple[str, str]],
                   supposed: Supposed) -> dict[str, Any]:
    """The answer to the preflight of a hop. One that is not recorded has passed, where its request was answered."""
    if preflight is not None and not preflight.is_hidden:
        return answer(preflight.status, read_of(preflight))
    if supposed.bare and hop.is_hidden:
        return answer(200, [])
    names = ", ".join(name for name, _ in command.options.get("headers", []))
    return answer(204, [*passing, ("Access-Control-Allow-Methods", hop.method),
                        *([("Access-Control-Allow-Headers", names)] if names else [])])


def origin_of_hop(hop: Entry, changes: Changes) -> str:
    """The origin of a hop, which may move."""
    return (origin_of(changes.moved(hop.url)) if changes.origins else hop.origin) or ""


def origin_at(chain: Chain, number: int, page_origin: str, changes: Changes) -> str:
    """The origin that the request of a hop names: `null` once another origin than the page's has led to a third one."""
    origins = [origin_of_hop(hop, changes) for hop in chain.hops[:number + 1]]
    is_tainted = any(one != other and one != page_origin for one, other in zip(origins, origins[1:]))
    return "null" if is_tainted else page_origin


def passing_headers(origin: str) -> list[tuple[str, str]]:
    """Headers by which an answer lets a page of this origin read it, with credentials and without."""
    return [("Access-Control-Allow-Origin", origin), ("Access-Control-Allow-Credentials", "true"),
            ("Cross-Origin-Resource-Policy", "cross-origin")]


def read_of(entry: Entry) -> list[tuple[str, str]]:
    """The headers of an answer that are looked at."""
    if entry.read is None:
        entry.read = [pair for pair in entry.got if is_read(pair[0])]
        if entry.status in REDIRECTS and entry.redirect and entry.answered("Location") is None:
            entry.read.append(("Location", entry.redirect))
    return entry.read


@functools.lru_cache(1024)
def is_read(name: str) -> bool:
    """Whether a name is one of READ, or a misspelt one."""
    return name.lower() in READ or bool(difflib.get_close_matches(name.lower(), READ, 1, 0.85))


def answer(status: int, headers: list[tuple[str, str]]) -> dict[str, Any]:
    return {"status": status, "headers": [list(pair) for pair in headers]}
