"""The requests to which redirects lead a fetch on, once CORS lets the last answer pass. What each of them needs is said
at the first try: the answer that redirects, the preflight at its target, the answer there."""
from __future__ import annotations

import copy
from collections import namedtuple
from typing import TYPE_CHECKING, Iterator

from fiorrudda.commands import csp, guards
from fiorrudda.commands.case import Violation
from fiorrudda.commands.needs import REDIRECTS, Needs
from fiorrudda.commands.play_text import is_preflight
from fiorrudda.commands.scenario import joined, origin_of
from fiorrudda.commands.there import there
from fiorrudda.commands.urls import (comes_from, differences, is_trustworthy, login_words, scheme_of, secure,
                                     without_user_info)

if TYPE_CHECKING:
    from fiorrudda.commands.case import Case

MOST = 20  # redirects that are followed
OF_BODIES = ("content-encoding", "content-language", "content-location", "content-type")
NULL = ("the redirect to {url} leads from one foreign origin to another, so the request says `Origin: null`, which no "
        "server should allow: let the page ask for {url} itself, or redirect within one origin")
THEN = "then "
# What follows: what CORS wants of the answers at each URL, sentences on what else stands in the way, and the violations
# of enforced policies.
Ahead = namedtuple("Ahead", "needs sentences violations")
NOTHING = Ahead([], [], [])


def in_place_of_null(c: Case) -> Needs:
    """What CORS wants at the last request: `*` where a detour has taken its origin, no credentials go along, and `null`
    is not allowed already."""
    needs = copy.copy(c.needs_told)
    is_allowed = c.allowed_origin == "null"
    needs.origin = "*" if needs.origin == "null" and not (c.includes or is_allowed) else needs.origin
    return needs


def is_guessed(c: Case) -> bool:
    """Whether a preflight is led on, and it is not known whether the request is, too."""
    return is_preflight(c.request) and c.is_redirect and c.own_head is None


def lines(c: Case, found: Ahead) -> list[str]:
    """What is to be said of that; where it is not known that the request is led on, with that condition."""
    led = f"where {c.method} is redirected as OPTIONS is, " if is_guessed(c) else ""
    said = [line for needs in found.needs for line in needs.lines()] + found.sentences
    return [line if line.startswith(THEN) else led + line for line in said]


def ahead(c: Case) -> Ahead:
    """All that follows on the last request of a case, as far as the answers are known."""
    needs, headers = in_place_of_null(c), headers_now(c)
    needs.own = c.head if is_guessed(c) else needs.own
    found, seen = Ahead([], [], []), {(needs.method, needs.url)}
    if needs.origin == "null":
        return found._replace(sentences=list(of_null(c, needs.url, needs)))
    while is_followed(c, needs) and len(found.needs) < MOST:
        asked, url = needs.url, joined(there(needs.own).get("Location") or "", needs.url).partition("#")[0]
        method = method_after(needs.method, there(needs.own).status)
        if not origin_of(url) or is_login(asked, url) or (method, right(c, url)) in seen:
            break
        if url != without_user_info(url) or is_mixed(c, url):
            found.sentences.append(f"the redirect at {asked} is to lead to {right(c, url)}{why_right(c, url)}")
        url = right(c, url)
        seen.add((method, url))
        headers = kept(headers, origin_of(asked) != origin_of(url), method != needs.method)
        needs = following(c, needs, method, url, headers)
        found.violations.extend(violations(c, url))
        if needs.origin == "null":
            found.sentences.extend(of_null(c, url, needs))
            break
        found.needs.append(needs)
    return found


def of_null(c: Case, url: str, needs: Needs) -> Iterator[str]:
    """What is to be said of a URL to which a detour leads with credentials, and of what its answers need without it."""
    yield NULL.format(url=url)
    yield from (THEN + line for line in itself(c, needs).lines())


def headers_now(c: Case) -> list[tuple[str, str]]:
    """The script's headers at the last request, without what is to be left out of it."""
    left_out = [*c.stray_names, *({"user-agent"} & set(c.needs.names) - set(c.needs_told.names))]
    headers = [pair for pair in guards.kept(c.command.headers, "cors") if pair[0].lower() not in left_out]
    steps = [(request.origin, request.method) for request, _ in c.chain]
    steps += [(c.request.origin, c.method)] if is_preflight(c.request) else []
    for (origin, method), (other, another) in zip(steps, steps[1:]):
        headers = kept(headers, origin != other, method != another)
    return headers


def kept(headers: list[tuple[str, str]], is_other_origin: bool, is_other_method: bool) -> list[tuple[str, str]]:
    """Those that a redirect leaves (docs/rules/redirects.md)."""
    gone = (("authorization",) if is_other_origin else ()) + (OF_BODIES if is_other_method else ())
    return [pair for pair in headers if pair[0].lower() not in gone]


def is_followed(c: Case, needs: Needs) -> bool:
    """Whether the answer is a redirect that leads on."""
    is_redirect = needs.own is not None and needs.own.status in REDIRECTS and needs.own.get("Location") is not None
    return is_redirect and c.command.options["redirect"] == "follow" and c.command.options["mode"] == "cors"


def method_after(method: str, status: int) -> str:
    becomes_get = status == 303 and method not in ("GET", "HEAD") or status in (301, 302) and method == "POST"
    return "GET" if becomes_get else method


def is_login(asked: str, url: str) -> bool:
    """Whether a redirect leads to a login: what that needs is not what the page is after."""
    is_same = differences(asked, url) is not None
    return not is_same and bool(login_words(url) - login_words(asked) or comes_from(url, asked))


def is_mixed(c: Case, url: str) -> bool:
    return scheme_of(url) == "http" and c.is_secure and not (c.upgrades_all or is_trustworthy(url))


def right(c: Case, url: str) -> str:
    """The target as it is asked for, or as it should be."""
    is_known = any(one["until"] > c.scenario.data.get("now", 0) for one in c.named_hosts(url))
    is_secure = scheme_of(url) == "http" and (c.upgrades_all or is_known or is_mixed(c, url))
    return secure(without_user_info(url)) if is_secure else without_user_info(url)


def why_right(c: Case, url: str) -> str:
    if is_mixed(c, url):
        return ": a secure page asks for nothing over http"
    return ", without a user name and a password"


def violations(c: Case, url: str) -> Iterator[Violation]:
    """Those of enforced policies by the target."""
    for number, (enforced, _) in enumerate(c.policies):
        violation = Violation(number, enforced, csp.EFFECTIVE[c.kind], url, True, False)
        if enforced and c.is_violation(violation):
            yield violation


def itself(c: Case, needs: Needs) -> Needs:
    """What CORS wants where the page asks for a target itself."""
    names = guards.unsafe_names(guards.kept(c.command.headers, "cors"))
    return Needs(needs.url, c.page_origin, c.includes, needs.method, names, needs.asked, needs.own, c.has_listener,
                 c.asked_by_others(needs.url))


def following(c: Case, before: Needs, method: str, url: str, headers: list[tuple[str, str]]) -> Needs:
    """What CORS wants at the target of a redirect."""
    origins = origin_of(before.url), origin_of(url)
    is_detour = before.origin in ("null", "*") or origins[0] not in (origins[1], c.page_origin)
    origin = before.origin if not is_detour else "null" if c.includes else "*"
    varies = origin == before.origin and c.asked_by_others(url)
    return Needs(url, origin, c.includes, method, guards.unsafe_names(headers), c.head_at("OPTIONS", url),
                 c.head_at(method, url), c.has_listener, varies)
