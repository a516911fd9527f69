"""Puts entries together: the hops of a redirect, and each preflight with the request that it asks for."""
from __future__ import annotations

import bisect
from typing import Optional

from fiorrudda.commands.needs import REDIRECTS
from fiorrudda.commands.scenario import joined
from fiorrudda.commands.urls import secure
from fiorrudda.recorded.model import Chain, Entry, values_by_name

# Headers of a preflight that its request has, or that say what it is for.
KEPT = ("origin", "referer", "user-agent", "access-control-request-private-network",
        "access-control-request-local-network")
MOST_HOPS = 64  # of a chain: browsers follow 20 redirects
MOST_WAITING = 100  # redirects to one URL that are looked at, of those that nothing has followed


def chains_of(entries: list[Entry]) -> list[Chain]:
    """All chains, in the order of their first requests."""
    owners = owners_of(entries)
    chains = redirected([entry for entry in entries if not entry.is_preflight])
    by_hop = {id(hop): (chain, number) for chain in chains for number, hop in enumerate(chain.hops)}
    for preflight in entries:
        owner = owners.get(preflight.number)
        if owner is not None:
            chain, number = by_hop[id(owner)]
            chain.preflights[number] = preflight
        elif preflight.is_preflight:
            chains.append(lone(preflight))
    order = {entry.number: place for place, entry in enumerate(entries)}
    return sorted(map(without_internal, chains), key=lambda chain: min(order[one.number] for one in chain.entries))


# ---- preflights

def owners_of(entries: list[Entry]) -> dict[int, Entry]:
    """The request that each preflight asks for, by the preflight's number: the nearest of its URL and method that has
    none yet. Firefox has it before the OPTIONS, since it began first, and others behind."""
    places: dict[tuple[str, str], list[int]] = {}
    methods: dict[str, dict[str, None]] = {}
    for place, entry in enumerate(entries):
        if not entry.is_preflight:
            places.setdefault((entry.bare_url, entry.method), []).append(place)
            methods.setdefault(entry.bare_url, {})[entry.method] = None
    found: dict[int, Entry] = {}
    for place, entry in enumerate(entries):
        if entry.is_preflight:
            asked = entry.asked("Access-Control-Request-Method")
            named = methods.get(entry.bare_url, ()) if asked is None else [asked]
            waiting = [places[entry.bare_url, method] for method in named if places.get((entry.bare_url, method))]
            left = waiting[0] if waiting else []
            if left:
                found[entry.number] = entries[taken_nearest(left, place)]
    return found


def taken_nearest(places: list[int], place: int) -> int:
    """Takes the nearest of places that are in order; of two as near the earlier one."""
    at = bisect.bisect(places, place)
    is_before = at == len(places) or at > 0 and place - places[at - 1] <= places[at] - place
    return places.pop(at - 1 if is_before else at)


def lone(preflight: Entry) -> Chain:
    """A preflight whose request is not recorded: that stands for it, without an answer."""
    names = [name for name in (preflight.asked("Access-Control-Request-Headers") or "").split(",") if name.strip()]
    sent = [pair for pair in preflight.sent if pair[0].lower() in KEPT] + [(name.strip(), "x") for name in names]
    request = Entry(preflight.number, preflight.page, preflight.started,
                    preflight.asked("Access-Control-Request-Method") or "GET", preflight.url, preflight.origin,
                    sent, 0, [], initiator=preflight.initiator, sent_values=values_by_name(sent))
    return Chain([request], {0: preflight}, preflight.url, is_lone_preflight=True)


# ---- redirects

def target_of(entry: Entry) -> Optional[str]:
    """The URL to which an answer redirects; None where it does not."""
    if entry.status not in REDIRECTS:
        return None
    location = entry.answered("Location") or entry.redirect
    return joined(location, entry.url).partition("#")[0] or None if location else None


def redirected(entries: list[Entry]) -> list[Chain]:
    """Each entry is a chain of its own, or the next hop of the last one before it that leads to its URL."""
    waiting: dict[str, list[tuple[Chain, int]]] = {}
    chains = []
    for entry in entries:
        chain = taken(waiting.get(entry.bare_url, []), entry)
        if chain:
            chain.hops.append(entry)
        else:
            chain = Chain([entry], url=entry.url)
            chains.append(chain)
        target = target_of(entry) if len(chain.hops) < MOST_HOPS else None
        for url in {target, secure(target)} if target else ():
            waiting.setdefault(url, []).append((chain, len(chain.hops)))
    return chains


def taken(waiting: list[tuple[Chain, int]], entry: Entry) -> Optional[Chain]:
    """The last chain that waits for this entry; those that have gone on meanwhile are forgotten."""
    while waiting and len(waiting[-1][0].hops) != waiting[-1][1]:
        waiting.pop()
    for place in range(len(waiting) - 1, max(-1, len(waiting) - 1 - MOST_WAITING), -1):
        chain, length = waiting[place]
        if len(chain.hops) == length and is_next(chain.last, entry):
            waiting.pop(place)
            return chain
    return None


def is_next(entry: Entry, other: Entry) -> bool:
    """Whether another entry may be the request that follows a redirect."""
    is_alike = all(None in (entry.asked(name), other.asked(name)) or entry.asked(name) == other.asked(name)
                   for name in ("Sec-Fetch-Dest", "Sec-Fetch-Mode"))
    return entry.page == other.page and is_alike and other.method == method_behind(entry) and not entry.error


def method_behind(entry: Entry) -> str:
    """The method of the request that follows a redirect (Fetch, "HTTP-redirect fetch")."""
    is_post = entry.status in (301, 302) and entry.method == "POST"
    is_other = entry.status == 303 and entry.method not in ("GET", "HEAD")
    return "GET" if is_post or is_other else entry.method


def without_internal(chain: Chain) -> Chain:
    """The chain without a redirect that the browser made itself, since the host is a known one."""
    if len(chain.hops) > 1 and chain.first.is_internal_redirect:
        preflights = {number - 1: one for number, one in chain.preflights.items() if number > 0}
        return Chain(chain.hops[1:], preflights, chain.url, True, chain.is_lone_preflight)
    return chain
