"""The least headers by which the requests pass that CORS refuses pages of an origin: cors_search.py finds them; here
they are put into groups, shown to be enough by a play of the whole pages, and least, by plays without each of them."""
from __future__ import annotations

from dataclasses import dataclass, field
from typing import Any, Iterator, Mapping, Optional

from fiorrudda.commands.case import Case
from fiorrudda.commands.needs import ALLOW_CREDENTIALS, ALLOW_ORIGIN, VARY
from fiorrudda.commands.scenario import origin_of
from fiorrudda.commands.there import there
from fiorrudda.recorded import differences, finding_data, verdicts
from fiorrudda.recorded.changes import Changes
from fiorrudda.recorded.cors_search import CORS, Search, bare_of, is_by_cors, runs_of
from fiorrudda.recorded.differences import BROKEN, DID_NOT, Judged
from fiorrudda.recorded.lacks import LISTS, STATUS, Key, Lack, value_of, with_lack
from fiorrudda.recorded.plays import played
from fiorrudda.recorded.rules import Supposed
from fiorrudda.recorded.verdicts import Finding
from fiorrudda.recorded.whereabouts import pattern_of

FOR_CACHES = "a cache that keeps the answer would give it to pages of other origins too"
UNPLAYED = "it could not be played with them"
ASKED_THEN = "%s is asked then, of which no answer is recorded: each answer of a chain is checked"
FOR_ALL = "`*` lets pages of all origins read it, without credentials: else let the page ask for the last URL itself"
Place = tuple[str, str]  # origin and request target


class NoPage(Exception):
    """Why an origin is none of a recorded page, in a sentence."""


@dataclass
class Group:
    """Answers of one origin that lack the same: `places` are their URLs, `lacks` what is lacked by method, and
    `proofs` the refusals without each."""

    places: list[Place]
    lacks: dict[str, list[Lack]]
    proofs: dict[tuple[str, Lack], dict[str, Any]] = field(default_factory=dict)

    def keys(self, method: str) -> set[Key]:
        return {(origin, method, target) for origin, target in self.places}

    @property
    def all_keys(self) -> set[Key]:
        return {key for method in self.lacks for key in self.keys(method)}


def suggested(judged: Judged, origin: str, changes: Changes) -> dict[str, Any]:
    """All that is said of an origin; `judged` is as the changes have made it."""
    own = of_origin(judged, origin, changes)
    findings = [finding for _, parts in own for _, findings in parts for finding in findings]
    search = Search(changes, list(runs_of(own, changes)))
    search.run(own)
    groups = groups_of(search)
    for group in groups:
        prune(group, search)
    search.fill_with_credentials()
    outcomes = list(outcomes_of(own, search))
    refused = sum(map(is_by_cors, findings))
    return {"origin": origin, "changes": changes.told(), "refused": refused, "passing": refused - len(outcomes),
            "groups": [data_of(group, search) for group in groups if group.lacks],
            **{name: [own for is_open, own in outcomes if is_open == (name == "open")] for name in ("open", "left")},
            "broken": broken_by(own, search),
            "others": [finding_data.data_of(one) for one in findings if is_other(one)]}


def is_other(finding: Finding) -> bool:
    """Whether a request is told as bin/har tells it: refused by another rule, or by CORS where the browser let it
    pass."""
    is_parted = finding.verdict == verdicts.PARTED and finding.case is not None and finding.case.result.number in CORS
    return is_parted or finding.verdict in DID_NOT and not is_by_cors(finding)


def of_origin(judged: Judged, origin: str, changes: Changes) -> Judged:
    """The pages of an origin; raises NoPage."""
    origins = [origin_of(changes.page_url(page.url)) for page, _ in judged]
    if origin not in origins:
        named = ", ".join(dict.fromkeys(filter(None, origins)))
        what = f"they are of {named}" if named else "it has none"
        raise NoPage(f"no page of the recording is of {origin}: {what}")
    return [one for one, own in zip(judged, origins) if own == origin]


# ---- groups

def groups_of(search: Search) -> list[Group]:
    """The URLs of one origin whose answers lack the same, the most first."""
    by_place: dict[Place, dict[str, list[Lack]]] = {}
    for (origin, method, target), own_lacks in search.lacks.items():
        by_place.setdefault((origin, target), {})[method] = list(own_lacks)
    found: dict[Any, Group] = {}
    for place, lacks in by_place.items():
        alike = (place[0], repr([(method, told(search, place, method, own)) for method, own in sorted(lacks.items())]))
        found.setdefault(alike, Group([], lacks)).places.append(place)
    return sorted(found.values(), key=lambda group: (-len(group.places), group.places[0]))


def told(search: Search, place: Place, method: str, lacks: list[Lack]) -> list[dict[str, Any]]:
    """The headers that an answer is to have, whole, each with what it replaces."""
    key = (place[0], method, place[1])
    found: dict[str, dict[str, Any]] = {}
    headers, entry = search.headers_of(key), search.entries.get(key)
    for lack in lacks:
        status = str(entry.status) if entry else None
        before = status if lack.name == STATUS else value_of(headers, lack.name)
        own = found.setdefault(lack.name, {"name": lack.name, "value": before, "replaces": before, "items": []})
        own["value"] = with_lack(own["value"], lack)
        own["items"] += [lack.value] if lack.name in LISTS and lack.value else []
    return [{**one, "recorded": entry is not None} for one in found.values()]


def prune(group: Group, search: Search) -> None:
    """Takes out what no request needs, and keeps of the others the refusal that there is without them."""
    for method, lacks in list(group.lacks.items()):
        keys = group.keys(method)
        for lack in [one for one in lacks if one.name != VARY]:
            proof = search.refused_without(keys, [lack])
            if proof:
                group.proofs[method, lack] = proof
            else:
                search.drop(keys, [lack])
                lacks.remove(lack)
        if not any(one.name == ALLOW_ORIGIN for one in lacks):
            search.drop(keys, [one for one in lacks if one.name == VARY])
            group.lacks[method] = [one for one in lacks if one.name != VARY]
        if not group.lacks[method]:
            del group.lacks[method]


# ---- plays of the whole

def outcomes_of(own: Judged, search: Search) -> Iterator[tuple[bool, dict[str, Any]]]:
    """The requests that CORS refuses and that do not pass with the headers either, and why; before each whether it
    goes on to what is not recorded."""
    for part, findings in [one for _, parts in own for one in parts]:
        after: dict[Supposed, Mapping[int, Case]] = {}
        for number, finding in enumerate(findings):
            if is_by_cors(finding):
                supposed = bare_of(finding)
                if supposed not in after:
                    after[supposed] = played(part, supposed, search.changed()).cases
                outcome = outcome_of(finding, after[supposed].get(number))
                if outcome:
                    named = {"entry": finding.chain.first.number, "url": finding.chain.url}
                    yield outcome[0], {**named, "why": outcome[1], "change": outcome[2]}


def outcome_of(finding: Finding, case: Optional[Case]) -> Optional[tuple[bool, str, str]]:
    """Whether it goes on to what is not recorded, why it does not pass, and what to change; None where it passes."""
    if case is None:
        return False, UNPLAYED, ""
    if verdicts.is_unanswered(case):
        return True, ASKED_THEN % case.asked_url, ""
    if not verdicts.is_refused(case, finding.command):
        return None
    explanation = verdicts.explanation_of(case)
    return False, there(explanation).condition, there(explanation).change


def broken_by(own: Judged, search: Search) -> list[dict[str, Any]]:
    """What passes now, and would be refused with the headers."""
    found = differences.of_pages(own, search.changed(), "")["differences"] if search.lacks else []
    return [{"entry": one["entry"], "url": one["url"], "why": one["why"]} for one in found if one["kind"] == BROKEN]


# ---- data

def data_of(group: Group, search: Search) -> dict[str, Any]:
    """A group as data: its answers, each with its headers and the refusal that there is without one."""
    askers = search.askers(group.all_keys)
    return {"urls": pattern_of([origin + target for origin, target in group.places]),
            "entries": numbers_of(askers), "how_sure": unsure(askers),
            "answers": [{"method": method, "entries": numbers_of(search.askers(group.keys(method))),
                         "headers": list(headers_of(group, method, search))}
                        for method in sorted(group.lacks, key=lambda one: one != "OPTIONS")],
            "notes": list(notes_of(group, search))}


def numbers_of(askers: list[Finding]) -> list[int]:
    return sorted({finding.chain.first.number for finding in askers})


def unsure(askers: list[Finding]) -> list[dict[str, str]]:
    """How sure the refusals are, of those that are not."""
    found = dict.fromkeys((finding.certainty, finding.how_sure) for finding in askers if finding.certainty != "sure")
    return [{"certainty": certainty, "how_sure": how_sure} for certainty, how_sure in found]


def headers_of(group: Group, method: str, search: Search) -> Iterator[dict[str, Any]]:
    """The headers of an answer; of a list that gets several items each has its own refusal."""
    for one in told(search, group.places[0], method, group.lacks[method]):
        own = [lack for lack in group.lacks[method] if lack.name == one["name"]]
        if one["name"] == VARY:
            yield {**one, "without": None, "for": FOR_CACHES}
            continue
        whole = group.proofs[method, own[0]] if len(own) == 1 else search.refused_without(group.keys(method), own)
        items = [{"item": lack.value, **group.proofs[method, lack]} for lack in own]
        yield {**one, "without": whole, "items": items if len(own) > 1 else []}


def notes_of(group: Group, search: Search) -> Iterator[str]:
    """What may be otherwise, or more."""
    moved = [old for old, _ in search.changes.origins]
    for method, lacks in group.lacks.items():
        headers = told(search, group.places[0], method, lacks)
        before = [one["replaces"] for one in headers if one["name"] == ALLOW_ORIGIN]
        yield from (f"pages of {value} go on to get theirs: answer by the request's Origin"
                    for value in before if value and origin_of(value) == value and value not in moved)
        yield from [FOR_ALL] if Lack(ALLOW_ORIGIN, "*") in lacks else []
    more = {(lack.name, lack.value): None for key in group.all_keys for lack in search.more[key]
            if lack not in search.lacks[key] and lack.name in (ALLOW_ORIGIN, ALLOW_CREDENTIALS)}
    if more:
        named = " and ".join(f"`{name}: {value}`" for name, value in more)
        yield f"asked with credentials, which the recording would not show: {named} too"
