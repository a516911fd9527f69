"""Finds what answers lack that CORS refuses: the requests are played, each time with what the last play lacked, until
they lack nothing more; then without each of these things alone, and what is refused then is its proof."""
from __future__ import annotations

from dataclasses import dataclass, field, replace
from typing import Any, Iterable, Iterator, Optional

from fiorrudda.commands.case import Case
from fiorrudda.commands.needs import ALLOW_HEADERS, ALLOW_METHODS, ALLOW_ORIGIN, KEPT_METHODS, VARY, Needs, items_of
from fiorrudda.commands.play_text import is_preflight
from fiorrudda.commands.there import there
from fiorrudda.recorded import verdicts
from fiorrudda.recorded.changes import Changes, Pairs
from fiorrudda.recorded.differences import DID_NOT, WORKED, Judged
from fiorrudda.recorded.lacks import LISTS, STATUS, Key, Lack, Lacks, value_of
from fiorrudda.recorded.model import Entry
from fiorrudda.recorded.plays import played
from fiorrudda.recorded.rules import Supposed
from fiorrudda.recorded.scenarios import Part
from fiorrudda.recorded.verdicts import Finding

CORS = range(7, 13)  # the numbers of the results by which CORS refuses
MOST_ROUNDS = 300  # of a search: 20 redirects, each with all that a preflight and its request may lack
Cases = list[tuple[Finding, Optional[Case]]]


@dataclass
class Run:
    """Requests of a part that CORS refuses, played together. `numbers` are their places in the part, and `keys` the
    answers by their findings' numbers that lack something. One that is whole plays all other requests of its part."""

    part: Part
    supposed: Supposed
    findings: list[Finding]
    numbers: list[int]
    is_whole: bool = False
    keys: dict[int, set[Key]] = field(default_factory=dict)

    def cases(self, changes: Changes) -> Cases:
        found = played(self.part, self.supposed, changes).cases
        return [(finding, found.get(number)) for finding, number in zip(self.findings, self.numbers)]

    def of(self, places: list[int]) -> Run:
        """The same of some of its findings, without the others where it is not whole."""
        findings, numbers = [self.findings[place] for place in places], [self.numbers[place] for place in places]
        if self.is_whole:
            return replace(self, findings=findings, numbers=numbers)
        small = replace(self.part, commands=[self.part.commands[number] for number in numbers])
        return replace(self, part=small, findings=findings, numbers=list(range(len(places))))

    def about(self, keys: set[Key]) -> Optional[Run]:
        """The same of those that lacked something of these answers; None where there is none."""
        places = [place for place in range(len(self.findings)) if keys & self.keys.get(place, set())]
        return self.of(places) if places else None


def is_by_cors(finding: Finding) -> bool:
    return finding.verdict in DID_NOT and is_refused(finding.case, finding)


def is_refused(case: Optional[Case], finding: Finding) -> bool:
    """Whether a case is refused by CORS, by an answer that is recorded or supposed."""
    if case is None or case.result.is_fault or case.result.number not in CORS:
        return False
    return verdicts.is_refused(case, finding.command) and not verdicts.is_unanswered(case)


def bare_of(finding: Finding) -> Supposed:
    """As it was played, a hidden answer taken for a bare one."""
    return replace(finding.supposed, bare=True)


def runs_of(judged: Judged, changes: Changes) -> Iterator[Run]:
    """The refused requests of each part. They are played without the others, where CORS refuses them so, too."""
    for part, findings in [one for _, parts in judged for one in parts]:
        refused = [number for number, finding in enumerate(findings) if is_by_cors(finding)]
        for supposed in dict.fromkeys(bare_of(findings[number]) for number in refused):
            places = [number for number in refused if bare_of(findings[number]) == supposed]
            run = Run(part, supposed, findings, list(range(len(findings)))).of(places)
            is_alike = all(is_refused(case, finding) for finding, case in run.cases(changes))
            yield run if is_alike else Run(part, supposed, run.findings, places, True)


def runs_without_star(judged: Judged, changes: Changes) -> Iterator[Run]:
    """The requests that pass now by a `*` in whose place names are to stand."""
    if not any(lack.is_named for lacks in changes.lacks.values() for lack in lacks):
        return
    for part, findings in [one for _, parts in judged for one in parts]:
        for supposed in dict.fromkeys(finding.supposed for finding in findings if finding.verdict in WORKED):
            cases = played(part, supposed, changes).cases
            numbers = [number for number, finding in enumerate(findings) if finding.verdict in WORKED
                       and finding.supposed == supposed and is_refused(cases.get(number), finding)]
            if numbers:
                yield Run(part, supposed, [findings[number] for number in numbers], numbers, True)


# ---- what a play lacks

def lacking(case: Case) -> Iterator[Lack]:
    """What the last answer of a refused request lacks."""
    number, names = case.result.number, case.needs.names
    if number in (7, 12):
        yield from of_check(case)
    elif number == 8:
        yield Lack(STATUS, "204")
    elif number == 9:
        yield Lack(case.list_name, "", case.includes)
    elif number == 10:
        yield Lack(ALLOW_METHODS, case.method, case.includes)
    else:
        there, is_free = [name.lower() for name in case.names], "*" in case.names and not case.includes
        yield from (Lack(ALLOW_HEADERS, name, case.includes) for name in names
                    if name not in there and not (is_free and name != "authorization"))


def of_check(case: Case) -> Iterator[Lack]:
    """What the CORS check wants. For the origin `null`, which any page may have, `*` is the only good value, and there
    is none with credentials."""
    if case.origin == "null" and case.includes:
        return
    needs = Needs(case.asked_url, case.origin, case.includes, case.method, [])
    for name, value in needs.of_check(case.head):
        value = "*" if value == "null" else value
        if case.get(name) != value:
            yield Lack(name, value or "")


def added(there: tuple[Lack, ...], more: Iterable[Lack]) -> tuple[Lack, ...]:
    """All of it. Where one request wants `*` and another its origin, the origin stays; and of items that names stand in
    the place of `*`."""
    for lack in more:
        is_item = lack.name in LISTS
        same = [one for one in there if one.name == lack.name and (one.value == lack.value or not is_item)]
        if lack in there or same and (not lack.is_named if is_item else lack.value == "*"):
            continue
        there = (*(one for one in there if one not in same), lack)
    return there


def entry_of(case: Case, finding: Finding) -> Optional[Entry]:
    """The entry whose answer decided; None where none is recorded."""
    chain, number = finding.chain, len(case.chain) - (not is_preflight(case.request))
    hop = chain.hops[number] if number < len(chain.hops) else None
    entry = chain.preflights.get(number) if is_preflight(case.request) else hop
    return None if entry is None or entry.is_hidden else entry


class Search:
    """What the answers that the runs ask for lack: `lacks` by the answer, and the recorded answers, which have less."""

    def __init__(self, changes: Changes, runs: list[Run]):
        self.changes = changes
        self.runs = runs
        self.lacks: Lacks = {}
        self.entries: dict[Key, Entry] = {}
        self.more: Lacks = {}  # what they lack, had the requests credentials
        self.passed: set[int] = set()

    def run(self, judged: Judged) -> None:
        for run in self.runs:
            self.fill(run, self.lacks)
        for run in list(runs_without_star(judged, self.changed())):
            self.runs.append(run)
            self.fill(run, self.lacks)
        for key, lacks in self.lacks.items():
            self.lacks[key] = (*lacks, *self.of_vary(key, lacks))
        self.passed = {id(finding) for run in self.runs for finding, case in run.cases(self.changed())
                       if case is not None and (verdicts.is_unanswered(case)
                                                or not verdicts.is_refused(case, finding.command))}

    def changed(self, lacks: Optional[Lacks] = None) -> Changes:
        return replace(self.changes, lacks=self.lacks if lacks is None else lacks)

    def fill(self, run: Run, lacks: Lacks) -> None:
        """Adds what the requests of a run lack, until a play lacks nothing more."""
        for _ in range(MOST_ROUNDS):
            is_more = False
            for place, (finding, case) in enumerate(run.cases(self.changed(lacks))):
                if is_refused(case, finding):
                    is_more |= self.add(run, place, there(case), lacks)
            if not is_more:
                return

    def add(self, run: Run, place: int, case: Case, lacks: Lacks) -> bool:
        """Adds what one request lacks; whether that is more than was known."""
        key = (case.request.origin, case.request.method, case.request.target)
        there = lacks.get(key, ())
        all_of_it = added(there, lacking(case))
        if all_of_it:
            lacks[key] = all_of_it
            run.keys.setdefault(place, set()).add(key)
        entry = entry_of(case, run.findings[place])
        if entry:
            self.entries.setdefault(key, entry)
        return all_of_it != there

    def of_vary(self, key: Key, lacks: tuple[Lack, ...]) -> list[Lack]:
        """That caches keep an answer for one origin alone, where they may keep it at all."""
        allowed = next((lack.value for lack in lacks if lack.name == ALLOW_ORIGIN), "*")
        headers = self.headers_of(key)
        is_kept = "no-store" not in items_of((value_of(headers, "Cache-Control") or "").lower())
        is_there = {"origin", "*"} & set(items_of((value_of(headers, VARY) or "").lower()))
        return [Lack(VARY, "Origin")] if allowed != "*" and key[1] in KEPT_METHODS and is_kept and not is_there else []

    def headers_of(self, key: Key) -> Pairs:
        """The headers that an answer has; none where it is not recorded."""
        entry = self.entries.get(key)
        return self.changes.of_answer(key[0] + key[2], entry.got) if entry else []

    def askers(self, keys: set[Key]) -> list[Finding]:
        """The requests that lacked something of these answers."""
        runs = filter(None, (run.about(keys) for run in self.runs))
        return [finding for run in runs for finding in run.findings]

    # ---- plays without something

    def refused_without(self, keys: set[Key], gone: list[Lack]) -> Optional[dict[str, Any]]:
        """A request that passes with all of it, and is refused without this; None where there is none."""
        left = {key: tuple(one for one in lacks if key not in keys or one not in gone)
                for key, lacks in self.lacks.items()}
        for run in filter(None, (run.about(keys) for run in self.runs)):
            for finding, case in run.cases(self.changed(left)):
                if id(finding) in self.passed and is_refused(case, finding):
                    return {"entry": finding.chain.first.number, "url": finding.chain.url,
                            "way": verdicts.way_of(there(case)), "result": there(case).result.short(),
                            "why": there(verdicts.explanation_of(there(case))).condition}
        return None

    def drop(self, keys: set[Key], gone: list[Lack]) -> None:
        for key in keys:
            left = tuple(one for one in self.lacks[key] if one not in gone)
            self.lacks[key] = left

    def fill_with_credentials(self) -> None:
        """Searches once more, as if the requests had credentials of which the recording cannot tell."""
        self.more = dict(self.lacks)
        for run in self.runs:
            opened = [place for place, finding in enumerate(run.findings) if finding.command.asked.is_open]
            if opened and not run.supposed.other_credentials:
                other = replace(run.of(opened), supposed=replace(run.supposed, other_credentials=True), keys={})
                self.fill(other, self.more)
