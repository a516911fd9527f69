"""What changes would change: the same requests are played with them, and what comes otherwise is told, largest group
first."""
from __future__ import annotations

from dataclasses import replace
from typing import Any, Iterator, Optional

from fiorrudda.commands import csp, findings
from fiorrudda.commands.case import Case
from fiorrudda.commands.play_text import header_of
from fiorrudda.commands.results import NETWORK_ERRORS
from fiorrudda.commands.there import there
from fiorrudda.commands.urls import host_of
from fiorrudda.recorded import verdicts
from fiorrudda.recorded.browser_rules import LETS_PASS, STOPS, rule_of
from fiorrudda.recorded.changes import Changes
from fiorrudda.recorded.difference import RESULT, Difference
from fiorrudda.recorded.model import Page
from fiorrudda.recorded.plays import played
from fiorrudda.recorded.rules import Supposed
from fiorrudda.recorded.scenarios import Part
from fiorrudda.recorded.verdicts import Finding

BROKEN, WITH, MENDED, REPORTED = "broken", "goes with it", "mended", "reported"
UPGRADED, OTHERWISE = "upgraded", "sent otherwise"
ORDER = (BROKEN, WITH, REPORTED, MENDED, UPGRADED, OTHERWISE)
STANDARDS = "standards"
WORKED = (verdicts.PASSED,)
DID_NOT = (verdicts.REFUSED, verdicts.UNREACHED)
Judged = list[tuple[Page, list[tuple[Part, list[Finding]]]]]


def of_pages(judged: Judged, changes: Changes, browser: str) -> dict[str, Any]:
    """All differences, and the groups that they make."""
    found = [one for number, (page, parts) in enumerate(judged)
             for one in of_page(number, page, parts, changes, browser)]
    return {"differences": found, "groups": groups_of(found),
            "moved": [{"from": page.url, "to": changes.page_url(page.url)} for page, _ in judged
                      if changes.page_url(page.url) != page.url]}


def of_page(number: int, page: Page, parts: list[tuple[Part, list[Finding]]], changes: Changes,
            browser: str) -> list[dict[str, Any]]:
    found, all_findings = [], []
    for part, own in parts:
        all_findings += own
        after = played_anew(part, own, changes)
        for index, finding in enumerate(own):
            case = after.get(index)
            if case is not None:
                found += [{"page": number, **one} for one in of_command(finding, case, page, browser)]
    return found + [{"page": number, **one} for one in gone_with(found, all_findings)]


def played_anew(part: Part, findings: list[Finding], changes: Changes) -> dict[int, Case]:
    """What the commands of a part come to with changes, by their numbers: each as its finding was played."""
    numbers: dict[Supposed, set[int]] = {}
    for number, finding in enumerate(findings):
        if finding.case is not None:
            numbers.setdefault(finding.supposed, set()).add(number)
    return {number: case for supposed, wanted in numbers.items()
            for number, case in played(part, supposed, changes, wanted).cases.items()}


def of_command(finding: Finding, after: Case, page: Page, browser: str) -> Iterator[dict[str, Any]]:
    """What is otherwise of one request."""
    if finding.verdict in DID_NOT:
        yield from of_failure(finding, after)
    elif finding.verdict in WORKED:
        is_refused = verdicts.is_refused(after, finding.command) and not verdicts.is_unanswered(after)
        yield from broken(finding, after, page, browser) if is_refused else passing(finding, after, page, browser)
        for directive in sorted(reporting(there(after)) - reporting(there(finding.case))):
            yield difference(REPORTED, finding, after, directive=directive)


def of_failure(finding: Finding, after: Case) -> Iterator[dict[str, Any]]:
    """A request that was refused, and is no more."""
    if not verdicts.is_refused(there(finding.case), finding.command):
        return
    if verdicts.is_unanswered(after):
        told = f"{after.asked_url} is asked then, of which no answer is recorded"
        yield difference(MENDED, finding, there(finding.case), told)
    elif not verdicts.is_refused(after, finding.command):
        yield difference(MENDED, finding, there(finding.case))


def broken(finding: Finding, after: Case, page: Page, browser: str) -> Iterator[dict[str, Any]]:
    """A request that is refused now; perhaps the browser is known to let it pass."""
    rule = rule_of(Difference(RESULT, replace(finding, case=after), page, after.url), browser, LETS_PASS)
    yield {**difference(BROKEN, finding, after), "by": STANDARDS, "rule": rule.name if rule else None}


def passing(finding: Finding, after: Case, page: Page, browser: str) -> Iterator[dict[str, Any]]:
    """A request that still passes, by other URLs or headers perhaps, or that the browser alone stops."""
    rule = stopped_by(finding, after, page, browser)
    if rule and not stopped_by(finding, there(finding.case), page, browser):
        yield {**difference(BROKEN, finding, after, "the standards let it pass, and the browser does not",
                            directive_of_policies(finding, after)), "by": browser, "rule": rule}
        return
    urls = [url for url in findings.upgrades(there(after)) if url not in findings.upgrades(there(finding.case))]
    if urls:
        yield difference(UPGRADED, finding, after, f"{urls[0]} is asked then: whether it answers is not recorded")
    if there(after).page_origin == there(finding.case).page_origin:
        for name, value in sent_otherwise(there(finding.case), after):
            yield difference(OTHERWISE, finding, after, f"{name}: {value or '(none)'}", name)


def directive_of_policies(finding: Finding, case: Case) -> str:
    """The directive by which the first enforced policy decides over a request."""
    effective = csp.EFFECTIVE[finding.command.kind]
    return next((csp.deciding(policy, effective)[0] for is_enforced, policy in case.policies if is_enforced), "")


def sent_otherwise(before: Case, after: Case) -> Iterator[tuple[str, Optional[str]]]:
    """The Referer and the Origin of the first request, where another one is sent."""
    if before.chain and after.chain:
        for name in ("Referer", "Origin"):
            value = header_of(after.chain[0][0], name)
            if value != header_of(before.chain[0][0], name):
                yield name, value


def stopped_by(finding: Finding, case: Case, page: Page, browser: str) -> Optional[str]:
    """The rule by which the browser, where it is known, alone stops a request; None where it does not."""
    rule = browser and rule_of(Difference(RESULT, replace(finding, case=case), page, case.url), browser, STOPS)
    return rule.name if rule else None


def reporting(case: Case) -> set[str]:
    """The directives of report-only policies that it violates."""
    return {case.of_violation(one).directive[0] for one in case.violations if not one.enforced}


def difference(kind: str, finding: Finding, case: Case, told: str = "", directive: str = "") -> dict[str, Any]:
    """One of them; `case` is the refused one, before or after."""
    explanation = verdicts.explanation_of(case) if kind in (BROKEN, MENDED) else None
    first = finding.chain.first
    return {"kind": kind, "entry": first.number, "method": first.method, "url": finding.chain.url,
            "load": finding.command.kind, "directive": directive or directive_of(case, kind),
            "host": host_of(case.url) or finding.chain.url.partition(":")[0] + ":",
            "why": explanation.condition if explanation else "", "way": explanation.way if explanation else "",
            "told": told, "guesses": finding.command.asked.guesses}


def directive_of(case: Case, kind: str) -> str:
    """The directive that decides, or the name of the result."""
    if kind == UPGRADED:
        return "https"
    refusing = next((one for one in case.violations if one.enforced), None)
    number = case.result.number
    is_by_policy = refusing is not None and (number in (4, 19) or case.is_unloaded)
    if is_by_policy:
        return case.of_violation(there(refusing)).directive[0]
    return NETWORK_ERRORS[number - 1] if number else ""


def gone_with(found: list[dict[str, Any]], all_findings: list[Finding]) -> list[dict[str, Any]]:
    """What is not asked any more, since what asked for it is refused: by the initiator, or the Referer of a style. What
    is refused itself is told of its asker."""
    broken = {one["entry"] for one in found if one["kind"] == BROKEN}
    askers = {finding.chain.first.number: urls_of(finding) for finding in all_findings
              if finding.command.kind in ("script", "style")}
    causes = {url: number for number in broken for url in askers.get(number, ())}
    gone: list[dict[str, Any]] = []
    is_more = bool(causes)
    while is_more:
        is_more = False
        for finding in all_findings:
            number = finding.chain.first.number
            cause = next((causes[url] for url in asked_by(finding) if url in causes), None)
            if cause is None or number in broken or finding.verdict not in WORKED:
                continue
            broken.add(number)
            gone.append({**difference(WITH, finding, there(finding.case)), "cause": cause})
            for url in askers.get(number, ()):
                causes[url] = number
                is_more = True
    add_askers(found, {finding.chain.first.number: asked_by(finding) for finding in all_findings}, causes)
    return gone


def add_askers(found: list[dict[str, Any]], asked: dict[int, list[str]], causes: dict[str, int]) -> None:
    """Tells of each request that is refused whether what asks for it is refused too, so that a browser makes it not."""
    for one in found:
        numbers = [causes[url] for url in asked.get(one["entry"], ()) if url in causes and causes[url] != one["entry"]]
        if one["kind"] == BROKEN and numbers:
            one["asked_by"] = numbers[0]


def urls_of(finding: Finding) -> list[str]:
    return [finding.chain.url.partition("#")[0], *(hop.bare_url for hop in finding.chain.hops)]


def asked_by(finding: Finding) -> list[str]:
    """The URLs of what may have asked: a script, or a style that its Referer names."""
    entry = finding.chain.first
    return [url.partition("#")[0] for url in (entry.initiator, entry.asked("Referer") or "") if url]


def groups_of(found: list[dict[str, Any]]) -> list[dict[str, Any]]:
    """By kind, directive and host, the largest first."""
    groups: dict[tuple[str, str, str], list[int]] = {}
    for place, one in enumerate(found):
        groups.setdefault((one["kind"], one["directive"], one["host"]), []).append(place)
    listed = [{"kind": kind, "directive": directive, "host": host, "count": len(places), "differences": places}
              for (kind, directive, host), places in groups.items()]
    return sorted(listed, key=lambda one: (ORDER.index(one["kind"]), -one["count"], one["directive"], one["host"]))


def breaks(found: dict[str, Any]) -> bool:
    """Whether something breaks that has worked."""
    return any(one["kind"] == BROKEN for one in found.get("differences", []))
