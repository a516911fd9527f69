"""Judges a recording: plays each page, and says what came of each request and why. `judge` is a pure function of a
recording and changes, so it can be mapped over many."""
from __future__ import annotations

from collections import Counter
from typing import Any, Sequence

from fiorrudda.commands import whole_policies
from fiorrudda.commands.case import Case
from fiorrudda.commands.there import there
from fiorrudda.recorded import (cors_headers, differences, doubts, finding_data, hsts_hosts, least, parts as parting,
                                replaying, verdicts)
from fiorrudda.recorded.changes import NONE, Changes
from fiorrudda.recorded.commands_of import Command
from fiorrudda.recorded.model import Page, Recording
from fiorrudda.recorded.plays import played
from fiorrudda.recorded.rules import Supposed, is_preflightable
from fiorrudda.recorded.scenarios import Part, parts_of
from fiorrudda.recorded.verdicts import ANEW, ANEW_OTHER, BARE, OTHER, Cases, Finding

PARTS = ("a page of %d requests is played in %d parts: the preflight cache is empty at the beginning of each")


def judge(recording: Recording, changes: Changes = NONE) -> dict[str, Any]:
    """All that is said of a recording; with changes, what they would change."""
    found = {"browser": recording.browser, "creator": recording.creator, "entries": recording.count,
             **unread(recording)}
    judged = judged_pages(recording)
    found["pages"] = [page_data(page, own, recording) for page, own in judged]
    if changes:
        found["changes"] = changes.told()
        found["warnings"] = doubts.of_changes(changes, recording.pages[0].url) if recording.pages else []
        found.update(differences.of_pages(judged, changes, recording.browser))
    return found


def suggest(recording: Recording, by: str, has_inline: bool = False, more: Sequence[Recording] = ()) -> dict[str, Any]:
    """The least policy under which all that was recorded passes, here and in more recordings of the site."""
    each = [judged_pages(one) for one in (recording, *more)]
    sources = [number for number, own in enumerate(each) for _ in own] if more else []
    return {"suggested": least.suggested([page for own in each for page in own], by, has_inline, sources)}


def suggest_cors(recording: Recording, origin: str, changes: Changes = NONE) -> dict[str, Any]:
    """The least headers by which the requests pass that CORS refuses pages of an origin; raises cors_headers.NoPage."""
    judged = replaying.replayed(judged_pages(recording), changes)
    return {"suggested_cors": {**cors_headers.suggested(judged, origin, changes), **unread(recording)}}


def suggest_hsts(recording: Recording, changes: Changes = NONE) -> dict[str, Any]:
    """What breaks where the pages' hosts are known to want https, and which header is safe to send."""
    judged = replaying.replayed(judged_pages(recording), changes)
    return {"suggested_hsts": {**hsts_hosts.suggested(judged, recording, changes), **unread(recording)}}


def judged_pages(recording: Recording) -> differences.Judged:
    """Each page with its parts, and what is said of their commands."""
    return [(page, [(part, findings_of(part, recording)) for part in parts_of(page)]) for page in recording.pages]


def unread(recording: Recording) -> dict[str, Any]:
    """What could not be read of a recording."""
    return {"bad": [{"entry": number, "sentence": sentence} for number, sentence in recording.bad],
            "notes": recording.notes}


def findings_of(part: Part, recording: Recording) -> list[Finding]:
    """What is said of each command of a part."""
    plain = played(part)
    cases = [Cases(plain.cases.get(number), plain.problems.get(number, "")) for number in range(len(part.commands))]
    add_suppositions(part, cases, recording.tells_errors)
    findings = [verdicts.verdict(command, own, recording.tells_errors) for command, own in zip(part.commands, cases)]
    for finding in findings:
        parting.settle(finding, part.page, recording)
    return findings


def add_suppositions(part: Part, cases: list[Cases], tells_errors: bool) -> None:
    """Plays once more what may have been otherwise: with credentials, where nothing says that it passed without; and
    with a bare answer in the place of a hidden one."""
    commands = [(number, command) for number, command in enumerate(part.commands) if cases[number].plain is not None]
    refused = {number for number, command in commands if verdicts.is_refused(there(cases[number].plain), command)}
    failed = {number for number, command in commands if verdicts.failed_of(command.chain) is not None}
    is_open = {number for number, command in commands if command.asked.is_open}
    unsure = refused | failed if tells_errors else is_open
    unsure -= {number for number in refused if is_bare(there(cases[number].plain), part.commands[number])}
    again = {number for number in failed
             if verdicts.lacks_preflight(there(cases[number].plain), part.commands[number].chain)}
    hidden = {number for number in failed - refused if part.commands[number].chain.last.is_hidden}
    add(cases, part, OTHER, "other", is_open & unsure)
    add(cases, part, ANEW, "anew", again)
    add(cases, part, ANEW_OTHER, "anew_other", again & is_open)
    add(cases, part, BARE, "bare", hidden)


def is_bare(case: Case, command: Command) -> bool:
    """Whether the only answer has no Access-Control-Allow-Origin: it is refused with credentials and without."""
    is_alone = len(case.exchanges) == 1 and not is_preflightable(command, 0)
    return is_alone and case.result.number == 12 and verdicts.way_of(case).startswith("cors/absent")


def add(cases: list[Cases], part: Part, supposed: Supposed, name: str, wanted: set[int]) -> None:
    """Plays a part once more, where there are such commands."""
    if wanted:
        found = played(part, supposed, wanted=wanted)
        for number in wanted:
            setattr(cases[number], name, found.cases.get(number))


# ---- a page

def page_data(page: Page, judged: list[tuple[Part, list[Finding]]], recording: Recording) -> dict[str, Any]:
    findings = [finding for _, own in judged for finding in own]
    notes = list(page.notes)
    if len(judged) > 1:
        notes.append(PARTS % (len(findings), len(judged)))
    parted = parting.of_findings(findings, page, recording)
    doubted = doubts.of_page(page)
    return {
        "url": page.url, "top": page.top, "entry": page.entry.number if page.entry else None,
        "entries": count_of(page), "verdict": verdict_of(findings),
        "findings": [finding_data.data_of(finding) for finding in findings],
        "policies": policies_of(findings), "parts": parted,
        "left_out": [{"entry": entry.number, "url": entry.url, "why": why} for entry, why in page.left_out],
        "warnings": doubted.warnings, "lints": doubted.lints, "policy_count": doubted.policy_count, "notes": notes}


def policies_of(findings: list[Finding]) -> list[str]:
    """The page's policies for which several changes are named, with all of them, where a policy refused something.
    What parted is left out: the browser did not ask the policy so."""
    failed = [there(finding.case) for finding in findings if finding.verdict in (verdicts.REFUSED, verdicts.UNREACHED)]
    if not any(one.enforced for case in failed for one in case.violations):
        return []
    passed = [there(finding.case) for finding in findings if finding.verdict == verdicts.PASSED]
    wholes = whole_policies.whole(failed[0].scenario, 0, failed + passed)
    return [one.sentence() for one in wholes if one.is_told and not one.is_same]


def count_of(page: Page) -> int:
    """How many entries of the recording are a page's, without its own."""
    return len(page.left_out) + sum(len(chain.entries) - chain.is_lone_preflight for chain in page.chains)


def verdict_of(findings: list[Finding]) -> str:
    """The page's verdict, in a line."""
    counts = Counter(finding.verdict for finding in findings)
    told = [f"{counts[key]} {words}" for key, words in verdicts.WORDS.items() if counts[key]]
    if not told:
        return "all passed" if findings else "it asked for nothing that is played"
    return ", ".join([*told, f"{counts[verdicts.PASSED]} passed"])


def fails(found: dict[str, Any]) -> bool:
    """Whether a request failed, or never reached its page."""
    return any(is_failure(one) for page in found["pages"] for one in page["findings"])


def is_failure(finding: dict[str, Any]) -> bool:
    return finding["failed"] or finding["verdict"] in (verdicts.REFUSED, verdicts.UNREACHED)
