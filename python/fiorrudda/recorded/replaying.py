"""The findings of a recording as they would be with changes: what a suggestion is made for."""
from __future__ import annotations

from dataclasses import replace
from typing import Iterator

from fiorrudda.commands.case import Case
from fiorrudda.commands.there import there
from fiorrudda.recorded import verdicts
from fiorrudda.recorded.changes import Changes
from fiorrudda.recorded.differences import DID_NOT, WORKED, Judged, played_anew
from fiorrudda.recorded.scenarios import Part
from fiorrudda.recorded.verdicts import Finding

BY_CHANGES = "with the changes it is refused so, and without them it passed"
UNKNOWN = "%s is asked then, of which no answer is recorded"


def replayed(judged: Judged, changes: Changes) -> Judged:
    """The same pages, each finding with what it comes to under changes."""
    if not changes:
        return judged
    return [(page, [(part, list(of_part(part, own, changes))) for part, own in parts]) for page, parts in judged]


def of_part(part: Part, findings: list[Finding], changes: Changes) -> Iterator[Finding]:
    after = played_anew(part, findings, changes)
    for index, finding in enumerate(findings):
        case = after.get(index) if finding.verdict in (*WORKED, *DID_NOT) else None
        yield finding if case is None else of_command(finding, case)


def of_command(finding: Finding, case: Case) -> Finding:
    was_refused = verdicts.is_refused(there(finding.case), finding.command)
    if verdicts.is_unanswered(case):
        return Finding(finding.command, verdicts.OPEN, case, told=UNKNOWN % case.asked_url, supposed=finding.supposed)
    is_refused = verdicts.is_refused(case, finding.command)
    if is_refused and not was_refused:
        return replace(finding, verdict=verdicts.REFUSED, case=case, how_sure=BY_CHANGES)
    if was_refused and not is_refused:
        return Finding(finding.command, verdicts.PASSED, case, supposed=finding.supposed)
    return replace(finding, case=case)
