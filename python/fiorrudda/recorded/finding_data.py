"""A finding as data: what `--json` prints of it."""
from __future__ import annotations

from typing import Any

from fiorrudda.commands import verdicts
from fiorrudda.commands.there import there
from fiorrudda.recorded.model import Chain
from fiorrudda.recorded.verdicts import (PARTED, PASSED, REFUSED, UNJUDGED, UNREACHED, Finding, explanation_of,
                                         failed_of, is_refused, is_unanswered)


def data_of(finding: Finding) -> dict[str, Any]:
    command, case, chain = finding.command, finding.case, finding.command.chain
    explanation = explanation_of(there(case)) if is_explained(finding) else None
    violations = there(case).violations if case and case.fetch.of("violation") or explanation else []
    enforced = [one for one in violations if one.enforced]
    return {
        "entry": chain.first.number, "entries": [entry.number for entry in chain.entries], "method": chain.first.method,
        "url": chain.url, "kind": command.kind, "mode": command.asked.mode,
        "credentials": "open" if command.asked.is_open else command.asked.credentials,
        "recorded": recorded_of(chain), "status": chain.last.status, "verdict": finding.verdict,
        "failed": finding.is_kept_back or finding.verdict != UNJUDGED and failed_of(chain) is not None,
        "result": case.result.short() if case else None, "certainty": finding.certainty, "how_sure": finding.how_sure,
        "told": finding.told, "rule": finding.rule, "why": explanation.data() if explanation else None,
        "brief": "; ".join([explanation.condition, *verdicts.changes_of(there(case))]) if explanation else None,
        "redirected_to": there(case).url if explanation and there(case).is_redirected else None,
        "directive": enforced[0].directive if enforced and finding.verdict != PASSED else None,
        "policies": [policy.data() for policy in (there(case).policies_told if violations else [])
                     if policy is not explanation],
        "guesses": command.asked.all_guesses,
        "notes": list(dict.fromkeys(finding.notes + (case.notes if case else [])))}


def is_explained(finding: Finding) -> bool:
    """Whether a case says why."""
    case = finding.case
    if case is None or finding.verdict in (REFUSED, UNREACHED):
        return case is not None
    is_parted = finding.verdict == PARTED and is_refused(case, finding.command) and not is_unanswered(case)
    return is_parted or case.result.is_fault


def recorded_of(chain: Chain) -> str:
    """What the recording says came of a chain, in words."""
    statuses = [str(hop.status) for hop in chain.hops if not hop.is_hidden]
    errors_told = [entry.error for entry in chain.entries if entry.error]
    told = " ".join(statuses) if statuses and not chain.last.is_hidden else " ".join([*statuses, "no answer"])
    return told + (f" ({errors_told[0]})" if errors_told else "")
