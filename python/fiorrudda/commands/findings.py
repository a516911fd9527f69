"""What a fetch or load shows, as data: the policies that it violated, the URLs that were made https, and the headers
that a server has to send. bin/why --json prints it, as schema/why.schema.json has it, and bin/expect compares with
it."""
from __future__ import annotations

from typing import TYPE_CHECKING

from fiorrudda.commands.urls import secure

if TYPE_CHECKING:
    from collections.abc import Sequence

    from fiorrudda.commands.case import Case, Violation
    from fiorrudda.commands.play_text import Violated
    from fiorrudda.commands.shapes import Object


def violations(case: Case) -> list[Object]:
    """All that were told, in order; of a URL that a browser alone loads those that it would tell."""
    found: Sequence[Violation | Violated] = case.violations
    found = found if case.is_unloaded else case.fetch.of("violation")
    return [{"policy": one.policy, "disposition": "enforce" if one.enforced else "report", "directive": one.directive,
             "url": one.url} for one in found]


def told_violations(case: Case) -> list[str]:
    """Each as it is printed, once: a report-only policy is told at the request and at the response."""
    return list(dict.fromkeys(f"{one['policy']} {one['disposition']} {one['directive']} {one['url']}"
                              for one in violations(case)))


def upgrades(case: Case) -> list[dict[str, str]]:
    """The URLs that became https, in order, and why."""
    causes = [(hop.asked.partition("#")[0], case.upgrade_of(hop)) for hop in case.hops]
    return [{"from": url, "to": secure(url), "cause": cause} for url, cause in causes if cause]


def of(case: Case) -> Object:
    """All of it."""
    found = upgrades(case)
    return {"violations": violations(case), "upgraded": [one["to"] for one in found], "upgrades": found}
