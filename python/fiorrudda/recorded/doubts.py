"""Warnings: what the pages' own headers, or the words of a change, say and surely mean otherwise. docs/rules/lints.md
lists them."""
from __future__ import annotations

from collections import Counter
from dataclasses import dataclass
from typing import Any, Iterator

from fiorrudda.commands import lints
from fiorrudda.commands.lints.entry import ANSWER, DOCUMENT, Finding
from fiorrudda.commands.lints.reading import Budget, Headers
from fiorrudda.recorded.changes import POLICY, REFERRER_POLICY, REPORT_ONLY, Changes
from fiorrudda.recorded.model import Page

# Lints of a policy by which nothing is refused, and nobody hears of it; and of one that no browser reads.
IDLE = ("csp/does-nothing", "csp/report-only-unheard")
UNREAD = ("csp/header-misspelt", "csp/header-obsolete")


@dataclass
class Doubted:
    """What is said of a page's headers, each sentence once; how often each lint says something; and how many
    Content-Security-Policies there are, with those in headers that no browser reads."""

    warnings: list[str]
    lints: dict[str, int]
    policy_count: int


def of_headers(where: str, pairs: list[tuple[str, str]], url: str) -> list[str]:
    """What is said of headers, each sentence once, behind the header's name."""
    return sentences(list(lints.found_in(things_of(where, pairs, url))))


def things_of(where: str, pairs: list[tuple[str, str]], url: str) -> Iterator[Any]:
    return Headers(where, [list(pair) for pair in pairs], url).things(Budget())


def sentences(found: list[Finding]) -> list[str]:
    return list(dict.fromkeys(f"{finding.header}: {finding.sentence}" for finding in found))


def of_page(page: Page) -> Doubted:
    """What is said of the headers that its answer came with, and of the policies of its `meta` elements."""
    headers = page.entry.got if page.entry else []
    policies = [(POLICY, policy) for policy in (page.html.policies if page.html else [])]
    things = list(things_of(DOCUMENT, [*headers, *policies], page.url))
    found = list(lints.found_in(things))
    counts = Counter(finding.lint.name for finding in found)
    policy_count = sum("a policy" in one.kinds for one in things) + sum(counts[name] for name in UNREAD)
    return Doubted(sentences(found), dict(counts), policy_count)


def of_changes(changes: Changes, url: str) -> list[str]:
    """What is said of the words of changes."""
    named = ((POLICY, changes.csp), (REPORT_ONLY, changes.csp_report_only), (REFERRER_POLICY, changes.referrer_policy))
    found = of_headers(DOCUMENT, [(name, value) for name, value in named if value is not None], url)
    for one in changes.headers:
        is_page = one.fits(url)
        if one.value is not None:
            found += of_headers(DOCUMENT if is_page else ANSWER, [(one.name, one.value)], url)
    return list(dict.fromkeys(found))
