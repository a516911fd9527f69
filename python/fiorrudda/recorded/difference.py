"""One difference between a recording and the standards, as rules look at it."""
from __future__ import annotations

from dataclasses import dataclass

from fiorrudda.commands.case import Case
from fiorrudda.commands.there import there
from fiorrudda.recorded import verdicts
from fiorrudda.recorded.model import Entry, Page
from fiorrudda.recorded.verdicts import Finding

NONE = "(none)"
RESULT, REQUEST, ORIGIN, REFERER = "result", "request", "Origin", "Referer"


@dataclass
class Difference:
    """What is otherwise: `what` is request, result or the name of a header; `standard` and `browser` what each has.
    `earlier` are the preflights of the URL that were recorded before."""

    what: str
    finding: Finding
    page: Page
    url: str
    standard: str = NONE
    browser: str = NONE
    is_preflight: bool = False
    earlier: tuple[Entry, ...] = ()

    @property
    def case(self) -> Case:
        return there(self.finding.case)

    @property
    def first(self) -> Entry:
        return self.finding.chain.first

    @property
    def last(self) -> Entry:
        return self.finding.chain.last

    @property
    def kind(self) -> str:
        return self.finding.command.kind

    @property
    def way(self) -> str:
        return verdicts.way_of(self.case)

    @property
    def is_more(self) -> bool:
        """Whether it is a preflight that the browser alone makes."""
        return self.is_preflight and self.standard == NONE
