"""What a recording shows of https: which origins have answered over it, and which have failed; and which requests
would be asked over it."""
from __future__ import annotations

from dataclasses import dataclass, field, replace
from typing import Any, Optional

from fiorrudda.commands.scenario import origin_of
from fiorrudda.commands.urls import scheme_of, secure
from fiorrudda.recorded import errors, verdicts
from fiorrudda.recorded.changes import Changes
from fiorrudda.recorded.differences import Judged
from fiorrudda.recorded.model import Entry, Page, Recording
from fiorrudda.recorded.scenarios import Part
from fiorrudda.recorded.verdicts import Finding


@dataclass
class Shown:
    """The first entry of an https origin that answered, and the first that failed, with its cause."""

    answered: Optional[int] = None
    failed: Optional[int] = None
    why: str = ""


@dataclass
class Plain:
    """The recorded requests of an http origin that would be asked over https."""

    origin: str
    entries: list[int] = field(default_factory=list)

    @property
    def secured(self) -> str:
        return origin_of(secure(self.origin)) or ""

    @property
    def keeps_port(self) -> bool:
        """Whether it has a port, which is the same over https."""
        return self.secured.count(":") > 1

    def data(self, shown: Shown) -> dict[str, Any]:
        is_failing = shown.failed is not None and shown.answered is None
        return {"from": self.origin, "to": self.secured, "entries": self.entries, "port_stays": self.keeps_port,
                "fails": is_failing, "answered": shown.answered, "failed": shown.failed, "why": shown.why}


class Asked:
    """All requests of a recording, by the URLs that changes give them, and what is said of them."""

    def __init__(self, judged: Judged, recording: Recording, changes: Changes):
        self.entries = [(entry, changes.moved(entry.bare_url)) for entry in recording.entries]
        self.findings = {entry.number: finding for _, parts in judged for _, own in parts for finding in own
                         for entry in finding.chain.entries}
        self.shown = self.shown_by_origin()

    def shown_by_origin(self) -> dict[str, Shown]:
        found: dict[str, Shown] = {}
        for entry, url in self.entries:
            if scheme_of(url) != "https" or entry.is_from_worker:
                continue
            shown, why = found.setdefault(origin_of(url) or "", Shown()), self.failure_of(entry)
            if not entry.is_hidden and shown.answered is None:
                shown.answered = entry.number
            elif why and shown.failed is None:
                shown.failed, shown.why = entry.number, why
        return found

    def failure_of(self, entry: Entry) -> str:
        """Why no answer came, where that is no matter of a rule; an empty text where one came."""
        if not entry.is_hidden:
            return ""
        finding, network = self.findings.get(entry.number), errors.of_network(entry.error)
        is_open = finding is not None and finding.verdict == verdicts.OPEN and finding.chain.last is entry
        return network or ("no answer came" if is_open else "")

    def shown_of(self, origin: str) -> Shown:
        return self.shown.get(origin, Shown())

    def chain_of(self, number: int) -> list[int]:
        """The entries of the request that an entry is one of."""
        finding = self.findings.get(number)
        return [entry.number for entry in finding.chain.entries] if finding else [number]

    def of_findings(self) -> list[Finding]:
        return list({id(finding): finding for finding in self.findings.values()}.values())


# ---- what goes with its page

def follows(finding: Finding, page: Page) -> bool:
    """Whether a URL goes with the page's scheme, once that is https: as its HTML has it, where the HTML is recorded;
    else those of its own origin are taken for relative ones."""
    if scheme_of(finding.chain.url) != "http":
        return False
    element = finding.command.asked.element
    return not element.is_whole if element else origin_of(finding.chain.url) == page.origin


def secured(part: Part, findings: list[Finding], changes: Changes) -> Part:
    """The part of a page that is at https now."""
    commands = list(part.commands)
    for number, finding in enumerate(findings):
        if follows(finding, part.page):
            word, options = next(iter(commands[number].data.items()))
            url = secure(changes.moved(options["url"]))
            commands[number] = replace(commands[number], data={word: {**options, "url": url}})
    return replace(part, commands=commands)
