"""The verdict on each command: what the recording says came, what the standards make of it, and how sure that is."""
from __future__ import annotations

from dataclasses import dataclass, field
from typing import Optional

from fiorrudda.commands.case import LOCAL, Case
from fiorrudda.commands.explanations import Explanation
from fiorrudda.commands.needs import REDIRECTS
from fiorrudda.commands.play_text import is_preflight
from fiorrudda.commands.there import there
from fiorrudda.commands.urls import scheme_of
from fiorrudda.recorded import errors
from fiorrudda.recorded.commands_of import Command
from fiorrudda.recorded.model import Chain, Entry
from fiorrudda.recorded.rules import PASSING, Supposed

PASSED, REFUSED, UNREACHED, FAILED, OPEN, PARTED, UNJUDGED = (
    "passed", "refused", "unreached", "failed", "open", "parted", "unjudged")
WORDS = {REFUSED: "refused", UNREACHED: "never reached the page", FAILED: "failed", OPEN: "open", PARTED: "parted",
         UNJUDGED: "not judged"}
INTEGRITY = 22
BY_ANSWER = "the recorded answer is refused as it stands"
OTHER = Supposed(other_credentials=True)
BARE = Supposed(bare=True)
ANEW = Supposed(anew=True)
ANEW_OTHER = Supposed(anew=True, other_credentials=True)
BEFORE = "nothing is sent: the page's policies and URLs decide it"
BY_PREFLIGHT = "the recorded answer to the preflight is refused as it stands"
NO_PREFLIGHT = "its preflight is not recorded, and it was answered: an earlier page may have asked"
FOLLOWS = "taken to follow redirects, as requests do that do not say otherwise"
COVERED = "the browser made it anew, where the standards' preflight cache still knows an earlier answer"
HIDDEN = "the recording hides the answer"
WITH_CREDENTIALS = ("asked with credentials this is so, which the recording does not show; without them what is "
                    "recorded passes")
NO_RULE = ("the recording has no answer, and no rule refuses the request: the network, TLS, an extension, or the page "
           "itself ended it")


@dataclass
class Finding:
    """What is said of one command. `certainty` is sure, if (a guess holds) or supposed; `how_sure` says it in words."""

    command: Command
    verdict: str
    case: Optional[Case] = None  # that which explains the verdict
    certainty: str = "sure"
    how_sure: str = ""
    told: str = ""  # where no case explains it
    rule: Optional[str] = None  # of docs/BROWSERS.md, that explains why browser and standards part
    is_kept_back: bool = False  # whether by that rule the page never got it
    supposed: Supposed = PASSING  # how the case was played
    notes: list[str] = field(default_factory=list)

    @property
    def chain(self) -> Chain:
        return self.command.chain


@dataclass
class Cases:
    """One command as it was played: as recorded, with its credentials the other way, with a bare answer, and with its
    preflight made anew, in both ways of credentials."""

    plain: Optional[Case]
    problem: str = ""
    other: Optional[Case] = None
    bare: Optional[Case] = None
    anew: Optional[Case] = None
    anew_other: Optional[Case] = None


def failed_of(chain: Chain) -> Optional[Entry]:
    """The entry of a chain that failed in the recording, the request before its preflight; None where none did."""
    if not chain.preflights and not chain.last.is_failed:
        return None
    entries = [chain.last, *(chain.preflights[number] for number in sorted(chain.preflights))]
    if scheme_of(chain.url) in LOCAL and not chain.last.error:
        return None
    return next((entry for entry in entries if entry.is_failed), None)


# ---- what a case comes to

def is_refused(case: Case, command: Command) -> bool:
    """Whether the standards refuse it, by what is recorded."""
    return case.verdict == "refused" and not lacks_body(case, command)


def lacks_body(case: Case, command: Command) -> bool:
    """Whether no more than the body, which is not recorded, does not fit."""
    is_integrity = case.result.number == INTEGRITY and not case.result.is_fault
    return is_integrity and command.body is None and case.has_body and not case.is_opaque


def is_unanswered(case: Case) -> bool:
    """Whether the play asks for what the recording has no answer to."""
    return case.has_no_rule or (case.answer is not None and case.answer.server is None and case.result.number == 25)


def upgrade_of(case: Case) -> Optional[str]:
    """What has made a URL of it https: hsts, policy or mixed; None where nothing has."""
    return next(filter(None, map(case.upgrade_of, case.hops)), None)


def explanation_of(case: Case) -> Optional[Explanation]:
    """Why a case came to what it came: of a URL that this engine does not load, the policy that refuses it."""
    refusing = [policy for policy in case.policies_told if policy.enforced] if case.is_unloaded else []
    return refusing[0] if refusing else case.explanation


def lacks_preflight(case: Case, chain: Chain) -> bool:
    """Whether a preflight is recorded that the play does not make, since its cache covers it."""
    return bool(chain.preflights) and not any(is_preflight(request) for request, _ in case.exchanges)


def way_of(case: Case) -> str:
    explanation = explanation_of(case)
    return explanation.way if explanation else ""


# ---- the verdict

def verdict(command: Command, cases: Cases, tells_errors: bool) -> Finding:
    finding = bare_verdict(command, cases, tells_errors)
    finding.notes += command.notes
    weigh_credentials(finding, cases, tells_errors)
    if finding.verdict == UNREACHED and command.chain.last.status in REDIRECTS:
        command.asked.guesses.append(FOLLOWS)
    if finding.verdict in (REFUSED, UNREACHED) and finding.certainty == "sure" and command.asked.guesses:
        finding.certainty = "if"
        finding.how_sure += "; " + ", and ".join(command.asked.guesses)
    return finding


def bare_verdict(command: Command, cases: Cases, tells_errors: bool) -> Finding:
    case, failed = cases.plain, failed_of(command.chain)
    if case is None:
        return Finding(command, UNJUDGED, told=cases.problem)
    if case.result.is_fault:
        return Finding(command, UNJUDGED, case, told="no page makes this request, as far as it is recorded")
    if is_unanswered(case):
        told = f"the standards ask {case.asked_url}, of which no answer is recorded"
        return Finding(command, OPEN if failed else PARTED if upgrade_of(case) else UNJUDGED, case, told=told)
    if failed and cases.anew is not None and is_refused(cases.anew, command):
        return Finding(command, REFUSED, cases.anew, how_sure=f"{BY_PREFLIGHT}; {COVERED}", supposed=ANEW)
    if failed and cases.anew_other is not None and is_refused(cases.anew_other, command):
        return Finding(command, REFUSED, cases.anew_other, "if", f"{WITH_CREDENTIALS}; {COVERED}", supposed=ANEW_OTHER)
    refused = is_refused(case, command)
    if refused and failed:
        return of_refused_failure(command, cases, failed)
    if refused:
        return of_refused_success(command, case, tells_errors)
    if command.chain.is_lone_preflight:
        return Finding(command, UNJUDGED, case, told="its preflight passes, and the request behind it is not recorded")
    if failed:
        return of_failure(command, cases, failed)
    return Finding(command, PASSED, case)


def of_refused_failure(command: Command, cases: Cases, failed: Entry) -> Finding:
    """It failed, and the standards refuse it: that is why, unless the browser tells of the network."""
    case = cases.plain
    network = errors.of_network(failed.error)
    if network and not there(case).refused_before:
        return Finding(command, FAILED, told=f"{network} ({failed.error})")
    if 7 <= there(case).result.number <= 11 and not command.chain.preflights:
        return Finding(command, REFUSED, case, "if",
                       "its preflight is not recorded: the answer to an earlier one is refused")
    return Finding(command, REFUSED, case, how_sure=basis(there(case)))


def weigh_credentials(finding: Finding, cases: Cases, tells_errors: bool) -> None:
    """Says what credentials would change, where the recording cannot tell whether they went along."""
    other = cases.other
    if other is None or finding.supposed != PASSING or not is_refused(other, finding.command):
        return
    if finding.verdict in (REFUSED, UNREACHED) and way_of(there(other)) != way_of(there(finding.case)):
        finding.how_sure += "; " + had_credentials(other)
    elif finding.verdict == PASSED and not tells_errors:
        finding.notes.append(had_credentials(other))


def had_credentials(other: Case) -> str:
    return f"had it credentials, which the recording would not show: {there(explanation_of(other)).condition}"


def basis(case: Case) -> str:
    """What of the recording decides."""
    if not case.exchanges or case.refused_before:
        return BEFORE
    return BY_PREFLIGHT if 7 <= case.result.number <= 11 else BY_ANSWER


def of_refused_success(command: Command, case: Case, tells_errors: bool) -> Finding:
    """It looks like a success, and the standards refuse it."""
    is_before = not case.exchanges or case.refused_before
    if is_before and scheme_of(command.chain.url) not in LOCAL and was_answered(command.chain, case):
        return Finding(command, PARTED, case, told="the standards send nothing to it, and an answer is recorded")
    if 7 <= case.result.number <= 11 and not command.chain.preflights:
        return Finding(command, PASSED, case, notes=[NO_PREFLIGHT])
    if 7 <= case.result.number <= 11:
        return Finding(command, PARTED, case,
                       told="the standards refuse it at its preflight, and the request was answered")
    if case.result.number == 12 and tells_errors:
        return Finding(command, PARTED, case,
                       told="the tools tell an error of each answer that CORS refuses, and none here")
    return Finding(command, UNREACHED, case, how_sure=BEFORE if is_before else BY_ANSWER)


def was_answered(chain: Chain, case: Case) -> bool:
    """Whether the URL that is refused has an answer in the recording."""
    return len(case.chain) < len(chain.hops) and not chain.hops[len(case.chain)].is_hidden


def of_failure(command: Command, cases: Cases, failed: Entry) -> Finding:
    """It failed, and what is recorded lets it pass."""
    case = cases.plain
    if errors.is_orb(failed.error):
        return Finding(command, PARTED, case, told="opaque response blocking kept it back, which is not played here")
    told = errors.of_network(failed.error) or errors.other(failed.error, failed.status)
    if told:
        return Finding(command, FAILED, told=f"{told} ({failed.error})")
    if cases.other is not None and is_refused(cases.other, command):
        how_sure = WITH_CREDENTIALS + (", and its hidden answer would be to blame" if failed.is_hidden else "")
        return Finding(command, REFUSED, cases.other, "if", how_sure, supposed=OTHER)
    if not failed.is_hidden:
        more = "; a fetch with `redirect` `error` fails so" if failed.status in REDIRECTS else ""
        return Finding(command, PARTED, case,
                       told=f"the browser tells an error ({failed.error}), and the standards refuse nothing{more}")
    bare = cases.bare
    if bare is not None and is_refused(bare, command) and bare.result.number in (7, 12):
        where = " to the preflight" if bare.result.number == 7 else ""
        how_sure = f"{HIDDEN}{where}: without CORS headers it is refused so, and with others it may be"
        how_sure += "" if "ERR_FAILED" in failed.error else "; or no answer came, by a fault of the network"
        return Finding(command, REFUSED, bare, "supposed", how_sure, supposed=BARE)
    return Finding(command, OPEN, case, told=NO_RULE)
