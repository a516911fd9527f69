"""The verdict on a fetch or a load, in words: the line of bin/why, with what it asks for and what to change, and the
line and the status of bin/ask, which answers whether the page would read it."""
from __future__ import annotations

from collections import Counter
from typing import TYPE_CHECKING

from fiorrudda.commands import edits, findings, notes, results
from fiorrudda.commands.case import CAUSES
from fiorrudda.commands.known_hosts import ROLL_OUT
from fiorrudda.commands.scenario import joined
from fiorrudda.commands.there import there

if TYPE_CHECKING:
    from collections.abc import Collection

    from fiorrudda.commands.case import Case
    from fiorrudda.commands.explanations import PolicyExplanation
    from fiorrudda.commands.play_text import Fetch
    from fiorrudda.commands.told import Told

MOST = 100  # fetches and loads whose verdicts stand above a play
LONGEST = 200  # characters of a URL
UNSEEN = ("opaque", "opaqueredirect")
NO_VERDICT = "no verdict: "  # as the explanation begins where a browser goes on and this engine does not


# ---- what a case comes to

def word_of(case: Case) -> str:
    result = case.result
    if case.verdict == "none":
        return "no verdict"
    if result.is_refused():
        return "not asked for" if result.is_fault else "refused"
    if result.type in UNSEEN:
        return "not to be seen"
    return "read without all of its body" if result.ending in ("cut", "fault", "toobig") else "read"


def condition_of(case: Case) -> str:
    """Why it came to that, without that there is no verdict; an empty text where nothing is to be said."""
    return case.explanation.condition.removeprefix(NO_VERDICT) if case.explanation else ""


def told_of(case: Case) -> str:
    """The result, and why."""
    return ": ".join(filter(None, [case.result.short(), condition_of(case)]))


# ---- lines of bin/why

def brief(told: Told) -> list[str]:
    """All lines of a play."""
    return lines(told.cases, len(told.play.documents) > 1) + policies_in_all(told) + hosts_in_all(told)


def warned(names: list[str], count: int) -> list[str]:
    """So many warnings in one line, some of which have names; none where there is none."""
    if not count:
        return []
    each = [f"{name} ({times} times)" if times > 1 else name for name, times in Counter(names).items()]
    others = count - len(names)
    each += [f"{others} of the scenario"] if others and each else []
    return [f"{count} warning{'' if count == 1 else 's'}, told without --brief{': ' + ', '.join(each) if each else ''}"]


def summaries(told: Told) -> list[str]:
    """The first line of each case."""
    return [line_of(case, len(told.play.documents) > 1) for case in told.cases]


def heading(told: Told, most: int = MOST) -> list[str]:
    """What stands above a play: all lines, or those of as many fetches and loads as are soon read."""
    more = len(told.cases) - most
    found = lines(told.cases[:most], len(told.play.documents) > 1)
    found += [f"and {more} more, which --brief lists"] if more > 0 else []
    return found + policies_in_all(told) + hosts_in_all(told)


def policies_in_all(told: Told) -> list[str]:
    """The policies for which several changes are named, with all of them; with the number of the document, where there
    are others."""
    are_many = len(told.play.documents) > 1
    return [(f"document {number}: " if are_many else "") + one.line()
            for number, own in told.whole_policies.items() for one in own if one.is_told]


def hosts_in_all(told: Told) -> list[str]:
    """In which order HSTS is rolled out, where it leads to hosts that do not answer over https."""
    found = dict.fromkeys(case.request.origin for case in told.cases if case.is_unanswered_by_hsts)
    return [f"in all: HSTS comes in this order: first let {edits.listed(found)} answer; then send {ROLL_OUT}"
            ] if found else []


def lines(cases: list[Case], is_one_of_many: bool) -> list[str]:
    """A line for each case, and behind it those of all that CORS wants; with the number of its document, where there
    are others."""
    return [line for case in cases for line in [line_of(case, is_one_of_many), *in_all(case)]]


def in_all(case: Case) -> list[str]:
    return ["  in all: " + line for line in case.explanation.in_all] if case.explanation else []


def line_of(case: Case, is_one_of_many: bool) -> str:
    parts = [outcome(case), *refused_too(case), *unopened(case), *upgraded(case), *plain(case), *reported(case)]
    return f"{named(case, is_one_of_many)}: {'; '.join(parts)}"


def named(case: Case, is_one_of_many: bool) -> str:
    """Its name, and what it asks for."""
    return name_of(case.fetch, is_one_of_many) + asked(case)


def asked(case: Case) -> str:
    """What it asks for, as it stands behind its name."""
    kind = f" ({case.fetch.load})" if case.fetch.load else ""
    return f"{kind}, {method_of(case)} {shown(url_of(case))}"


def name_of(fetch: Fetch, is_one_of_many: bool) -> str:
    """As a test names it."""
    return (f"document {fetch.document.number} " if is_one_of_many else "") + fetch.name


def method_of(case: Case) -> str:
    """As it was sent, where it was."""
    return case.chain[0][0].method if case.chain else str(case.command.options["method"])


def url_of(case: Case) -> str:
    """The URL that is asked for first, as the script says it."""
    return joined(case.command.url, case.document["url"]) or case.command.url


def shown(url: str) -> str:
    return url if len(url) <= LONGEST else f"{url[:LONGEST]}... ({len(url)} characters)"


def outcome(case: Case) -> str:
    """What it comes to, why, and of one that is refused or cut what to change, as far as no line `in all` says it."""
    came = told_of(case) if case.result.type == "loaded" else f"{word_of(case)}, {told_of(case)}"
    is_missed = case.verdict == "read" and case.though_read != "" if case.explanation else False
    is_cut = case.result.ending in ("cut", "fault")
    is_to_change = case.explanation is not None and (case.result.is_refused() or is_missed or is_cut)
    return "; ".join([came, *changes_of(case)]) if is_to_change else came


def changes_of(case: Case) -> list[str]:
    """What to change, by the first way, and in headers alone. Where the lines `in all` say it, that of the request
    alone; of what this engine does not load, that of each policy that refuses it, or of each that reports it where none
    does."""
    of_headers = ["or " + one for one in there(case.explanation).of_headers]
    if there(case.explanation).needs:
        of_request = [edit for edit in there(case.explanation).edits if edit["at"] == "request"]
        return [edits.phrase(of_request), *of_headers] if of_request else of_headers
    if not (case.is_unloaded and case.policies_told):
        return [there(case.explanation).first_change, *of_headers, *by_policy(case)]
    refusing = [policy.first_change for policy in case.policies_told if policy.enforced]
    return refusing or list(map(before_enforced, case.policies_told))


def by_policy(case: Case) -> list[str]:
    """The header of the page that would do, where that is another way."""
    added = [edit for way in there(case.explanation).others for edit in way if edit["at"] == "page" and "add" in edit]
    return [f"or serve the page with {edits.added_line(edit)}" for edit in added]


def before_enforced(policy: PolicyExplanation) -> str:
    """What to change in a policy that only reports, where that does not say already for how long it is needed."""
    change = policy.first_change
    return change + " before it is enforced" if change.endswith("`") else change


def unopened(case: Case) -> list[str]:
    """That a change is said of a page over http, which no browser opens so."""
    url = case.opened_page if case.result.is_refused() else ""
    return [f"but a browser opens this page as {shown(url)} (HSTS): give it that URL first"] if url else []


def upgraded(case: Case) -> list[str]:
    found = [f"{shown(one['to'])} ({CAUSES[one['cause']]})" for one in findings.upgrades(case)]
    own = [notes.may_stay(shown(hop.asked)) for hop in case.hops if notes.is_own(case, hop)]
    return (["upgraded to " + ", ".join(found)] if found else []) + own


def besides(case: Case) -> list[str]:
    """What came besides the verdict of bin/ask: what the script does not see of what it reads, and upgrades."""
    hidden = condition_of(case) if case.verdict == "read" else ""
    return ([hidden] if hidden else []) + upgraded(case)


def plain(case: Case) -> list[str]:
    """Why a URL stays http, where what it comes to does not say it."""
    told = condition_of(case)
    return ["not upgraded: " + one for one in dict.fromkeys(case.plain_reasons) if one and one not in told]


def refused_too(case: Case) -> list[str]:
    """The other enforced policies that refuse it, each once, with what to change."""
    others = [] if case.is_unloaded else [one for one in case.policies_told if one.enforced]
    found = dict.fromkeys((one.policy, one.directive) for one in others)
    return [f"policy {policy} refuses it too ({directive}){change_of_policy(case, (policy, directive))}"
            for policy, directive in found]


def reported(case: Case) -> list[str]:
    """The report-only policies that it violates, each once, with what to change; of several changes of one of them a
    line `in all` tells."""
    found = dict.fromkeys((one.policy, one.directive) for one in case.fetch.of("violation") if not one.enforced)
    return [f"policy {policy}, which only reports, reports it ({directive})"
            f"{change_of_policy(case, (policy, directive))}" for policy, directive in found]


def change_of_policy(case: Case, violated: tuple[int, str]) -> str:
    """The change of a policy, by its number and the directive that is violated."""
    own = [one for one in case.policies_told if (one.policy, one.directive) == violated]
    changes = {one.first_change for one in own if one.edits}
    return ": " + changes.pop() if len(changes) == 1 else ": the line `in all` has its changes" if changes else ""


# ---- the line and the status of bin/ask

READ, NOT_READ, WRONG, NO_ANSWER, UNDECIDED = range(5)
OUTCOMES = ("read", "not read", "wrong words", "no answer", "no verdict")
WORST = (WRONG, NO_ANSWER, NOT_READ, UNDECIDED, READ)
FAILED = ("unknown-name", "refused", "unreached", "certificate", "no-tls", "hang", "reset", "tls-port")
PACKED = " of gzip, which the page gets packed"
OF_NAVIGATION = " (as a fetch of the page, not the navigation it was)"


def worst(statuses: Collection[int]) -> int:
    """That of several URLs."""
    return next(status for status in WORST if status in statuses)


def is_failed(case: Case) -> bool:
    """Whether a connection failed."""
    return any(there(answer).link in FAILED for _, answer in case.exchanges)


def decisive(cases: list[Case]) -> Case:
    """The fetch of a question that answers it: the last, or one whose connection failed."""
    return next(filter(is_failed, cases), cases[-1])


def to_change(cases: list[Case]) -> list[str]:
    """What to change where the page does not read it, as far as no line `in all` says it."""
    case = decisive(cases)
    return [*changes_of(case), *refused_too(case)] if case.explanation and verdict(cases)[0] != READ else []


def verdict(cases: list[Case], was_navigation: bool = False) -> tuple[int, str]:
    """The status and the sentence for the fetches of a question."""
    case = decisive(cases)
    result = case.result
    if is_failed(case):
        return NO_ANSWER, f"{'no whole answer' if result.ending == 'fault' else 'no answer'}: {told_of(case)}"
    does = ("load it" if case.command.is_load else "read it") + (OF_NAVIGATION if was_navigation else "")
    if case.is_broken_first:
        return NOT_READ, (f"the page would not {does}: the answer has {case.lengths_told}: both browsers make that a "
                          f"network error, whatever else it says; besides {told_of(case)}")
    if case.verdict == "none":
        return UNDECIDED, NO_VERDICT + condition_of(case)
    if case.is_spoilt or not result.is_refused() and (case.cut_coding or result.ending == "cut"):
        return NOT_READ, f"the page would not {does_not(case, does)}: {condition_of(case)}"
    if results.is_met("read", result):
        return READ, f"the page would {does}: {seen(case)}"
    return NOT_READ, f"the page would not {does}: {told_of(case)}"


def does_not(case: Case, does: str) -> str:
    """What a page does not with a body in which something is wrong."""
    if case.wrong_coding or len(case.lengths) > 1:
        return does
    if case.length_as_measured and case.is_of_text:
        return does + " before the connection closes"
    return does.replace("it", "all of it", 1)


def seen(case: Case) -> str:
    """The status, and how long the body is."""
    result = case.result
    if result.type == "loaded":
        return str(case.status)
    if result.body is not None:
        count = f"{len(result.body)} byte{'' if len(result.body) == 1 else 's'}{PACKED if case.is_seen_packed else ''}"
    else:
        count = "a body that is longer than is read here" if result.ending == "toobig" else "no body"
    return f"{result.status}, {count}"
