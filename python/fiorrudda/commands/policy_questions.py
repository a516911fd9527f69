"""What bin/expect does with `allowed`, `blocked`, `reported`, `violating` and `not violating`: asks the policies of a
test's documents for URLs. It plays a scenario of its own, in which each document loads what it is asked for, from
servers that let every page read."""
from __future__ import annotations

import json
import re
from typing import TYPE_CHECKING

from fiorrudda.commands import asking, csp, findings, slips
from fiorrudda.commands.case import LOCAL, SOCKETS
from fiorrudda.commands.explanations import explain, explain_policies, lines_of
from fiorrudda.commands.refusals import nearest
from fiorrudda.commands.scenario import joined, origin_of
from fiorrudda.commands.there import there
from fiorrudda.commands.urls import scheme_of
from fiorrudda.names import LOADS

if TYPE_CHECKING:
    from collections.abc import Iterator
    from typing import Any

    from fiorrudda.commands.case import Case
    from fiorrudda.commands.csp import Asked
    from fiorrudda.commands.scenario import Scenario
    from fiorrudda.commands.shapes import Lacking, Object, Passing

KEYS = ("allowed", "blocked", "reported", "violating", "not violating")
KEPT_OUT = ("blocked", "reported", "violating")
LET_IN = ("allowed", "not violating")
KINDS = ("fetch", *LOADS)
# What people call what loads a URL, and what no directive is asked about.
MEANT = {**dict.fromkeys(("ajax", "connect", "connect-src", "eventsource", "websocket", "xhr"), "fetch"),
         **dict.fromkeys(("css", "stylesheet"), "style"), "js": "script", "picture": "image", "img-src": "image"}
UNASKED = ("base", "embed", "form", "form-action", "frame", "frame-src", "iframe", "navigation", "object", "worker")
WORDS = ("inline", "eval", "none", "self", "unsafe-eval", "unsafe-inline")  # no URLs
ITEM = re.compile(r"(?:document ([0-9]{1,3}) )?(\S+) (\S.*)", re.S)
EXAMPLE = '"script https://cdn.example/app.js"'
# An origin whose server a scenario takes as it is written here: of a host that is no address and needs no coding.
PLAIN = re.compile(r"https?://(?:(?!xn--)[a-z0-9_][a-z0-9_-]*\.)*(?!xn--)[a-z][a-z0-9-]*(?::[1-9][0-9]{0,4})?")
ANSWER = {"status": 200, "headers": [["Access-Control-Allow-Origin", "*"]]}
POLICY_ERRORS = (4, 19)
INSTEAD = 'write "not violating" in place of "allowed"'
MOST_LOADS = 100  # of a document
MOST_DOCUMENTS = 64  # of a play
MOST_SLIPPED = 2  # differences by a slip in a policy that are all told
MOST_NAMED = 20


class Question:
    """An item of one of the keys: what is loaded, by which document, and what is expected of its policies."""

    def __init__(self, key: str, text: str) -> None:
        document, kind, url = there(ITEM.fullmatch(text)).groups()
        self.kind: str = kind
        self.url: str = url
        self.key = key
        self.text = text
        self.document = int(document or 0)

    def command(self) -> Object:
        return {"fetch": {"url": self.url}} if self.kind == "fetch" else {"load": {"kind": self.kind, "url": self.url}}


def problem(text: str) -> str | None:
    """What is wrong with an item, in a sentence; None where nothing is."""
    found = ITEM.fullmatch(text)
    if found is None:
        return f"write what loads the URL before it, as in {EXAMPLE}: one of {', '.join(KINDS)}"
    _, kind, url = found.groups()
    if kind not in KINDS:
        if kind.lower() in UNASKED:
            return f"no directive is asked here about what is loaded as {kind}, but about {', '.join(KINDS)}"
        meant = MEANT.get(kind.lower()) or nearest(kind, KINDS)
        to_write = f'"{meant}"' if meant else "one of " + ", ".join(KINDS)
        return f'nothing is loaded as "{kind}": write {to_write}'
    if re.search(r"\s", url):
        return "a URL has no blanks: write %20 for one, and each URL in a text of its own"
    if url.strip("'").lower() in WORDS or url[0] in "'*":
        return f"{url} is a word of a policy, and no URL: write one, as in {EXAMPLE}"
    if slips.of_url(url):
        return slips.of_url(url)
    scheme = scheme_of(url) if re.match(r"[A-Za-z][A-Za-z0-9+.-]*:", url) else ""
    if scheme in SOCKETS and kind != "fetch":
        return f'a WebSocket is asked for by a script: write "fetch {url}"'
    if scheme not in ("", "http", "https", *LOCAL, *SOCKETS):
        return f'no policy is asked here about "{scheme}:", but about http, https, data, blob, ws and wss'
    if "${" in url:
        return "no template stands in this URL: write %24{ for ${"
    return None


def pairs_of(expect: Object, scenario: Scenario) -> list[tuple[Case | None, Question]]:
    """Pairs of a case, or None, and its question, for all that is asked of a document that there is."""
    questions = [Question(key, text) for key in KEYS for text in listed(expect.get(key, []))]
    return list(answered(scenario.data, [one for one in questions if one.document < len(scenario.documents())]))


def of_no_document(expect: Object, count: int) -> Iterator[str]:
    """Lines for each question that is asked of a document which the scenario has not."""
    for question in (Question(key, text) for key in KEYS for text in listed(expect.get(key, []))):
        if question.document >= count:
            yield f"{question.key}: {question.text}: the scenario has {count} document{'' if count == 1 else 's'}"


def differences(pairs: list[tuple[Case | None, Question]], kept_out: dict[int, list[Asked]], passing: list[Passing],
                lacking: Lacking) -> Iterator[str]:
    """Lines for each question that is answered otherwise than expected. What is to pass is added to `passing`: the
    number of the document, the case, and whether enforced policies and those that only report are to let it pass. What
    a policy lacks is added to `lacking`: the names of directives by the document's number and that of the policy."""
    groups: list[tuple[str, list[str], bool]] = []
    for case, question in pairs:
        if case and question.key in LET_IN:
            keep_out(case, kept_out.get(question.document))
            passing.append((question.document, case, True, question.key == "not violating"))
        lines = list(difference(question, case))
        lack = lacking_of(question.key, case) if lines and case and question.key in KEPT_OUT else None
        if lack:
            policy, directive = lack
            lines.append(f"  change: let policy {policy} say `{directive} 'none'`, or in the place of `'none'` what is "
                         "to pass")
            lacking.setdefault(question.document, {}).setdefault(policy, []).append(directive)
        groups.append((question.text, lines, lines != [] and question.key in LET_IN and of_slips(case)))
    yield from slips_once(groups)


def of_slips(case: Case | None) -> bool:
    return case is not None and case.is_of_slips


def slips_once(groups: list[tuple[str, list[str], bool]]) -> Iterator[str]:
    """The lines of groups, each with its name, and whether a slip of a policy alone has made it fail: of many of these
    the first is told, and the others are named."""
    slipped = [name for name, lines, is_of_slip in groups if lines and is_of_slip]
    is_many = len(slipped) > MOST_SLIPPED
    for name, lines, is_of_slip in groups:
        if not (is_many and is_of_slip and name != slipped[0]):
            yield from lines
    if is_many:
        others = slipped[1:]
        names = ", ".join(others[:MOST_NAMED]) + (", .." if len(others) > MOST_NAMED else "")
        yield f"{len(others)} more violate a policy by a slip that is warned of, and none once that is mended: {names}"


def under_reports(pairs: list[tuple[Case | None, Question]], expect: Object) -> Iterator[str]:
    """A line for each document of which something is `allowed` under policies that only report: they refuse nothing."""
    by_document: dict[int, list[tuple[Case, Question]]] = {}
    for case, question in pairs:
        if case and question.key == "allowed":
            by_document.setdefault(question.document, []).append((case, question))
    said = {text for key in ("reported", "violating") for text in listed(expect.get(key, []))}
    for own in by_document.values():
        if not any(enforced for enforced, _ in own[0][0].policies):
            yield from of_reports_alone(own)
        else:
            for case, question in own:
                yield from of_report(case, question) if question.text not in said else ()


def of_reports_alone(own: list[tuple[Case, Question]]) -> Iterator[str]:
    (case, first), *others = own
    if case.policies:
        more = f" and {len(others)} more" if others else ""
        one = len(case.policies) == 1
        yield (f"warning: allowed: {first.text}{more}: the page's {'policy' if one else 'policies'} only "
               f"{'reports, and refuses' if one else 'report, and refuse'} nothing, so that this is met whatever "
               f"{'it says' if one else 'they say'}: {INSTEAD}, which asks policies of both kinds")


def of_report(case: Case, question: Question) -> Iterator[str]:
    reported = dict.fromkeys((one.policy, one.directive) for one in case.violations if not one.enforced)
    if reported:
        told = " and ".join(f"policy {number} ({directive})" for number, directive in reported)
        yield (f"warning: allowed: {question.text}: {told}, which only reports, reports it, and would refuse it once "
               f'it is enforced: {INSTEAD}, where it is to pass then too; or name it in "reported" too')


def lacking_of(key: str, case: Case) -> Any:
    """The first policy that may refuse or report what a case asks for, and in which no directive decides on it: its
    number, and the directive; None where there is none."""
    effective = csp.EFFECTIVE[case.kind]
    name = csp.written_for("default-src", effective)
    dispositions = {"blocked": [True], "reported": [False]}.get(key, [True, False])
    asked = {one.policy for one in case.questions()}
    return next(((number, name) for number, (enforced, _) in enumerate(case.policies)
                 if number in asked and enforced in dispositions
                 and csp.deciding(case.mended[number], effective)[0] not in case.mended[number]), None)


def kept_out(expect: Object, documents: list[Object]) -> dict[int, list[Asked]]:
    """By the number of a document what is to violate its policies."""
    found: dict[int, list[Asked]] = {}
    for question in (Question(key, text) for key in KEPT_OUT for text in listed(expect.get(key, []))):
        if question.document < len(documents):
            page = documents[question.document]["url"]
            asked = csp.Asked(joined(question.url, page), page, question.kind, "", "", True, False)
            found.setdefault(question.document, []).append(asked)
    return found


def let_in(expect: Object) -> dict[int, list[tuple[str, str]]]:
    """By the number of a document kinds and URLs of what is to pass its policies."""
    found: dict[int, list[tuple[str, str]]] = {}
    for question in (Question(key, text) for key in LET_IN for text in listed(expect.get(key, []))):
        found.setdefault(question.document, []).append((question.kind, question.url))
    return found


def keep_out(case: Case, kept_out: list[Asked] | None) -> None:
    """Has what is advised of a case let nothing pass that a test wants to be kept out."""
    if kept_out:
        case.kept_out = kept_out
        case.explanation, case.policies_told = explain(case), explain_policies(case)


def listed(wanted: Any) -> list[Any]:
    return [wanted] if isinstance(wanted, str) else list(wanted)


# ---- the play

def answered(data: Object, questions: list[Question]) -> Iterator[tuple[Case | None, Question]]:
    """Pairs of a case and its question."""
    parts = list(parts_of(questions))
    for start in range(0, len(parts), MOST_DOCUMENTS):
        yield from there(played(data, parts[start:start + MOST_DOCUMENTS]))


def parts_of(questions: list[Question]) -> Iterator[list[Question]]:
    """The questions of each document, in parts that one document can load."""
    by_document: dict[int, list[Question]] = {}
    for question in questions:
        by_document.setdefault(question.document, []).append(question)
    for own in by_document.values():
        for start in range(0, len(own), MOST_LOADS):
            yield own[start:start + MOST_LOADS]


def played(data: Object, parts: list[list[Question]]) -> list[tuple[Case | None, Question]] | None:
    """Plays a document for each part. Pairs of a case, which is None where the run had ended before it, and its
    question."""
    _, _, told = asking.played(json.dumps(scenario_of(data, parts)).encode("utf-8"))
    cases = {(case.fetch.document.number, case.fetch.number): case for case in told.cases}
    return [(cases.get((number, index)), question)
            for number, part in enumerate(parts) for index, question in enumerate(part)]


def scenario_of(data: Object, parts: list[list[Question]]) -> Object:
    documents = [document_of(data["documents"][part[0].document], part) for part in parts]
    origins = {origin for part, document in zip(parts, documents) for question in part
               for origin in origins_of(joined(question.url, document["url"]))}
    known = {key: data[key] for key in ("now", "hsts") if key in data}
    servers = [{"origin": origin, "rules": [ANSWER]} for origin in sorted(origins)]
    return {"format": 2, **known, "servers": servers, "documents": documents}


def document_of(document: Object, part: list[Question]) -> Object:
    """The document, with a script that loads all of a part."""
    given = {key: document[key] for key in ("url", "top", "headers") if key in document}
    return {**given, "script": [question.command() for question in part]}


def origins_of(url: str) -> list[str]:
    """The origins that a URL may be asked at: its own, and that of https where it is upgraded."""
    own = {origin_of(url), origin_of("https" + url[4:]) if url.lower().startswith("http:") else None}
    return [origin for origin in own if origin and PLAIN.fullmatch(origin)]


# ---- the answers

def difference(question: Question, case: Case | None) -> Iterator[str]:
    if case is None:
        yield f"{question.key}: {question.text} was not asked: the play of its document has too many lines"
        return
    violations = findings.told_violations(case)
    dispositions = [one["disposition"] for one in findings.violations(case)]
    is_reported = "report" in dispositions
    is_blocked = not case.result.is_fault and case.result.number in POLICY_ERRORS
    is_blocked = is_blocked or case.is_unloaded and "enforce" in dispositions
    yield from DIFFERENCES[question.key](question.text, case, violations, is_blocked, is_reported)


def not_allowed(text: str, case: Case, violations: Any, is_blocked: bool, is_reported: bool) -> Iterator[str]:
    if is_blocked or not (case.exchanges or case.is_open):  # by another rule, where nothing is sent
        came = refused_by(case) or "it came to " + case.result.short()
        yield f"allowed: expected that {text} is let through; {came}"
        yield from advised(case, False)


def refused_by(case: Case) -> str:
    """The policies that refuse what this engine does not load, with their directives; or an empty text."""
    refusing = [case.of_violation(one) for one in case.violations if one.enforced and case.is_unloaded]
    return " and ".join(f"{one.policy} refuses it, by `{one.directive_text}`" for one in refusing)


def not_blocked(text: str, case: Case, violations: Any, is_blocked: bool, is_reported: bool) -> Iterator[str]:
    if not is_blocked:
        hint = "; one that only reports reports it: `violating` holds of both" if is_reported else ""
        is_other = case.result.is_refused() and not case.is_open
        other = f"; it came to {case.result.short()} before that" if is_other else ""
        yield f"blocked: expected that a policy refuses {text}; no policy refuses it{hint}{other}"
        yield from () if hint else let_through(case)


def not_reported(text: str, case: Case, violations: Any, is_blocked: bool, is_reported: bool) -> Iterator[str]:
    if not is_reported:
        hint = "; a policy that is enforced refuses it: `violating` holds of both" if is_blocked else ""
        yield f"reported: expected that a report-only policy reports {text}; none does{hint}"
        yield from () if hint else let_through(case)


def not_violating(text: str, case: Case, violations: Any, is_blocked: bool, is_reported: bool) -> Iterator[str]:
    if not violations:
        yield f"violating: expected that {text} violates a policy; it violates none"
        yield from let_through(case)


def violating(text: str, case: Case, violations: Any, is_blocked: bool, is_reported: bool) -> Iterator[str]:
    if violations:
        yield f"not violating: expected that {text} violates no policy; there is {'; '.join(violations)}"
        yield from advised(case, True)


def advised(case: Case, with_reports: bool) -> Iterator[str]:
    """Why it is refused, and what to change; of a URL that this engine does not load what its policies say of it."""
    with_all = not (case.is_unloaded and case.violations)
    yield from ("  " + line for line in lines_of(case, with_reports, with_all))


def let_through(case: Case) -> Iterator[str]:
    """Why each policy lets it pass."""
    effective = csp.EFFECTIVE[case.kind]
    for number, (enforced, policy) in enumerate(case.policies):
        name, words = csp.deciding(policy, effective)
        asked = [one for one in case.questions() if one.policy == number and not one.at_response][:1]
        word = next((word for word in words for one in asked if csp.matches(word, case.asked_of(one))), None)
        told = f"  policy {number}{'' if enforced else ' (report-only)'} has "
        if name not in policy:
            yield told + "none of " + ", ".join(f"`{one}`" for one in csp.deciders(effective))
        elif word:
            yield told + f"`{name} {' '.join(words)}`, where `{word}` matches it"


# The lines of each key.
DIFFERENCES = dict(zip(KEYS, (not_allowed, not_blocked, not_reported, not_violating, violating)))
