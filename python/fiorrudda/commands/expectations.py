"""What bin/expect does: plays the scenario of a test, and compares with what the test expects."""
from __future__ import annotations

import copy
import functools
import json
import os
import re
from typing import TYPE_CHECKING

from fiorrudda.commands import (asking, doubts, edits, findings, json_text, known_hosts, lints, notes, play_text,
                                policy_questions, refusals, results, running, streams, test_words, verdicts,
                                wanted_refusals, wanted_requests)
from fiorrudda.commands.asking import Wrong
from fiorrudda.commands.case import CAUSES
from fiorrudda.commands.explanations import TABLE, explain, lines_of
from fiorrudda.commands.schema import Schema
from fiorrudda.commands.test_words import KEY
from fiorrudda.commands.there import there
from fiorrudda.names import DIRECTIVES
from fiorrudda.places import ROOT

if TYPE_CHECKING:
    from collections.abc import Callable, Iterator, Sequence
    from typing import Any

    from fiorrudda.commands.case import Case
    from fiorrudda.commands.json_text import Node
    from fiorrudda.commands.play_text import Result, Send
    from fiorrudda.commands.scenario import Scenario
    from fiorrudda.commands.shapes import Cases, Lacking, Misfit, Object, Passing
    from fiorrudda.commands.told import Told

SCHEMA = os.path.join(ROOT, "schema", "expect.schema.json")
WAYS = [way.name for way in TABLE]
OTHERS = ("sent", "never sent", *policy_questions.KEYS)  # the keys of `expect` that name no fetch
# keys that stand in a fetch or a load
OF_OUTCOMES = ("result", "body", "hides", "sees", "upgraded", "violations", "why")
MOST_UNNAMED = 20  # lines
ONLY_STRICT = "all came as expected; --strict alone makes it `not ok`, for these warnings:"
# As a play prints it behind the word violation, as far as a test says it.
VIOLATION = re.compile(r"(?:([0-9]{1,2}) )?(?:(enforce|report) )?(\S+)(?: (\S+))?")


class Outcome:
    """What came of one test: its name, lines for each thing that came otherwise, and what is warned of."""

    def __init__(self, name: str, lines: list[str], warnings: Sequence[str] = ()) -> None:
        self.name = name
        self.lines = lines
        self.warnings = list(warnings)

    @property
    def is_met(self) -> bool:
        return not self.lines

    def data(self) -> Object:
        return {"test": self.name, "ok": self.is_met, "told": self.lines, "warnings": self.warnings}


class Test:
    """A test that was read: the bytes of its scenario, and what is expected."""

    def __init__(self, path: str | None, data: bytes) -> None:
        text, root = asking.read(data, "a test")
        check(text, root)
        self.name = there(root.member("name")).value if root.member("name") else (path or "standard input")
        self.expect = there(root.member("expect")).plain()
        self.scenario, self.scenario_name = scenario_of(there(root.member("scenario")), text, path)


@functools.lru_cache(None)
def schema_of_tests() -> Schema:
    return Schema(SCHEMA)


# ---- tests that are none

def check(text: str, root: Node) -> None:
    """A test that is no test is refused with its place."""
    schema = schema_of_tests()
    problems = schema.check(root)
    if problems and root.kind == "object" and root.member("documents") and not root.member("expect"):
        raise Wrong(refusals.Refusal(text, root.start, "/", "this is a scenario, and no test: bin/why plays it; a test "
                                     'has the keys "scenario" and "expect"'))
    stray = next((key for key, _ in (root.members if root.kind == "object" else []) if KEY.fullmatch(key.value)), None)
    if stray is not None:
        sentence = (f'the key "{stray.value}" belongs in "expect": write {{"scenario": .., "expect": '
                    f'{{"{stray.value}": ..}}}}')
        raise Wrong(refusals.Refusal(text, stray.start, "/" + stray.value, sentence))
    for key, sentence in wrong_keys(root.member("expect")):
        raise Wrong(refusals.Refusal(text, key.start, "/expect/" + key.value, sentence))
    if problems:
        first = min(problems, key=lambda problem: problem.kind == "missing")  # that may be a misspelt one
        refusal = refusals.of_problem(text, first, schema)
        refusal.more += refusals.also(text, [one for one in problems if one is not first], [first], schema)
        raise Wrong(refusal)
    for at, sentence in doubts.double_keys(there(root.member("expect"))):
        raise Wrong(refusals.Refusal(text, at, "/expect", sentence.replace("the last one counts", "take one out")))
    for key, value in there(root.member("expect")).members:
        for node, place, sentence in wrongs(key, value):
            raise Wrong(refusals.Refusal(text, node.start, "/expect/" + place, sentence))


def wrong_keys(expect: Node | None) -> Iterator[tuple[Node, str]]:
    """The keys of `expect` that name no fetch, and ask nothing else: each with a sentence."""
    for key, _ in expect.members if expect is not None and expect.kind == "object" else []:
        if key.value in OF_OUTCOMES:
            yield key, (f'the key "{key.value}" belongs in a fetch or a load: '
                        f'write "load 0": {{"{key.value}": ..}}')
        elif key.value not in OTHERS and not KEY.fullmatch(key.value):
            any_of_them = '"fetch 0", "load 2", "document 1 fetch 0", or one of ' + ", ".join(map(json.dumps, OTHERS))
            meant = test_words.key_meant(key.value, OTHERS) or any_of_them
            yield key, f'the key "{key.value}" names no fetch: write {meant}'


def wrongs(key: Node, value: Node) -> Iterator[Misfit]:
    """What is wrong at a key of `expect`: a node, its place, and a sentence."""
    if key.value in policy_questions.KEYS:
        yield from of_items(value, key.value, policy_questions.problem)
    elif key.value in OTHERS:
        yield from of_requests(value, key.value)
    else:
        yield from of_outcome(key.value, value)


def of_items(value: Node, place: str, problem: Callable[[Any], str | None]) -> Iterator[Misfit]:
    """The first item that is wrong, of one or of a list."""
    for node in value.items if value.kind == "list" else [value]:
        sentence = problem(node.value)
        if sentence:
            yield node, place, sentence


def of_requests(value: Node, place: str) -> Iterator[Misfit]:
    """The requests that are none."""
    for node in value.items if value.kind == "list" else [value]:
        text = node.member("request") if node.kind == "object" else node
        yield from of_items(there(text), place, wanted_requests.problem)


def of_outcome(place: str, value: Node) -> Iterator[Misfit]:
    def result_problem(wanted: Any) -> str | None:
        return test_words.result_problem(wanted, "load" if "load" in place else "fetch", WAYS)
    if value.kind == "string":
        yield from of_items(value, place, result_problem)
    elif not value.members:
        names = ", ".join(f'"{name}"' for name in LOOKS)
        yield value, place, 'nothing is looked at here: write "result", or one of ' + names
    else:
        for name, problem in (("result", result_problem), ("why", way_problem), ("violations", violation_problem),
                              ("upgraded", upgrade_problem)):
            own = value.member(name)
            if own is not None:
                yield from of_items(own, f"{place}/{name}", problem)
        sent = value.member("sent")
        if sent is not None:
            yield from of_requests(sent, place + "/sent")


def way_problem(wanted: Any) -> str | None:
    if wanted in WAYS:
        return None
    meant = refusals.nearest(wanted, WAYS)
    to_write = f'"{meant}"' if meant else "one of those that bin/why --ways lists"
    return f'no way has the name "{wanted}": write {to_write}'


def violation_problem(wanted: Any) -> str | None:
    found = VIOLATION.fullmatch(wanted)
    if found is None:
        return 'a violation is written as it is printed, or a part of it: "0 enforce connect-src", or "connect-src"'
    name = found.group(3)
    if name in DIRECTIVES:
        return None
    meant = refusals.nearest(name + "-elem", DIRECTIVES) or refusals.nearest(name, DIRECTIVES)
    to_write = f'"{meant}"' if meant else "one of " + ", ".join(DIRECTIVES)
    return f'no violation has the directive "{name}": write {to_write}'


def upgrade_problem(wanted: Any) -> str | None:
    """What stands behind the URL is the word of a cause."""
    _, gap, word = wanted.partition(" ")
    if not gap or word in CAUSES:
        return None
    causes = ", ".join(sorted(CAUSES))
    return f'no upgrade has the cause "{word}": behind the URL write one of {causes}'


def scenario_of(node: Node, text: str, path: str | None) -> tuple[bytes, str]:
    """The bytes of the scenario, and the name of its file. Where it stands in the test, the places are those of
    the test."""
    if node.kind == "object":
        before = re.sub(r"[^\n]", " ", text[:node.start])
        return (before + text[node.start:node.end]).encode("utf-8"), path or "standard input"
    name = os.path.join(os.path.dirname(path or ""), node.value)
    try:
        with open(name, "rb") as file:
            return file.read(), name
    except OSError as error:
        raise Wrong(refusals.Refusal(text, node.start, "/scenario", f"{name}: {error.strerror}")) from error


# ---- one test

def outcome(path: str | None, data: bytes, is_net: bool, patience: float, is_strict: bool = False) -> Outcome:
    """Plays one test. Whatever it throws costs it alone. A strict one is not met where a lint finds a fault."""
    name = path or "standard input"
    try:
        return outcome_of(Test(path, data), is_net, patience, is_strict)
    except Wrong as wrong:
        return Outcome(name, wrong.refusal.told(name))
    except Exception as error:
        return Outcome(name, [streams.fault(error)])


def outcome_of(test: Test, is_net: bool, patience: float, is_strict: bool) -> Outcome:
    try:
        text, scenario, told = asking.played(test.scenario, is_net, patience)
        passing: list[Passing] = []
        lacking: dict[int, Lacking] = {}
        scenario.untrusted = untrusted(test.expect, len(scenario.documents()))
        scenario.ask_besides(policy_questions.let_in(test.expect))
        kept_out = policy_questions.kept_out(test.expect, scenario.documents())
        for case in told.cases:
            policy_questions.keep_out(case, kept_out.get(case.fetch.document.number))
        lines = list(differences(test.expect, told, passing))
        pairs = policy_questions.pairs_of(test.expect, scenario)
        lines += policy_questions.of_no_document(test.expect, len(scenario.documents()))
        lines += policy_questions.differences(pairs, kept_out, passing, lacking)
        wholes = list(whole_lines(scenario, told, passing, lacking, is_met=not lines))
    except Wrong as wrong:
        return Outcome(test.name, wrong.refusal.told(test.scenario_name))
    except (running.Failed, play_text.NoPlay) as failure:
        return Outcome(test.name, [str(failure)])
    warned = list(warnings(text, scenario, told, test.scenario_name, is_net))
    warned += [(line, True) for line in unnamed(test.expect, told)] if is_strict else []
    warned += [(line, True) for line in unknown(test.expect, test.scenario.decode("utf-8", "replace"))]
    warned += [(line, True) for line in empty(test.expect, told)]
    warned += [(line, True) for line in policy_questions.under_reports(pairs, test.expect)]
    warned += [(line, False) for line in only_reported(test.expect, told)]
    faults = [line for line, is_fault in warned if is_fault and is_strict]
    by_strict = [ONLY_STRICT] if faults and not lines else []
    return Outcome(test.name, lines + (wholes if lines else []) + by_strict + faults,
                   [*(line for line, _ in warned), *wholes])


def warnings(text: str, scenario: Scenario, told: Told, name: str, is_net: bool) -> list[tuple[str, bool]]:
    """Lines, and of each whether it tells a fault: a note of what a play does not look at is none."""
    places = json_text.Places(text)
    found = lints.in_scenario(scenario)
    rows = []
    for place, one in found:
        line, column = places.of(there(place))
        rows.append((f"warning: {name}:{line}:{column}: {one.told()}", one.slip))
    rows += [("warning: " + one.told(), one.slip) for one in (lints.of_answers(told) if is_net else [])]
    notes_told = {one.slip for _, one in found if one.lint.is_note}
    return [(line, slip not in notes_told) for line, slip in lints.told_once(rows)]


def fetch_of(key: str) -> tuple[int, str] | None:
    """The number of the document and the name of the fetch or load that a key names; None of one of OTHERS."""
    found = KEY.fullmatch(key)
    return (int(found.group(1) or 0), f"{found.group(2)} {int(found.group(3))}") if found else None


def case_of(cases: Cases, key: str) -> Case | None:
    """The fetch or load that a key names, if it names one that there is."""
    fetch = fetch_of(key)
    return cases.get(fetch) if fetch else None


def untrusted(expect: Object, count: int) -> set[int]:
    """The documents of which a test wants each fetch and load that it names refused."""
    wanted: dict[int, list[bool]] = {}
    for key, value in expect.items():
        fetch = fetch_of(key)
        if fetch:
            wanted.setdefault(fetch[0], []).append(wanted_refusals.is_meant(as_object(value)))
    return {number for number, are_meant in wanted.items() if all(are_meant) and number < count}


def unnamed(expect: Object, told: Told) -> Iterator[str]:
    """A line for each fetch and load that no key of a test names, up to MOST_UNNAMED: nothing was compared there."""
    named = set(map(fetch_of, expect))
    left = [case for case in told.cases if (case.fetch.document.number, case.fetch.name) not in named]
    are_many = len(told.play.documents) > 1
    for case in left[:MOST_UNNAMED]:
        key = verdicts.name_of(case.fetch, are_many)
        yield f'warning: {verdicts.named(case, are_many)}: the test does not name it: add {hint_of(key, case)}'
    if len(left) > MOST_UNNAMED:
        yield f"warning: {len(left) - MOST_UNNAMED} more fetches and loads are not named: add them"


def hint_of(key: str, case: Case) -> str:
    """What a test says to want what came. The result says nothing of policies that only report: the violations do, or
    that there is to be none."""
    came = as_it_came(case)
    reported = [one for one in findings.violations(case) if one["disposition"] == "report"]
    if not reported or case.is_unloaded:
        return f'"{key}": {json.dumps(came)}, if that is meant'
    meant = {"result": came, "violations": short_violations(findings.violations(case))}
    return (f'"{key}": {json.dumps(meant)}, if that is meant; or "{key}": {{"violations": []}}, where the policy is to '
            "let it pass once it is enforced")


def as_it_came(case: Case) -> Any:
    """What a test says to want what came. The result alone would hold under every policy for a URL that this engine
    never loads."""
    if not case.is_unloaded:
        return next(iter(result_words(case)), case.result.short())
    return {"result": word_of(case), "violations": short_violations(findings.violations(case))}


def result_words(case: Case) -> list[str]:
    """The word for an answer that does not come whole, as a test has it; none of another."""
    word = results.how_read(case.result) if results.is_let_in(case.result) else "read"
    return [] if word == "read" else [word]


def word_of(case: Case) -> str:
    """The word for a URL that this engine never loads, as a test has it."""
    return "no-verdict" if case.verdict == "none" else "refused"


def short_violations(violations: list[Object]) -> list[str]:
    """Each once, as a test says them."""
    return list(dict.fromkeys(f"{one['policy']} {one['disposition']} {one['directive']}" for one in violations))


def unknown(expect: Object, scenario: str) -> Iterator[str]:
    """A line for each request of "never sent" that is met whatever is played, since the scenario nowhere names it."""
    for one in listed(expect.get("never sent", [])) if "${" not in scenario else []:
        where = one.partition(" ")[2]
        found = re.fullmatch(r"(?:https?://([^/?]*))?(/[^?]*)?.*", where)
        parts: Sequence[str | None] = found.groups() if found else [where]
        for part in filter(None, parts):
            if part not in scenario:
                yield (f"warning: never sent: {one}: nothing in the scenario has {part}: is it spelt as it would be "
                       "sent?")
                break


def empty(expect: Object, told: Told) -> Iterator[str]:
    """A line for each fetch or load that comes as a test wants it, and that says nothing of the server or the policy
    which is tested: the scenario lacks the rule, or this engine never loads the URL."""
    cases, are_many = cases_of(told), len(told.play.documents) > 1
    if not expect:
        yield "warning: the test expects nothing, so that it is always met"
    for key, wanted in expect.items():
        case = case_of(cases, key)
        if case is not None:
            wanted = as_object(wanted)
            yield from wanted_refusals.by_gap(case, wanted, are_many)
            yield from under_any_policy(key, case, wanted, are_many)


def only_reported(expect: Object, told: Told) -> Iterator[str]:
    """A line on fetches and loads that come as a test wants them, while policies only report them."""
    cases, are_many = cases_of(told), len(told.play.documents) > 1
    asked = [(key, case_of(cases, key), wanted) for key, wanted in expect.items()]
    found = {key: case for key, case, wanted in asked if case and is_reported_alone(case, as_object(wanted))}
    if found:
        first, *others = found
        policies = dict.fromkeys(f"policy {one.policy} ({one.directive})" for one in found[first].violations)
        more = f"; so it is with {len(others)} more: {', '.join(others[:MOST_UNNAMED])}" if others else ""
        yield (f"warning: {verdicts.named(found[first], are_many)}: {edits.listed(policies)} only reports it, and "
               f'would refuse it once it is enforced: add "violations": [] where it is to pass then{more}')


def is_reported_alone(case: Case, wanted: Object) -> bool:
    """Whether a case passes, and policies that only report are all that is against it, which the test does not name."""
    is_wanted = "result" in wanted and is_met(wanted["result"], case.result) and "violations" not in wanted
    is_reported = case.violations != [] and not any(one.enforced for one in case.violations)
    return is_wanted and is_reported and case.verdict in ("read", "hidden")


def under_any_policy(key: str, case: Case, wanted: Any, are_many: bool) -> Iterator[str]:
    """That a test wants of a URL, which this engine never loads, what comes whatever the page's policies say."""
    is_asked = case.is_unloaded and not case.is_mixed_socket and case.policies and "violations" not in wanted
    result = wanted.get("result")
    if is_asked and (result is None or all(is_met(result, as_if(case, word)) for word in ("refused", "none"))):
        what = f"`{result}`" if result is not None else "what the test wants"
        meant = json.dumps({**wanted, **as_it_came(case)})
        yield (f"warning: {verdicts.named(case, are_many)}: {what} comes under every policy, since this engine does "
               f'not load the URL: write "{key}": {meant}, which asks the policies, if that is meant')


def as_if(case: Case, verdict: str) -> Result:
    """The result of a case, had it this verdict."""
    result = copy.copy(case.result)
    result.verdict = verdict
    return result


def as_object(wanted: Any) -> Object:
    """What a test wants of a fetch or load, as an object."""
    found: Object = {"result": wanted} if isinstance(wanted, str) else wanted
    return found


def cases_of(told: Told) -> Cases:
    """The cases of a play by the numbers of their documents and their names."""
    return {(case.fetch.document.number, case.fetch.name): case for case in told.cases}


def whole_lines(scenario: Scenario, told: Told, passing: list[Passing], lacking: dict[int, Lacking],
                is_met: bool) -> Iterator[str]:
    """The policies that let all pass which is to pass, where one has several changes; of a test that is met those that
    are warned of."""
    wanted = {id(case): (enforced, reported) for _, case, enforced, reported in passing}

    def is_wanted(case: Case, policy: int) -> bool:
        """Also what has passed until now, and what is warned of would hinder once it is mended."""
        is_enforced = case.policies[policy][0]
        has_passed = all(one.policy != policy for one in case.violations)
        return has_passed or wanted.get(id(case), (False, False))[0 if is_enforced else 1]
    for number, document in enumerate(scenario.documents()):
        own = [case for case in told.cases if case.fetch.document.number == number]
        own += [case for of, case, _, _ in passing if of == number and case not in own]
        if not (document.get("headers") and any(scenario.mended(number))):
            continue
        from fiorrudda.commands.whole_policies import whole
        name = f"document {number}: " if len(scenario.documents()) > 1 else ""
        for one in whole(scenario, number, own, is_wanted, lacking.get(number, {})):
            if one.is_told and (one.mended.slips or not is_met):
                yield name + one.line(True)


def differences(expect: Object, told: Told, passing: list[Passing]) -> Iterator[str]:
    """Lines for all that came otherwise. What a policy is to let pass is added to `passing`, as by policy_questions."""
    cases, groups = cases_of(told), []
    for key, wanted in expect.items():
        if key == "sent":
            groups.append((key, list(missing(told, listed(wanted))), False))
        elif key == "never sent":
            groups.append((key, list(unwanted(told, listed(wanted), expect)), False))
        elif key not in policy_questions.KEYS:
            lines = list(of_fetch(key, wanted, cases, passing, listed(expect.get("sent", []))))
            is_to_pass = lines != [] and not wanted_refusals.is_meant(as_object(wanted))
            groups.append((key, lines, is_to_pass and policy_questions.of_slips(case_of(cases, key))))
    return policy_questions.slips_once(groups)


def listed(wanted: Any) -> list[Any]:
    return wanted if isinstance(wanted, list) else [wanted]


def missing(told: Told, wanted: Any) -> Iterator[str]:
    requests = told.play.requests()
    for one in wanted:
        if not any(wanted_requests.is_met(one, request) for request in requests):
            sent = ", ".join(wanted_requests.named(request, [one]) for request in requests[:20]) or "nothing"
            yield f"sent: expected {wanted_requests.told(one)}; sent were {sent}"


def unwanted(told: Told, wanted: Any, expect: Object) -> Iterator[str]:
    own = {fetch_of(key): value for key, value in expect.items() if fetch_of(key)}
    for case in told.cases:
        meant = as_object(own.get((case.fetch.document.number, case.fetch.name), {}))
        for request, _ in case.exchanges:
            for one in wanted:
                if wanted_requests.is_met(one, request):
                    sent = wanted_requests.named(request)
                    yield f"never sent: expected no {one}; {case.fetch.name} sent {sent}"
                    yield from ("  " + line for line in let_out(case, request, meant))


def let_out(case: Case, request: Send, meant: Any) -> Iterator[str]:
    """What let a request be sent of a fetch that a test wants refused, where that is not said of the fetch."""
    if meant and wanted_refusals.is_meant(meant):
        failed = {name for name, _ in of_case(case, meant)}
        said = wanted_refusals.lines(case, meant, failed) if failed else []
        is_said = any(line.startswith("let in: ") for line in said)
        yield from [] if is_said else wanted_refusals.let_out(case, request)


# ---- one fetch

def of_fetch(key: str, wanted: Any, cases: Cases, passing: list[Passing], sent: list[Any]) -> Iterator[str]:
    case = cases.get(there(fetch_of(key)))
    if case is None:
        has = ", ".join(name for _, name in list(cases)[:20]) or "none"
        number = key.rpartition(" ")[2]
        is_other = any(name.endswith(" " + number) for _, name in cases)
        together = ": fetches and loads are counted together" if is_other else ""
        yield f"{key}: there is none; the play has {has}{together}"
        return
    wanted = as_object(wanted)
    found = list(of_case(case, wanted))
    yield from (f"{key}{verdicts.asked(case)}: {line}" for _, line in found)
    failed = {name for name, _ in found}
    if found:
        keep_wanted(case, wanted, sent)
    in_test = list(change_of_test(key, case, wanted)) if "result" in failed else []
    if failed and wanted_refusals.is_meant(wanted):
        yield from ("  " + line for line in [*wanted_refusals.lines(case, wanted, failed), *in_test])
    elif failed:
        passing.append((case.fetch.document.number, case, True, "violations" in failed))
        lines = lines_of(case, "violations" in failed, failed != {"violations"})
        if in_test and not any(line.startswith("policy: ") for line in lines):  # the test alone is to be changed
            lines = [line for line in lines if not line.startswith("change: ")]
        yield from ("  " + line for line in lines + in_test)


def change_of_test(key: str, case: Case, wanted: Any) -> Iterator[str]:
    """What a test is to say of a URL that this engine never loads, where no change of a policy brings what it wants."""
    word = "refused" if wanted_refusals.is_meant(wanted) else "no-verdict"
    came = as_if(case, "refused" if word == "refused" else "none")
    if not case.is_unloaded or is_met(wanted["result"], came):
        return
    own = [one for one in findings.violations(case) if word == "refused" or one["disposition"] == "report"]
    is_known = word in (word_of(case), "no-verdict")  # what is to refuse it may not be there yet
    more = {"violations": wanted.get("violations", short_violations(own))} if is_known else {}
    meant = json.dumps({"result": word, **more})
    yield f'change: write "{key}": {meant} in the test, since this engine does not load it'


def keep_wanted(case: Case, wanted: Any, sent: list[Any]) -> None:
    """Has what is advised of a case keep what a test wants besides its result. `sent` is what any fetch is to send."""
    case.asked_by_test = list(wanted.get("sees", []))
    case.is_secret_wanted = wanted_requests.with_secret(wanted.get("sent", []), sent, case)
    if case.asked_by_test or case.is_secret_wanted:
        case.explanation = explain(case)


def of_case(case: Case, wanted: Any) -> Iterator[tuple[str, str]]:
    """What came otherwise of one fetch or load, each line with the key of what it tells."""
    keys = [key for key in LOOKS if key in wanted]
    if "result" in wanted and not is_met(wanted["result"], case.result):
        following = [key for key in keys if key in FOLLOWING and case.result.is_refused()]
        keys = [key for key in keys if key not in following]
        more = "; not compared, since it follows: " + edits.listed(following) if following else ""
        yield "result", f"expected {wanted['result']}; it came to {came_to(case)}{more}"
    elif wanted_refusals.untested(case, wanted):
        untested = wanted_refusals.untested(case, wanted)
        yield "result", f"expected {wanted['result']}; it came to {case.result.short()}, but {untested}"
    told = {key: list(LOOKS[key](case, wanted[key])) for key in keys}
    if told.get("upgraded"):  # so it was sent elsewhere
        told.pop("sent", None)
    yield from ((key, line) for key, lines in told.items() for line in lines)


def came_to(case: Case) -> str:
    """The result; of a URL that this engine never loads, and of what does not come whole, with what a browser would
    make of it."""
    if not case.is_unloaded:
        return ", ".join([*result_words(case), case.result.short()])
    why = policy_questions.refused_by(case)
    return f"{word_of(case)}, {case.result.short()}{': ' + why if why else ''}"


def is_met(wanted: Any, result: Result) -> bool:
    """Neither `read` nor `not read` holds for an answer that is let in, and does not come whole."""
    is_negated, rest = results.negated(wanted)
    if is_negated and rest == "read":
        return not results.is_let_in(result)
    return results.is_met(rest, result) is not is_negated


def look_at_way(case: Case, wanted: Any) -> Iterator[str]:
    way = case.explanation.way if case.explanation else "none"
    if way != wanted:
        yield f"expected the way {wanted}; it was {way}"


def look_at_seen(case: Case, wanted: Any) -> Iterator[str]:
    for name, value in wanted.items():
        values = [own for one, own in case.result.headers if one.lower() == name.lower()]
        told = "it sees " + ", ".join(values) if values else "it sees none" + why_unseen(case, name)
        if not values or value not in (True, ", ".join(values)):
            yield f"expected to see {name}{'' if value is True else ': ' + value}; {told}"


def why_unseen(case: Case, name: str) -> str:
    """Why a script that reads the answer does not see a header of this name."""
    if case.verdict != "read" or case.head is None or case.result.type == "loaded":
        return ""
    if case.get(name) is None:
        return ", since the answer does not have it"
    return ", since it is not exposed" if name.lower() not in ("set-cookie", "set-cookie2") else ", as no script does"


def look_at_hidden(case: Case, wanted: Any) -> Iterator[str]:
    for name in wanted:
        if any(one.lower() == name.lower() for one, _ in case.result.headers):
            yield f"expected not to see {name}; it sees it"


def look_at_body(case: Case, wanted: Any) -> Iterator[str]:
    body = case.result.body
    if body != wanted.encode("utf-8"):
        came = "none that is whole" if body is None else body[:200].decode("utf-8", "replace")
        yield f"expected the body {wanted}; it read {came}"


def look_at_requests(case: Case, wanted: Any) -> Iterator[str]:
    requests = [request for request, _ in case.exchanges]
    if not (len(requests) == len(wanted) and all(map(wanted_requests.is_met, wanted, requests))):
        expected = ", ".join(map(wanted_requests.told, wanted)) or "nothing"
        sent = ", ".join(wanted_requests.named(request, wanted) for request in requests) or "nothing"
        yield f"expected that it sends {expected}; it sent {sent}"


def look_at_violations(case: Case, wanted: Any) -> Iterator[str]:
    """Each violation is expected, and each expected one comes, be it once or more."""
    came = findings.told_violations(case)
    for one in wanted:
        if not any(is_part(one, violation) for violation in came):
            yield f"expected the violation {one}; there is {'; '.join(came) or 'none'}"
    for violation in came:
        if not any(is_part(one, violation) for one in wanted):
            yield f"expected no {'other ' if wanted else ''}violation; there is {violation}"


def is_part(wanted: Any, violation: str) -> bool:
    """Whether a violation has all words that a test says of it."""
    pairs = zip(there(VIOLATION.fullmatch(wanted)).groups(), violation.split(" ", 3))
    return all(own in (None, other) for own, other in pairs)


def look_at_upgrades(case: Case, wanted: Any) -> Iterator[str]:
    """A URL alone, or with the cause of its upgrade behind it."""
    came = findings.upgrades(case)
    wanted = listed(wanted)
    if len(came) == len(wanted) and all(one in (own["to"], own["to"] + " " + own["cause"])
                                        for one, own in zip(wanted, came)):
        return
    told = ", ".join(f"{one['to']} ({CAUSES[one['cause']]})" for one in came)
    first = "expected an upgrade to " + ", ".join(wanted) if wanted else "expected no upgrade"
    yield f"{first}; " + (f"it was upgraded to {told}" if came else f"there was none{why_plain(case, wanted)}")
    yield from (note for note in case.notes if note.startswith(notes.IN_A_BROWSER))


def why_plain(case: Case, wanted: Any) -> str:
    """Why the last URL was not upgraded. It says nothing of HSTS where another cause is expected."""
    is_of_hsts = all(one.partition(" ")[2] in ("", "hsts") for one in wanted)
    own = known_hosts.why_unknown(case.hops[-1].asked) if case.hops and is_of_hsts else ""
    why = case.stays_plain or own
    return ": " + why if why else ""


# What a fetch that is refused has not, or has not done, and so is not looked at where it was to be read.
FOLLOWING = ("sees", "hides", "body", "sent")
# What a test may say of a fetch beside its result.
LOOKS = {"why": look_at_way, "sees": look_at_seen, "hides": look_at_hidden, "body": look_at_body,
         "sent": look_at_requests, "violations": look_at_violations, "upgraded": look_at_upgrades}


# ---- many tests

def files(paths: list[str]) -> Iterator[str]:
    """The tests: of a folder all files in it whose names end in expect.json."""
    for path in paths:
        if os.path.isdir(path):
            for folder, folders, names in os.walk(path):
                folders.sort()
                yield from (os.path.join(folder, name) for name in sorted(names) if name.endswith("expect.json"))
        else:
            yield path
