"""What bin/expect says of a fetch that a test wants refused, and that came to something else: why it was refused
otherwise, or which headers let it in; and no change that would let it through."""
from __future__ import annotations

import json
from typing import TYPE_CHECKING

from fiorrudda.commands import edits, policy_questions, results, verdicts, wanted_requests
from fiorrudda.commands.explanations import PREFLIGHTED, TABLE
from fiorrudda.commands.needs import ALLOW_CREDENTIALS, ALLOW_HEADERS, ALLOW_METHODS, ALLOW_ORIGIN
from fiorrudda.commands.play_text import header_of, is_preflight
from fiorrudda.commands.there import there

if TYPE_CHECKING:
    from collections.abc import Container, Iterator, Sequence

    from fiorrudda.commands.case import Case
    from fiorrudda.commands.play_text import Send
    from fiorrudda.commands.shapes import Object, Sent

POLICIES = ("4", "19")
BY_NO_RULE = (7, 12, 22)  # what an empty answer without CORS headers comes to, where the scenario has no rule
NO_SERVER = ("head/no-server", "head/host-as-path")
UNANSWERED = ("link/hang", "link/reset", "link/tls-port", "head/nothing", "head/tls")
GOES_ON = "; many servers send back whatever Origin they get"


def is_meant(wanted: Object) -> bool:
    """Whether what a test wants of a fetch is a refusal: by its result, or by its way where it names none."""
    if "result" not in wanted:
        return "s" not in results_of(wanted.get("why", ""))
    is_negated, rest = results.negated(wanted["result"])
    if is_negated:
        return rest in ("read", "cors", "basic", "loaded")
    return rest == "refused" or rest.startswith(("failed", "type-error")) or number_of(wanted) != ""


def is_any(wanted: Object) -> bool:
    """Whether what a test wants of a fetch is a refusal of any kind, by a result that names none."""
    is_negated, rest = results.negated(wanted.get("result", ""))
    return rest in ("read", "cors", "basic", "loaded") if is_negated else rest == "refused"


def untested(case: Case, wanted: Object) -> str:
    """Why no answer of a server has refused a fetch of which a test wants any refusal; an empty text where one has, or
    where the test names the way."""
    is_refused = is_any(wanted) and case.result.is_refused() and case.explanation is not None
    said = untold(case) if is_refused and wanted.get("why") != there(case.explanation).way else ""
    return f"{said}: {gap_of(case) or there(case.explanation).condition}" if said else ""


def untold(case: Case) -> str:
    """The same without what has come about."""
    way, is_first = there(case.explanation).way, len(case.exchanges) == 1
    if way in UNANSWERED:
        unanswered = "no server has answered" if is_first else "the last request was not answered"
        return unanswered if case.is_net else ""
    if way.startswith("link/") or way in NO_SERVER:
        return "no server was asked" if is_first else "the last request came to no server"
    return "no rule has answered" if gap_of(case) else ""


def gap_of(case: Case) -> str:
    """The rule that the scenario lacks, where that is what refuses a fetch, be it of its preflight; else an empty
    text."""
    if not (case.has_no_rule and case.result.is_refused() and case.result.number in BY_NO_RULE):
        return ""
    request = case.request
    asked = f"{request.method} {request.target}"
    return f"the scenario's server {request.origin} has no rule for {asked}; {case.nearest_rule}"


def to_fill(case: Case) -> list[str]:
    """What to add to the scenario that lacks a rule or a server, or what the test says where that is meant."""
    asked, way = case.request, there(case.explanation).way
    if way == "head/host-as-path":
        missing = there(case.explanation).change
    elif way == "head/no-server":
        missing = f"add a server of {asked.origin}, with rules that answer as the real one does"
    elif gap_of(case):
        rule = json.dumps({"method": asked.method, "path": asked.target, "status": 404})
        missing = f"add a rule that answers as the real server does, such as {rule}"
    else:
        return []
    return [f'change: {missing}; or add "why": "{way}" in the test, where the gap is meant']


def by_gap(case: Case, wanted: Object, is_one_of_many: bool) -> Iterator[str]:
    """A warning of a test that names a result which comes of a rule that the scenario lacks, and not that way."""
    is_named = number_of(wanted) == str(case.result.number) and "why" not in wanted
    if is_named and gap_of(case):
        yield (f"warning: {verdicts.named(case, is_one_of_many)}: no rule has answered, so that no server has refused "
               f"it: {gap_of(case)}; {to_fill(case)[0].removeprefix('change: ')}")


def results_of(name: str) -> list[str]:
    """The numbers of the results of a way; that of what is seen where there is no such way."""
    return next((way.results.split() for way in TABLE if way.name == name), ["s"])


def number_of(wanted: Object) -> str:
    """The number of the network error that a test names, and of a fault an f; an empty text where it names none."""
    is_negated, rest = results.negated(wanted.get("result", ""))
    words = [] if is_negated else rest.split()
    if words[:1] == ["type-error"] or set(words) & set(results.FAULTS):
        return "f"
    named = [str(results.NETWORK_ERRORS.index(one) + 1) for one in words if one in results.NETWORK_ERRORS]
    numbers = [one for one in words if one.isdigit() and len(one) < 3]
    return [*named, *numbers, ""][0]


def is_of_preflight(wanted: Object) -> bool:
    """Whether it wants the preflight refused: by the result or the way, or since nothing else is to be sent."""
    if number_of(wanted):
        return number_of(wanted) in PREFLIGHTED
    is_of_way = set(results_of(wanted.get("why", ""))) <= set(PREFLIGHTED)
    return is_of_way or set(map(wanted_requests.method_of, wanted.get("sent", []))) == {"OPTIONS"}


def lines(case: Case, wanted: Object, failed: Container[str]) -> list[str]:
    """The lines for a fetch that did not do all that a test wants."""
    own = case.explanation.reasons() if case.explanation else []
    if untested(case, wanted):
        is_of_link = there(case.explanation).way.startswith("link/")
        own = ["change: " + there(case.explanation).change, own[-1]] if is_of_link else [*to_fill(case), own[-1]]
    for policy in case.policies_told:
        if policy.enforced or "violations" in failed:
            own += policy.reasons() if policy.enforced else policy.lines()
    return own + list(let_in(case, wanted, failed))


def let_in(case: Case, wanted: Object, failed: Container[str]) -> Iterator[str]:
    """Which answers let it pass, and by which headers: of one that was refused later the answer to its preflight."""
    number, is_refused = number_of(wanted), case.result.is_refused()
    if number in POLICIES and "result" in failed:
        yield from (line.strip() for line in policy_questions.let_through(case))
    elif not is_refused and (not number or number == "12" or number in PREFLIGHTED):
        yield from all_let_in(case, wanted)
    elif is_refused and not case.result.is_fault and case.result.number >= 12 and is_of_preflight(wanted):
        asked = [one for one in case.exchanges[:-1] if is_preflight(one[0]) and case.whole(one[0]) == case.asked_url]
        yield from told(case, asked[-1:])
        yield from to_change(case, asked[-1:], number)


def let_out(case: Case, request: Send) -> Iterator[str]:
    """What let a request be sent that was to be refused before: the answer to its preflight, or that there was none."""
    if is_preflight(request) or request.origin == case.page_origin or case.command.options["mode"] != "cors":
        return
    before = case.exchanges[:[one for one, _ in case.exchanges].index(request)]
    asked = [one for one in before if is_preflight(one[0]) and case.whole(one[0]) == case.whole(request)]
    yield from told(case, asked[-1:])
    yield from to_change(case, asked[-1:], "")
    if not has_preflight(case):
        yield without_preflight(case)


def has_preflight(case: Case) -> bool:
    return any(is_preflight(request) for request, _ in case.exchanges)


def without_preflight(case: Case) -> str:
    is_kept = any(event.op == "covers" and event.reply == "yes" for event in case.fetch.of("call"))
    reason = "the answer to an earlier one is kept" if is_kept else "its method and its headers need none"
    return f"let in: no preflight was sent, since {reason}"


def all_let_in(case: Case, wanted: Object) -> Iterator[str]:
    """Those of all that CORS looked at; and that there was no preflight, where it was to be refused."""
    number = number_of(wanted)
    if is_of_preflight(wanted) and not has_preflight(case):
        yield without_preflight(case)
    checked, is_foreign = [], False
    for request, answer in case.exchanges:
        is_foreign |= request.origin != case.page_origin
        checked += [(request, answer)] if is_foreign and answer and answer.head else []
    if checked and case.command.options["mode"] == "cors":
        yield from told(case, checked)
        own = [one for one in checked if not is_preflight(one[0])]
        if has_preflight(case) or number != "7":
            yield from to_change(case, own if number == "12" else checked, number)
    elif not is_foreign:
        yield "let in: the URL is of the page's own origin, so that there is no CORS check"
    elif case.explanation is None:
        yield f"let in: the mode is {case.command.options['mode']}, so that there is no CORS check"


def told(case: Case, exchanges: Sequence[Sent]) -> Iterator[str]:
    """The headers that let it pass, of each of these answers."""
    are_many = len({case.whole(request) for request, _ in case.exchanges}) > 1
    for request, answer in exchanges:
        where = " at " + case.whole(request) if are_many else ""
        values = [(name, there(there(answer).head).get(name)) for name in deciding(case, request)]
        lines_told = [edits.line_of({"set": name, "value": value}) for name, value in values if value is not None]
        yield f"let in: the answer to {request.method}{where} has {edits.listed(lines_told)}"


def to_change(case: Case, exchanges: Sequence[Sent], number: str) -> Iterator[str]:
    """What keeps the page out, where a CORS check is to do that."""
    if exchanges and number in ("", "7", "12"):
        request, answer = exchanges[-1]
        origin = header_of(request, "Origin") or case.page_origin
        methods = dict.fromkeys(one.method for one, _ in exchanges)
        is_reflected = case.is_net and there(there(answer).head).get(ALLOW_ORIGIN) == origin
        of_answers = edits.listed(f"the answer to {one}" for one in methods)
        yield (f"change: where {origin} asks, leave {ALLOW_ORIGIN} out of {of_answers}, or send another origin's"
               f"{GOES_ON if is_reflected else ''}")


def deciding(case: Case, request: Send) -> list[str]:
    """The headers of its answer that CORS looks at."""
    names = [ALLOW_ORIGIN, *([ALLOW_CREDENTIALS] if case.includes else [])]
    if is_preflight(request):
        is_simple = header_of(request, "Access-Control-Request-Method") in ("GET", "HEAD", "POST")
        names += [] if is_simple else [ALLOW_METHODS]
        names += [ALLOW_HEADERS] if header_of(request, "Access-Control-Request-Headers") else []
    return names
