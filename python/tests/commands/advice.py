"""Makes the changes that bin/why names, in a scenario, and says how far a fetch has come: commands/check_advice plays
each change, and asks for progress."""
from __future__ import annotations

import copy
from typing import Any, Callable, Iterator, Sequence

from fiorrudda.commands import answers, csp, edits
from fiorrudda.commands.case import Case
from fiorrudda.commands.play_text import is_preflight
from fiorrudda.commands.scenario import origin_of
from fiorrudda.commands.shapes import Edit
from fiorrudda.commands.told import Told
from fiorrudda.commands.urls import secure, without_user_info
from tests.commands.cases import Data

# The order of a fetch's steps at one URL of its chain: faults of the request, what is looked at before anything is
# sent, the preflight, the answer. A `p` stands before what fails at the connection of the preflight.
STEPS = ([f"f{number}" for number in range(1, 10)] + ["1", "2", "3", "4", "5", "6"] + ["p24", "p25", "p26"]
         + ["7", "8", "9", "10", "11"] + ["24", "25", "26"] + ["12", "13"] + ["14", "15", "16", "17", "18"])
# What comes at the end of a chain; what a script sees of less than all comes before that it sees all.
ENDS = ["19", "20", "21", "22 opaque", "22 without a body", "23", "22 incomplete", "22", "no rule", "opaque",
        "broken body", "headers hidden", "read", "no verdict, the policy refuses it", "no verdict"]
LAST = 1000  # the level of an end
# Ways without a change that a table can name, and why.
UNMADE = {
    **dict.fromkeys(["link/tls-port", "link/certificate", "link/no-tls", "link/no-route", "link/bad-address",
                     "link/unknown-name", "link/refused", "link/unreached", "link/hang", "link/reset",
                     "cors/tls-port-asked-in-plain", "head/tls"],
                    "a connection is mended where it is made, and not by a header or the page"),
    **dict.fromkeys(["head/nothing", "head/no-status-line"], "what the server meant to answer is not known"),
    **dict.fromkeys(["body/not-its-coding", "body/coding-cut", "seen/body-hang", "seen/body-fault"],
                    "a body that stops is mended in the server's program"),
    "scheme/other": "whether a server has it over https is not known",
    **dict.fromkeys(["redirect/long-location", "redirect/no-url", "redirect/scheme"],
                    "where the redirect was to lead is not known"),
    **dict.fromkeys(["no-verdict/data", "no-verdict/blob", "no-verdict/websocket"],
                    "this engine does not load it; what a policy is to say stands with the policy"),
    **dict.fromkeys(["redirect/loop", "redirect/cycle"], "where the chain was to end is not known"),
    **dict.fromkeys(["request/long-url", "request/long-text", "request/url-bytes", "request/no-url",
                     "request/long-body", "request/long-headers"],
                    "what the page wants to send is its own matter"),
}


# ---- how far a fetch has come

def step_of(case: Case) -> str:
    """The name of the step at which it ends."""
    result, number = case.result, str(case.result.number)
    if case.is_unloaded and not case.is_mixed_socket:
        return ENDS[-1] if case.is_open else ENDS[-2]
    if result.is_fault:
        return "f" + number
    if result.is_refused():
        if number in ("24", "25", "26") and case.request is not None and is_preflight(case.request):
            return "p" + number
        return step_of_integrity(case) if number == "22" else number
    return step_of_response(case)


def step_of_integrity(case: Case) -> str:
    way = case.explanation.way
    if way == "integrity/opaqueredirect":
        return "14"
    names = {"opaque": "22 opaque", "no-body": "22 without a body", "incomplete": "22 incomplete",
             "toobig": "22 incomplete", "not-its-coding": "22 incomplete", "coding-cut": "22 incomplete",
             "two-lengths": "22 incomplete"}
    return names.get(way.partition("/")[2], "22")


def step_of_response(case: Case) -> str:
    way = case.explanation.way if case.explanation else ""
    if case.result.type == "opaqueredirect":
        return "14"
    if way in ("seen/no-rule", "seen/opaque"):
        return "no rule" if way == "seen/no-rule" else "opaque"
    if case.result.ending in ("cut", "fault", "toobig"):
        return "broken body"
    return "headers hidden" if way.startswith("seen/") else "read"


def rank(case: Case, first: int = 0) -> tuple[int, int]:
    """Where it ended, as a pair that grows: the place of the URL in the chain, and the step there. `first` is the place
    of the first URL in the chain of an earlier play."""
    step = step_of(case)
    return (LAST, ENDS.index(step)) if step in ENDS else (first + len(case.hops) - 1, STEPS.index(step))


def places(case: Case, first: int = 0) -> dict[str, int]:
    """The place of each URL of the chain, and of the one to which the last answer leads."""
    found = {hop.sent or hop.asked: first + number for number, hop in enumerate(case.hops)}
    if case.is_redirect and case.next_url:
        place = found.get(case.asked_url, first) + 1
        url = without_user_info(case.next_url)
        found = {url: place, secure(url): place, case.next_url: place, **found}
    return found


# ---- changes

def advised(case: Case) -> list[Edit]:
    """All that is named: the explanation's change, what is to be exposed besides, and that of each violated policy."""
    own = [*case.explanation.edits, *case.explanation.exposing] if case.explanation else []
    return own + [edit for policy in case.policies_told for edit in policy.edits if edit not in own]


def made(data: Data, case: Case, change: Sequence[Edit]) -> Data:
    """The scenario with these edits, for the fetch of the case."""
    data = copy.deepcopy(data)
    for edit in change:
        MAKERS[edit["at"]](data, case, edit)
    return data


def at_request(data: Data, case: Case, edit: Edit) -> None:
    command = data
    for word in case.command.path:
        command = command[word]
    if "remove" in edit:
        command.pop(edit["remove"], None)
    else:
        command[edit["set"]] = edit["value"]


def at_page(data: Data, case: Case, edit: Edit) -> None:
    document = data["documents"][case.fetch.document.number]
    if "add" in edit:
        document.setdefault("headers", []).append([edit["add"], edit["value"]])
        return
    if "policy" not in edit:
        document[edit["set"]] = edit["value"]
        return
    join_policies(document, edit["policy"], len(edit.get("commas", [])))
    change_policies(document, lambda number, text: csp.with_directive(
        text, edit["set"], edit["value"], edit.get("replaces")) if number == edit["policy"] else text)


def join_policies(document: Data, first: int, count: int) -> None:
    """Puts semicolons in the place of so many commas behind a policy."""
    number = 0
    for header in document.get("headers", []):
        parts: list[str] = []
        for part in header[1].split(",") if header[0].lower() in csp.HEADERS else []:
            is_joined = csp.directives(part) and first < number <= first + count
            number += bool(csp.directives(part))
            parts += [";".join([parts.pop(), part])] if is_joined else [part]
        header[1] = ",".join(parts) if parts else header[1]


def change_policies(document: Data, change: Callable[[int, str], str]) -> None:
    """Puts `change(number, text)` in the place of each policy of a document."""
    number = 0
    for header in document.get("headers", []):
        parts = header[1].split(",") if header[0].lower() in csp.HEADERS else []
        for index, part in enumerate(parts):
            if csp.directives(part):
                parts[index] = change(number, part)
                number += 1
        header[1] = ",".join(parts) if parts else header[1]


def made_whole(data: Data, told: Told) -> Data:
    """The scenario with all that the lines `in all` say of policies, and nothing else."""
    cases = {(case.fetch.document.number, case.fetch.name): case for case in told.cases}
    for number, own in told.whole_policies.items():
        for name, change in (pair for one in own for pair in one.besides):
            data = made(data, cases[number, name], change)
    data = copy.deepcopy(data)
    for number, document in enumerate(data["documents"]):
        own = told.whole_policies.get(number, [])
        texts = {one.policy: one.value for one in own}
        change_policies(document, lambda number, text: texts.get(number, text))
        for one in filter(lambda one: one.header, own):
            document["headers"][one.header.at] = [one.header.right, one.value]
    return data


def at_scenario(data: Data, case: Case, edit: Edit) -> None:
    if "add" in edit:
        data.setdefault("servers", []).append(edit["value"])
    else:
        data["format"] = 2
        data[edit["set"]] = edit["value"]


def at_answer(data: Data, case: Case, edit: Edit) -> None:
    """The rule for this request alone, with the change; it comes first, and others are answered as before."""
    origin = origin_of(edit["url"])
    server = next((one for one in data.setdefault("servers", []) if one["origin"] == origin), None)
    if server is None:
        server = {"origin": origin, "rules": [{"status": 200}]}
        data["servers"].append(server)
    target = edit["url"][len(origin):].partition("#")[0]
    rule = rule_of(server["rules"], edit["method"], target)
    server["rules"] = [changed(rule, edit)] + [one for one in server["rules"] if one is not rule]


def rule_of(rules: list[Data], method: str, target: str) -> Data:
    """The rule for one request alone, which answers it as the rules do."""
    fitting = [one for one in rules if one.get("method", method) == method and one.get("path", target) == target]
    rule = fitting[0] if fitting else {"status": 404}
    if rule.get("method") == method and rule.get("path") == target:
        return rule
    return {**copy.deepcopy(rule), "method": method, "path": target}


def changed(rule: Data, edit: Edit) -> Data:
    if edit.get("set") == "head":
        return {key: rule[key] for key in ("method", "path")} | {"raw": edit["value"]}
    rule = spelled(rule)
    name = edit.get("set", edit.get("remove"))
    if name == "status":
        return {**rule, "status": edit["value"]}
    left = [pair for pair in rule.get("headers", []) if pair[0].lower() != name.lower()]
    return {**rule, "headers": left + ([[name, edit["value"]]] if "set" in edit else [])}


def spelled(rule: Data) -> Data:
    """A rule of bytes as one of a status, headers and a body."""
    if "raw" not in rule:
        return rule
    answer = answers.Answer(answers.data_of(rule))
    parts = {"status": answer.head.status, "headers": [list(pair) for pair in answer.head.headers],
             "body": answer.data[answer.head.end:].decode("utf-8", "replace")}
    return {**{key: value for key, value in rule.items() if key != "raw"}, **parts}


MAKERS = {"request": at_request, "page": at_page, "scenario": at_scenario, "answer": at_answer, "preflight": at_answer}


def names_of(change: Sequence[Edit], url: str) -> Iterator[tuple[Any, str, str]]:
    """What is named in a change, so that nothing is named twice: headers by their answer, directives by the URL."""
    for edit in change:
        if edit["at"] in ("answer", "preflight"):
            yield (edit["method"], edit["url"], edit.get("set", edit.get("remove")).lower())
        elif "policy" in edit:
            yield (edit["policy"], edit["set"], url)


def sentences(case: Case) -> str:
    """All that is said of a case, as one text."""
    lines = case.explanation.lines() if case.explanation else []
    return "\n".join([*lines, *(line for policy in case.policies_told for line in policy.lines())])


def unsaid(case: Case) -> list[str]:
    """Edits of headers and policies that are data alone, and stand in no line."""
    text = sentences(case)
    own = [*case.explanation.edits, *case.explanation.exposing] if case.explanation else []
    said = [edits.line_of(edit).strip("`") for edit in own if edit["at"] in ("answer", "preflight") and "set" in edit
            and edit["set"] not in ("status", "head", "Content-Length")]
    said += [f"{edit['set']} {edit['value']}" for edit in own if "policy" in edit]
    return [line for line in said if line not in text]
