"""What a scenario may be to make a command dear, and a call of bin/why: each row of COSTS does it, and says how many
seconds it may take. Each is given what compares what came with what was wanted."""
from __future__ import annotations

import json
import os
import subprocess
import tempfile
from typing import Any, Mapping

from fiorrudda.commands import asking, doubts, json_text
from fiorrudda.commands.scenario import Scenario
from fiorrudda.commands.schema import Schema
from fiorrudda.places import ROOT
from tests import base
from tests.commands import cases
from tests.commands.costs_of_answers import Compare

RUNS = 9
MOST_OF_WHY = 0.12  # seconds of processor time


def tree(data: cases.Data) -> Any:
    return json_text.read(json.dumps(data))


def said(data: cases.Data) -> asking.Said:
    """What bin/why says of a scenario."""
    return asking.Said(json.dumps(data).encode("utf-8"), False, 20)


# ---- scenarios

def many_rules(compare: Compare) -> None:
    """2,000 rules, and 1,000 requests that meet none of them."""
    rules = [cases.rule(path=f"/x/{number}") for number in range(2000)]
    compare("warnings of 2,000 rules", doubts.doubts(Scenario(tree(cases.scenario([], rules))), None, False), [])
    found = said(cases.scenario({"repeat": 1000, "do": [cases.fetch()]}, rules))
    compare("2,000 rules and 1,000 requests", {case.result.short() for case in found.told.cases}, {"12 CorsCheck"})


def many_origins(compare: Compare) -> None:
    """2,000 servers, 2,000 cookies, and 1,000 requests to origins that have neither."""
    origins = [f"https://h{number}.test" for number in range(2000)]
    servers = [{"origin": origin, "rules": []} for origin in origins]
    script = [cases.fetch(f"https://h{number}.test:8443/") for number in range(1000)]
    found = said(cases.scenario(script, servers=servers, cookies=[[origin, "a=1"] for origin in origins]))
    compare("warnings of 2,000 origins", len(found.warnings), 2000)


def many_words(compare: Compare) -> None:
    """1,000 images, and a policy of 1,500 words that lets none of them pass."""
    script = [cases.load("image", f"https://h{number}.test/a") for number in range(1000)]
    words = " ".join(f"https://g{number}.test" for number in range(1500))
    found = said(cases.policed("img-src " + words, script))
    compare("what is changed in a policy of 1,500 words", [one.changes for one in found.told.whole_policies[0]], [1000])
    lines = [line for _, own in found.told.pieces() for line in own]
    compare("how long that is told", sum(map(len, lines)) < 10000000, True)


def many_slips(compare: Compare) -> None:
    """Sixty pages with eight policies each, of which every word is a slip."""
    header = [cases.POLICY + "-Report-Only", "img-src" + " self" * 1500]
    data = cases.scenario(cases.load("image"), [cases.rule()], headers=[header] * 8)
    found = said({**data, "documents": data["documents"] * 60})
    compare("pages whose policies are told", len(found.told.whole_policies), 60)


def large_body(compare: Compare) -> None:
    """500 requests, each with a preflight, to a rule with a body of 3 MB."""
    rules = [cases.rule(404, method="OPTIONS"), cases.rule(body="a" * 3000000)]
    script = [{"repeat": 500, "do": [cases.fetch(), cases.fetch(method="PUT")]}]
    found = said(cases.scenario(script, rules))
    answers = {id(answer) for case in found.told.cases for _, answer in case.exchanges}
    compare("the answers that are kept", len(answers), 2)


def equal_keys(compare: Compare) -> None:
    text = '{"format": 1, "documents": [], ' + ",\n".join(['"now": 1'] * 40000) + "}"
    compare("warnings of 40,000 equal keys", len(asking.Said(text.encode("utf-8"), False, 20).warnings), 39999)
    compare("problems of 40,000 equal keys", Schema(asking.SCHEMA).check(json_text.read(text)), [])


def long_numbers(compare: Compare) -> None:
    for digits in (5000, 1000000):
        try:
            json_text.read(f"[{'9' * digits}]")
        except json_text.Fault as fault:
            compare(f"the place of a number of {digits} digits", fault.place, 1)
        else:
            compare(f"a number of {digits} digits", "read", "refused")


def nested_commands(compare: Compare) -> None:
    """A wrong word in the deepest of 24 commands inside each other."""
    script: list[cases.Data] = [{"wait": "x"}]
    for number in range(24):
        script = [{"repeat": 1, "do": script}] if number % 3 == 0 else [{"if": ["ok"], "then": script}]
    problems = Schema(asking.SCHEMA).check(tree(cases.scenario(script)))
    compare("the place of a wrong word", [problem.place.count("/") for problem in problems], [53])


# ---- a call of bin/why

def processor_time(words: list[str], environment: Mapping[str, str]) -> float:
    """That of a command and of what it starts, in seconds."""
    process = subprocess.Popen(words, stdin=subprocess.DEVNULL, stdout=subprocess.DEVNULL, env=environment)
    _, status, used = os.wait4(process.pid, 0)
    process.returncode = status
    if status:
        raise OSError(f"{' '.join(words)} ended with {status}")
    seconds: float = used.ru_utime + used.ru_stime
    return seconds


def one_call(compare: Compare) -> None:
    """At most 0.12 s, or on a slower machine more by as much, or six times what an empty python takes: of nine runs
    each the cheapest one, which what else runs there has made dearer the least. The first run keeps what it compiles,
    wherever it may be kept elsewhere."""
    words = [os.path.join(ROOT, "bin", "why"), os.path.join(ROOT, "gallery", "star-with-credentials")]
    with tempfile.TemporaryDirectory() as kept:
        keeping = {**os.environ, "PYTHONPYCACHEPREFIX": kept, "PYTHONDONTWRITEBYTECODE": ""}
        processor_time(words, keeping)
        slower = base.pace()
        took = min(processor_time(words, keeping) for _ in range(RUNS))
    slower = max(slower, base.pace())
    empty = min(processor_time(["python3", "-S", "-c", "pass"], os.environ) for _ in range(RUNS))
    is_cheap = took <= max(MOST_OF_WHY * slower, 6 * empty)
    compare(f"a call of bin/why, {took:.3f} s of processor time, and an empty python, {empty:.3f}", is_cheap, True)


COSTS = [
    ("2,000 rules of a server, and 1,000 requests that meet none", many_rules, 6),
    ("2,000 servers and cookies, and 1,000 requests to others", many_origins, 6),
    ("1,000 loads under a policy of 1,500 words", many_words, 6),
    ("480 policies of 1,500 slips each", many_slips, 9),
    ("1,000 requests to a rule with a body of 3 MB", large_body, 6),
    ("40,000 equal keys in an object", equal_keys, 9),
    ("numbers of 5,000 and a million digits", long_numbers, 2),
    ("commands inside each other, with a wrong word in the deepest", nested_commands, 2),
    ("18 calls, nine of bin/why", one_call, 20),
]
