"""Checks docs/standard/index.html: that it is what is written of its table and the sources, and that each fault which
the script is to find is found where it is planted in a copy of the table."""
from __future__ import annotations

import copy
import sys
from collections.abc import Callable
from typing import Any

from tools.standard import faults, table, write

Given = dict[str, Any]


def step_of(given: Given, anchor: str) -> Given:
    """A step of the table by its anchor."""
    for algorithm in given["algorithms"]:
        for step in algorithm["steps"]:
            if table.anchor_of(algorithm["id"], step["step"], step.get("as", "")) == anchor:
                found: Given = step
                return found
    raise KeyError(anchor)


def put(anchor: str, key: str, value: object) -> Callable[[Given], None]:
    return lambda given: step_of(given, anchor).__setitem__(key, value)


def without(anchor: str, key: str) -> Callable[[Given], None]:
    return lambda given: step_of(given, anchor).__delitem__(key)


def reworded(key: str, old: str, new: str) -> Callable[[Given], None]:
    """Each list of the key has another word in the place of one, in all steps."""
    def change(given: Given) -> None:
        for algorithm in given["algorithms"]:
            for step in algorithm["steps"]:
                if key in step:
                    step[key] = [one.replace(old, new) for one in step[key]]
    return change


# What is planted, and words of what has to be told of it.
PLANTED: list[tuple[Callable[[Given], None], str]] = [
    (put("cors-check-3", "definitions", ["policy_checks/Ports: star"]), "no definition policy_checks/Ports/star"),
    (put("main-fetch-13", "code", ["fetch_machine/http: fellow"]), "no function fetch_machine/http/fellow"),
    (put("cors-check-3", "edits", ["policy_checks/no_edit"]), "no edit policy_checks/no_edit"),
    (put("cors-check-3", "edits", ["fetch_rules/the_referrer_grows_back"]), "changes nothing that the step rests on"),
    (put("cors-check-3", "edits", []), "no step has the edit policy_checks/a_star_passes_with_credentials"),
    (put("cors-check-3", "ways", ["cors/star"]), "no way of bin/why --ways cors/star"),
    (put("cors-check-3", "ways", []), "no step has the way cors/star-with-credentials"),
    (put("cors-check-3", "plays", {"star": "x"}), "no play of the gallery star"),
    (put("cors-check-3", "plays", {"star-with-credentials": "result error 13"}), "does not have `result error 13`"),
    (put("corp-check-same-site", "reached", ["error/Corset"]), "no point of covered/ error/Corset"),
    (reworded("reached", "error/Corp", "error/Mixed"), "no step has the point error/Corp"),
    (put("cors-check-3", "browsers", ["no-rule"]), "no rule of browsers/rules no-rule"),
    (reworded("browsers", "open-ports", "data-url"), "no step has the rule of browsers/rules open-ports"),
    (put("cors-check-3", "see", ["rules/cors.md#no-heading"]), "no place rules/cors.md#no-heading"),
    (put("cors-check-3", "see", ["rules/no-page.md"]), "no place rules/no-page.md"),
    (put("cors-check-3", "left out", "no reason"), "it is left out, and has a definition"),
    (without("main-fetch-3", "see"), "it is left out, and no page says so"),
    (put("main-fetch-17-18", "left out", ""), "neither a definition nor a reason"),
    (without("main-fetch-13", "code"), "no contract cites a definition of it"),
    (reworded("definitions", " MayGo", ""), "no step has the definition fetch_answers/Redirects/MayGo"),
    (put("http-redirect-fetch-11", "step", "10"), "http-redirect-fetch has no step 11"),
    (put("http-redirect-fetch-9-10", "step", "11 to 20"), "is of step 10, 9 by its comment, and stands at 11 to 20"),
    (without("main-fetch-7-bad-port", "choices"), "fetch_rules/Blocking/refusal_before is a choice of this project"),
    (put("cors-check-3", "stars", []), "nothing is called stars"),
    (put("cors-check-3", "name", []), "name is no text"),
    (put("cors-check-3", "plays", []), "plays is no object of texts"),
    (put("cors-check-3", "definitions", "allows_any"), "definitions is no list of texts"),
    (put("cors-check-3", "definitions", ["allows_any"]), "is not CRATE/FILE: NAME"),
    (put("cors-check-3", "step", "6 to 8"), "cors-check-6-8 is there twice"),
]
DEAD = ['<a href="#nowhere">', '<a href="../rules/cors.md#nowhere">', '<a href="../../crates/none/specs/None.antt">']


def told_of(given: Given) -> list[str]:
    try:
        return write.made(table.read(given))[0]
    except table.Bad as error:
        return [str(error)]


def unfound() -> list[str]:
    """The planted faults of which nothing is told."""
    stored = table.stored()
    found = []
    for plant, words in PLANTED:
        given = copy.deepcopy(stored)
        plant(given)
        if not any(words in fault for fault in told_of(given)):
            found.append(words)
    return found + [link for link in DEAD if not list(faults.of_page(link))]


def main() -> int:
    missed = unfound()
    for words in missed:
        print(f"python/standard: nothing is told of a planted fault: {words}", file=sys.stderr)
    if missed:
        return 1
    print(f"python/standard: {len(PLANTED) + len(DEAD)} planted faults are found")
    sys.argv[:] = ["bin/standard", "--check"]
    return write.main()
