"""docs/standard/steps.json, which is written by hand: the standards, their algorithms and the steps of these, by names
alone. docs/standard/README.md says what each key is."""
from __future__ import annotations

import json
from collections.abc import Iterator
from typing import Any, NamedTuple

from tools.standard import sources

TABLE = "docs/standard/steps.json"


class Bad(Exception):
    """What of the table cannot be read."""


class Standard(NamedTuple):
    name: str
    url: str
    state: str


class Step(NamedTuple):
    """A step, or several that are one rule here. `id` is its anchor on the page, and `case` tells steps of one number
    apart, or those without one."""

    id: str
    number: str
    case: str
    name: str
    definitions: list[str]
    code: list[str]
    edits: list[str]
    ways: list[str]
    plays: dict[str, str]
    reached: list[str]
    browsers: list[str]
    choices: list[str]
    hole: str
    left_out: str
    note: str
    see: list[str]


class Algorithm(NamedTuple):
    id: str
    standard: str
    section: str
    name: str
    anchor: str
    pages: list[str]
    about: str
    steps: list[Step]


class Table(NamedTuple):
    standards: dict[str, Standard]
    algorithms: list[Algorithm]

    def steps(self) -> Iterator[tuple[Algorithm, Step]]:
        for algorithm in self.algorithms:
            yield from ((algorithm, step) for step in algorithm.steps)


class Reader:
    """The keys of an object, each taken once; one that is left over is a fault of the table."""

    def __init__(self, where: str, given: dict[str, Any]) -> None:
        self.where = where
        self.left = dict(given)

    def text(self, key: str, default: str | None = None) -> str:
        value = self.left.pop(key, default)
        if not isinstance(value, str):
            raise Bad(f"{self.where}: {key} is no text")
        return value

    def texts(self, key: str) -> list[str]:
        value = self.left.pop(key, [])
        if not isinstance(value, list) or not all(isinstance(one, str) for one in value):
            raise Bad(f"{self.where}: {key} is no list of texts")
        return value

    def pairs(self, key: str) -> dict[str, str]:
        value = self.left.pop(key, {})
        if not isinstance(value, dict) or not all(isinstance(one, str) for one in value.values()):
            raise Bad(f"{self.where}: {key} is no object of texts")
        return value

    def end(self) -> None:
        if self.left:
            raise Bad(f"{self.where}: nothing is called {next(iter(self.left))}")


def names_of(listed: list[str], where: str) -> list[str]:
    """`CRATE/FILE: NAME NAME`, as the name of each."""
    found = []
    for one in listed:
        place, colon, names = one.partition(":")
        if not colon:
            raise Bad(f"{where}: {one} is not CRATE/FILE: NAME ..")
        found += [f"{place}/{name}" for name in names.split()]
    return found


def anchor_of(algorithm: str, number: str, case: str) -> str:
    """`main-fetch-7`, `main-fetch-12-cors`, `cors-check-6-8`."""
    number = number.replace(" to ", "-").replace(", ", "-").replace(".", "-")
    return "-".join(part for part in (algorithm, number, case) if part)


def step_of(algorithm: str, given: dict[str, Any]) -> Step:
    number, case = given.get("step", ""), given.get("as", "")
    own = anchor_of(algorithm, number, case)
    keys = Reader(own, given)
    step = Step(
        own, keys.text("step"), keys.text("as", ""), keys.text("name"), names_of(keys.texts("definitions"), own),
        names_of(keys.texts("code"), own), keys.texts("edits"), keys.texts("ways"), keys.pairs("plays"),
        keys.texts("reached"), keys.texts("browsers"), keys.texts("choices"), keys.text("hole", ""),
        keys.text("left out", ""), keys.text("note", ""), keys.texts("see"))
    keys.end()
    return step


def algorithm_of(given: dict[str, Any]) -> Algorithm:
    own = str(given.get("id"))
    steps = [step_of(own, step) for step in given.get("steps", [])]
    keys = Reader(own, {key: value for key, value in given.items() if key != "steps"})
    found = Algorithm(keys.text("id"), keys.text("standard"), keys.text("section"), keys.text("name"),
                      keys.text("anchor"), keys.texts("pages"), keys.text("about"), steps)
    keys.end()
    return found


def stored() -> dict[str, Any]:
    found: dict[str, Any] = json.loads((sources.ROOT / TABLE).read_text("utf-8"))
    return found


def read(given: dict[str, Any]) -> Table:
    standards = {name: Standard(one["name"], one["url"], one["state"]) for name, one in given["standards"].items()}
    table = Table(standards, [algorithm_of(one) for one in given["algorithms"]])
    anchors = [algorithm.id for algorithm in table.algorithms] + [step.id for _, step in table.steps()]
    twice = {anchor for anchor in anchors if anchors.count(anchor) > 1}
    if twice:
        raise Bad(f"{min(twice)} is there twice")
    return table
