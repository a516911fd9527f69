"""What the names of the table mean beside definitions and code: ways, plays, points that plays reach, rules of
browsers, and places of pages."""
from __future__ import annotations

import fnmatch
import functools
import json
import re
from typing import Any, NamedTuple

from fiorrudda.commands import explanations
from tools.standard.sources import ROOT

BROWSERS = {"chromium": "Chromium", "firefox": "Firefox"}


class Rule(NamedTuple):
    """A rule by which a browser differs; `section` is that of docs/BROWSERS.md which has its row."""

    name: str
    section: str
    engines: list[str]
    what: str
    scenario: str


def json_of(path: str) -> Any:
    return json.loads((ROOT / path).read_text("utf-8"))


@functools.lru_cache(None)
def ways() -> dict[str, str]:
    """The ways to a result, as `bin/why --ways` tells them: the name, and its results with its condition."""
    found = (re.fullmatch(r"([a-z0-9/-]+) +\((.*?)\): (.*)", line) for line in explanations.way_lines())
    return {one[1]: one[3] for one in found if one}


@functools.lru_cache(None)
def points() -> dict[str, str]:
    """What a play can reach, and a scenario that reaches it, as covered/check holds it."""
    found: dict[str, str] = json_of("covered/index.json")
    return found


@functools.lru_cache(None)
def beyond() -> dict[str, str]:
    """What no play can reach, and why."""
    found: dict[str, str] = json_of("covered/beyond.json")
    return found


@functools.lru_cache(None)
def rules() -> dict[str, Rule]:
    """The rules of the browsers that docs/BROWSERS.md speaks of."""
    found = {}
    for path in sorted((ROOT / "browsers/rules").glob("*.json")):
        given = json.loads(path.read_text("utf-8"))
        for one in given.get("rules", []):
            engines = [BROWSERS[engine] for engine in BROWSERS if engine in one["engines"]]
            if engines:
                section = one.get("section", given.get("section", ""))
                found[one["name"]] = Rule(one["name"], section, engines, one["what"], one["scenario"])
    return found


def measured() -> list[str]:
    """The browsers with the version by which their rules were measured."""
    engines = json_of("browsers/rules/engines.json")
    return [f"{name} {engines[engine]['measured'][-1].split('.')[0]}" for engine, name in BROWSERS.items()]


@functools.lru_cache(None)
def gallery() -> list[str]:
    return sorted(path.parent.name for path in (ROOT / "gallery").glob("*/scenario.json"))


def printed(play: str) -> str:
    """What is stored of a play: its text, and its reports."""
    files = (ROOT / "gallery" / play / name for name in ("play.txt", "reports.txt"))
    return "".join(file.read_text("utf-8") for file in files if file.is_file())


def matching(pattern: str, names: dict[str, str]) -> list[str]:
    """The names that a name, or a pattern with a `*`, means."""
    if "*" in pattern:
        return [name for name in names if fnmatch.fnmatchcase(name, pattern)]
    return [pattern] if pattern in names else []


# ---- pages

def slug(heading: str) -> str:
    """The anchor of a heading, as code hosts make it: of a link its text."""
    text = re.sub(r"\[([^\]]*)\]\([^)]*\)", r"\1", heading).strip().lower()
    return re.sub(r"[^\w\- ]", "", text).replace(" ", "-")


@functools.lru_cache(None)
def headings(page: str) -> dict[str, str]:
    """The headings of a page of docs/ by their anchors."""
    path = ROOT / "docs" / page
    lines = path.read_text("utf-8").splitlines() if path.is_file() else []
    found = [line.lstrip("#").strip() for line in lines if re.match(r"#+ ", line)]
    return {slug(heading): heading for heading in found}


def title(place: str) -> str:
    """What a place of docs/ is called: `PAGE.md`, or `PAGE.md#ANCHOR`; nothing where there is none."""
    page, _, anchor = place.partition("#")
    there = headings(page)
    return (there.get(anchor, "") if anchor else next(iter(there.values()), "")).replace("`", "")
