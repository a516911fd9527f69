"""Checks that what says more of the engine's words than their names has each word of schema/names.json.

    schema/check_names    ends with 1, and says on standard error which word a table lacks, or has too much

It looks at pages of docs/ and at tables of commands/ and recorded/; view/check looks at those of view/, and
commands/check whether there is a way to each error. First `embed/header --check` says whether schema/names.json is what
the sources say. It plays nothing, and needs python3 alone."""
from __future__ import annotations

import json
import os
import re
import subprocess
from typing import Iterable, Iterator, Tuple

from fiorrudda.commands.lints import grammar, referrer  # noqa: E402
from fiorrudda.places import ROOT
from fiorrudda.recorded import least, rules  # noqa: E402
from tests import base
from tests.recorded import made  # noqa: E402


def read(*path: str) -> str:
    with open(os.path.join(ROOT, *path), encoding="utf-8") as file:
        return file.read()


NAMES = json.loads(read("schema", "names.json"))
# What it is, what it has, and what it is to have.
Table = Tuple[str, Iterable[str], Iterable[str]]
# Tables of which docs/scenario.md has an item with all words.
IN_SCENARIO = ("modes", "credentials", "redirects", "loads", "crossorigins")


def bare(directives: Iterable[str]) -> list[str]:
    """The directives by which pages are written: without -elem."""
    return [name.replace("-elem", "") for name in directives]


def items(*path: str) -> list[str]:
    """The rows, items and other lines of a page, each with the indented lines that go on with it."""
    return re.split(r"\n(?! +\S)", read(*path))


def of_item(words: Iterable[str], *path: str) -> set[str]:
    """Those of the words that stand between backticks in the item of a page that has most of them."""
    wanted = set(words)
    return max((wanted.intersection(re.findall(r"`([\w-]+)`", item)) for item in items(*path)), key=len)


def beginning(words: Iterable[str], *path: str) -> list[str]:
    """Those of the words with which a row or an item of a page begins."""
    page = read(*path)
    return [word for word in words if re.search(rf"(?m)^[-|] `?{re.escape(word)}`?(?: \||:)", page)]


def deciding(decided: dict[str, str], *path: str) -> list[str]:
    """The kinds of which an item of a page names the directive, as it is."""
    words = [set(re.findall(r"[\w-]+", item)) for item in items(*path)]
    return [kind for kind, directive in decided.items() if any({kind, directive} <= own for own in words)]


# ---- the tables, each with what it has, and what it is to have

def of_docs() -> Iterator[Table]:
    for table in IN_SCENARIO:
        yield f"docs/scenario.md, {table}", of_item(NAMES[table], "docs", "scenario.md"), NAMES[table]
    kinds = of_item(NAMES["loads"], "docs", "rules", "printed-text.md")
    yield "docs/rules/printed-text.md, the kinds of a load", kinds, NAMES["loads"]
    policies: list[str] = list(filter(None, NAMES["referrer_policies"]))
    yield "docs/rules/referrers.md", beginning(policies, "docs", "rules", "referrers.md"), policies
    decided = NAMES["effective_directives"]
    yield "docs/rules/csp.md, which directive decides", deciding(decided, "docs", "rules", "csp.md"), decided
    statuses = [str(number) for name, number in NAMES["statuses"].items() if name != "OwnFault"]
    yield "docs/rules/command-line.md, the statuses", beginning(statuses, "docs", "rules", "command-line.md"), statuses


def of_schemas() -> Iterator[Table]:
    fetch = json.loads(read("schema", "why.schema.json"))["$defs"]["fetch"]["properties"]
    yield "schema/why.schema.json, the type of a result", fetch["type"]["enum"], [
        *NAMES["response_types"], "error", "type-error", "loaded", "failed"]


def of_commands() -> Iterator[Table]:
    told = set(grammar.FETCH) & set(NAMES["directives"])
    yield "python/fiorrudda/commands/lints/grammar.py, FETCH", told, NAMES["directives"]
    yield "python/fiorrudda/commands/lints/referrer.py, KNOWN", referrer.KNOWN, filter(None, NAMES["referrer_policies"])


def of_recorded() -> Iterator[Table]:
    yield "python/fiorrudda/recorded/rules.py, TYPES", rules.TYPES, NAMES["effective_directives"]
    loaded = [*made.TAGS, "font"]
    yield "python/tests/recorded/made.py, TAGS (and a font, which no element loads)", loaded, NAMES["loads"]
    yield "python/fiorrudda/recorded/least.py, ORDER", least.ORDER, bare(NAMES["directives"])


def tables() -> list[Table]:
    return [*of_docs(), *of_schemas(), *of_commands(), *of_recorded()]


class Names(base.Checks):
    def test_names_are_those_of_the_sources(self) -> None:
        checked = subprocess.run([os.path.join(ROOT, "embed", "header"), "--check"])
        self.compare("embed/header --check", checked.returncode, 0)

    def test_each_table_has_each_word_and_no_other(self) -> None:
        for name, there, wanted in tables():
            self.compare(name, sorted(set(there)), sorted(set(wanted)))
        self.counted(f"{len(tables())} tables have each word of schema/names.json, and no other")


def main() -> int:
    return base.main("schema/check_names", __name__)
