"""What stands behind a step: the definitions that it names, their parts, and the code that is proved against them."""
from __future__ import annotations

import functools
from typing import NamedTuple

from tools.standard import sources
from tools.standard.sources import Definition, Edit, Function
from tools.standard.table import Step, Table

# Crates whose definitions and edits all stand on the page.
WHOLE = ("book_hosts", "book_preflights", "fetch_answers", "fetch_definitions", "fetch_machine", "fetch_requests",
         "fetch_rules", "policy_checks", "policy_csp", "policy_csp_match", "policy_csp_text", "policy_filter",
         "policy_integrity", "policy_preflight", "policy_safelist")
# The definitions of these are of the machine, and stand for no rule of a standard.
ONLY_EDITS = ("fetch_machine",)


class Proof(NamedTuple):
    definitions: list[Definition]
    parts: list[Definition]
    code: list[Function]
    edits: list[Edit]


def crate_of(name: str) -> str:
    return name.partition("/")[0]


def is_private(name: str) -> bool:
    return "/Private/" in name


def is_whole(name: str) -> bool:
    """A definition that has to be on the page."""
    return crate_of(name) in WHOLE and crate_of(name) not in ONLY_EDITS and not is_private(name)


@functools.lru_cache(None)
def by_name() -> dict[str, Function]:
    return {one.name: one for one in sources.functions()}


def named(table: Table) -> frozenset[str]:
    return frozenset(name for _, step in table.steps() for name in step.definitions)


def parts_of(step: Step, all_named: frozenset[str]) -> list[Definition]:
    """The definitions that those of the step are made of, and that no step names."""
    known, found = sources.definitions(), set()
    left = list(step.definitions)
    while left:
        one = known.get(left.pop())
        more = [name for name in (one.cites if one else ())
                if name in known and is_whole(name) and name not in all_named and name not in found]
        found.update(more)
        left += more
    return [known[name] for name in sorted(found)]


def is_own(function: Function, definition: str) -> bool:
    """A function that is the code of a definition, and not one that only speaks of it."""
    has_name = function.name.rpartition("/")[2] == definition.rpartition("/")[2]
    return has_name or crate_of(function.name) == crate_of(definition)


def code_of(definition: str) -> list[Function]:
    """The functions whose contracts cite a definition: those of its crate or its name, or else all."""
    cited = [one for one in sources.proved().get(definition, []) if "/laws/" not in one.name] or \
        sources.proved().get(definition, [])
    own = [one for one in cited if is_own(one, definition)]
    return own or cited


def proof_of(step: Step, all_named: frozenset[str]) -> Proof:
    known = sources.definitions()
    definitions = [known[name] for name in step.definitions if name in known]
    parts = parts_of(step, all_named)
    code = [one for name in step.definitions for one in code_of(name)]
    code += [] if code else [one for part in parts for one in code_of(part.name)]
    code += [by_name()[name] for name in step.code if name in by_name()]
    edits = [sources.edits()[name] for name in step.edits if name in sources.edits()]
    return Proof(definitions, parts, list(dict.fromkeys(code)), edits)
