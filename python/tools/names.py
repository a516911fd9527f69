"""The words of the engine with their numbers, out of the Rattle sources, and what is written of them for other
languages: schema/names.json, python/fiorrudda/names.py, view/names.js, js/package/names.js, embed/names.h, and the
lists of words in schema/scenario.schema.json; and the version, out of VERSION."""
from __future__ import annotations

import json
import pathlib
import re
from typing import Any, Callable, Iterator, Union

from fiorrudda.places import ROOT

TOP = pathlib.Path(ROOT)
Names = dict[str, Union[dict[str, int], dict[str, str], list[str]]]

LABELS = r"^ +%s::(\w+)(?:\(_\))? => \((\d+), \"(\w+)\"\),$"
NAME = r"%s::(\w+) => \"([\w-]*)\","
WORD = r"\(\s*\"([\w-]*)\",\s*%s::(\w+),?\s*\)"
NUMBERED = r"(\w+) => (?:Some\(|\{\s*Some\()%s::(\w+)\)"
CONSTANT = r"^pub const (\w+): u32 = (\d+);$"

ERROR = "value_requests/src/error.rt"
FAULT = "value_requests/src/fault.rt"
POLICY = "value_requests/src/policy.rt"
MODE = "value_requests/src/mode.rt"
RESPONSE = "value_requests/src/response.rt"
STATUS = "program_shell/src/status.rt"
EFFECTIVE = "policy_csp/src/directives.rt"
LOADING = "fetch_requests/src/load.rt"
MIXED = "policy_checks/src/mixed.rt"
# Where a scenario's words stand, each with its type; where the type has its names; and where the C library numbers it.
WORDS = (
    ("loads", "script_steps/src/loads.rt", "Destination", POLICY, "c_calls/src/choices.rt"),
    ("modes", "script_steps/src/fetches.rt", "Mode", MODE, "c_calls/src/choices.rt"),
    ("credentials", "script_steps/src/fetches.rt", "Credentials", MODE, "c_calls/src/choices.rt"),
    ("redirects", "script_steps/src/fetches.rt", "RedirectMode", MODE, "c_calls/src/choices.rt"),
    ("crossorigins", "script_steps/src/loads.rt", "CrossOrigin", None, "c_calls/src/choices.rt"),
    ("referrer_policies", "script_steps/src/texts.rt", "ReferrerPolicy", MODE, "c_calls/src/policies.rt"),
)
SCHEMA = "schema/scenario.schema.json"
# Where it lists words, and the table of those.
IN_SCHEMA = {"load/properties/kind": "loads", "load/properties/crossorigin": "crossorigins",
             "fetch/properties/mode": "modes", "fetch/properties/credentials": "credentials",
             "fetch/properties/redirect": "redirects", "referrer_policy": "referrer_policies"}
WIDTH = 118  # characters of a line
MADE = "Written by embed/header from the Rattle sources: do not edit."


class Fault(Exception):
    """Why the names cannot be read, or not be written, in a sentence."""


def source(file: str) -> str:
    return (TOP / "crates" / file).read_text("utf-8")


def found(pattern: str, file: str, least: int = 2) -> list[Any]:
    """What a pattern with groups finds in a file of a crate."""
    rows = re.findall(pattern, source(file), re.M)
    if len(rows) < least:
        raise Fault(f"no table in crates/{file} is as {pattern}")
    return rows


# ---- the tables

def labelled(file: str, kind: str) -> dict[str, int]:
    """A table of names with numbers, which stand one after the other."""
    names = {name: int(number) for _, number, name in found(LABELS % kind, file)}
    if list(names.values()) != list(range(1, len(names) + 1)):
        raise Fault(f"the numbers in crates/{file} are not one after the other")
    return names


def named(file: str, kind: str) -> dict[str, str]:
    """The names of a type's variants."""
    return {variant: name for variant, name in found(NAME % kind, file)}


def numbers(file: str, kind: str) -> dict[str, int]:
    """The numbers of a type's variants in the C library."""
    constants = {name: int(number) for name, number in found(CONSTANT, file)}
    return {variant: constants[name] for name, variant in found(NUMBERED % kind, file)}


def words(file: str, kind: str, names_in: Union[str, None], numbered_in: str) -> dict[str, int]:
    """The words of a scenario for a type, each with its number in the C library."""
    rows = found(WORD % kind, file)
    names = named(names_in, kind) if names_in else {variant: word for word, variant in rows}
    if any(names.get(variant) != word for word, variant in rows):
        raise Fault(f"crates/{file} has another word for a {kind} than crates/{names_in}")
    by_variant = numbers(numbered_in, kind)
    without = [variant for _, variant in rows if variant not in by_variant]
    if without:
        raise Fault(f"crates/{numbered_in} has no number for {kind}::{without[0]}")
    return {word: by_variant[variant] for word, variant in rows}


def effective() -> dict[str, str]:
    """The directive that decides about each destination."""
    destinations, directives = named(POLICY, "Destination"), named(POLICY, "Directive")
    arms = found(r"^ +((?:(?: \| )?Destination::\w+)+) => Directive::(\w+),$", EFFECTIVE)
    by = {one: directives[own] for all_of, own in arms for one in re.findall(r"::(\w+)", all_of)}
    without = [variant for variant in destinations if variant not in by]
    if without:
        raise Fault(f"crates/{EFFECTIVE} has no directive for Destination::{without[0]}")
    return {name: by[variant] for variant, name in destinations.items()}


def loads_in(pattern: str, file: str) -> list[str]:
    """The loads that a function names."""
    names, places = named(POLICY, "Destination"), found(pattern, file, 1)
    if len(places) > 1:
        raise Fault(f"crates/{file} has {len(places)} places that are as {pattern}")
    return [names[variant] for variant in re.findall(r"Destination::(\w+)", places[0])]


def tables() -> Names:
    statuses = {variant: int(number) for variant, number in found(r"^ +Status::(\w+)(?:\(_\))? => (\d+),$", STATUS)}
    return {
        **{name: words(file, kind, names_in, numbered_in) for name, file, kind, names_in, numbered_in in WORDS},
        "cors_loads": loads_in(r"matches!\(kind, (Destination::[^)]*)\)", LOADING),
        "upgradeable_loads": loads_in(r"^ +(Destination::.*) => true,$", MIXED),
        "directives": list(named(POLICY, "Directive").values()),
        "effective_directives": effective(),
        "response_types": list(named(RESPONSE, "ResponseKind").values()),
        "network_errors": labelled(ERROR, "NetError"),
        "request_faults": labelled(FAULT, "TypeFault"),
        "statuses": statuses,
    }


# ---- what is written

def filled(opening: str, items: list[str], closing: str, indent: str) -> str:
    """A list on one line, or on several where it is long, which then begin with `indent`."""
    lines = [opening]
    for item in items:
        between = "" if lines[-1] == opening else " "
        if len(lines[-1] + between + item) > WIDTH:
            lines.append(indent)
            between = ""
        lines[-1] += between + item
    return "\n".join(lines) + closing


def table_of(opening: str, table: Union[dict[str, int], dict[str, str], list[str]], indent: str) -> str:
    """A table as JSON, behind what opens it."""
    is_list = isinstance(table, list)
    items = ([json.dumps(name) for name in table] if isinstance(table, list)
             else [f"{json.dumps(name)}: {json.dumps(number)}" for name, number in table.items()])
    commas = [item + "," for item in items[:-1]] + items[-1:]
    return filled(opening + ("[" if is_list else "{"), commas, "]" if is_list else "}", indent)


def as_json(names: Names) -> str:
    rows = [table_of(f'  "{name}": ', table, "    ") for name, table in names.items()]
    listed = ",\n".join([f'  "about": {json.dumps(MADE)}', *rows])
    return f"{{\n{listed}\n}}\n"


def as_script(names: Names) -> str:
    rows = [table_of(f"  {name}: ", table, "    ") + ",\n" for name, table in names.items()]
    return (f'"use strict";\n\n// {MADE}\nconst engineNames = {{\n' + "".join(rows) + "};\n\n"
            'if (typeof module !== "undefined") {\n  module.exports = engineNames;\n}\n')


def as_es_module(names: Names) -> str:
    rows = [table_of(f"export const {name.upper()} = ", table, "  ") + ";\n" for name, table in names.items()]
    return f"// {MADE}\n" + "".join(rows)


def as_module(names: Names) -> str:
    rows = [table_of(f"{name.upper()}: {type_of(table)} = ", table, "    ") + "\n" for name, table in names.items()]
    return f'"""The words of the engine with their numbers. {MADE}"""\n' + "".join(rows)


def type_of(table: Union[dict[str, int], dict[str, str], list[str]]) -> str:
    if isinstance(table, list):
        return "list[str]"
    return f"dict[str, {type(next(iter(table.values()))).__name__}]"


def as_c(names: Names) -> str:
    """What embed/play.c prints for numbers."""
    parts = [f"// The words for the numbers of the C library. {MADE}\n"]
    for macro, table in (("LOAD_NAMES", "loads"), ("FAULT_NAMES", "request_faults")):
        items = [json.dumps(name) for name in ["", *names[table]]]
        commas = [item + "," for item in items[:-1]] + items[-1:]
        parts.append(f"#define {macro} \\\n" + filled("    ", commas, "\n", "    ").replace(",\n", ", \\\n"))
    return "".join(parts)


def version() -> str:
    said = (TOP / "VERSION").read_text("utf-8")
    if not re.fullmatch(r"\d+\.\d+\.\d+\n", said):
        raise Fault("VERSION is not one line such as 1.0.0")
    return said.strip()


def as_version(said: str) -> str:
    return f'"""The version. Written by embed/header from VERSION: do not edit."""\n__version__: str = "{said}"\n'


def with_words(schema: str, names: Names) -> str:
    """The text of the schema with its lists of words, each of which stands where a definition has it."""
    for place, table in IN_SCHEMA.items():
        definition, *path = place.split("/")
        start = schema.index(f'\n    "{definition}": {{')
        start = schema.index(f'"{path[-1]}": {{', start) if path else start
        listed = re.compile(r'"enum": \[(\s*)[^\]]*?(\s*)\]').search(schema, start)
        if listed is None:
            raise Fault(f"{SCHEMA} has no list of words at {place}")
        shown = ("," + (listed[1] or " ")).join(map(json.dumps, names[table]))
        schema = f'{schema[:listed.start()]}"enum": [{listed[1]}{shown}{listed[2]}]{schema[listed.end():]}'
    return schema


FILES: dict[str, Callable[[Names], str]] = {
    "schema/names.json": as_json,
    "python/fiorrudda/names.py": as_module,
    "view/names.js": as_script,
    "js/package/names.js": as_es_module,
    "python/fiorrudda/version.py": lambda _: as_version(version()),
    "embed/names.h": as_c,
    SCHEMA: lambda names: with_words((TOP / SCHEMA).read_text("utf-8"), names),
}


def written() -> Iterator[tuple[pathlib.Path, str]]:
    """The files with their texts."""
    names = tables()
    for file, text in FILES.items():
        yield TOP / file, text(names)
