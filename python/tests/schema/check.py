"""Checks the schema of scenarios against what the program takes and refuses.

    schema/check    ends with 1, and says each difference on standard error, where one of these does not hold

- Each file of schema/ that ends in .schema.json is a schema of draft 2020-12, and each key in it has a description.
- Each example, each scenario of gallery/ and each scenario of crates/rows_plays/stdin that the program accepts is
  valid.
- Each example and each row that the program refuses is invalid, or is no JSON text at all, or stands in the table of
  schema/README.md, as one that only the program finds. Nothing else stands there.

What the program says of a row is read from crates/rows_plays/stdout, which `rt ci` compares with the program; of an
example, from its .out or .err. The check needs python3 and its module jsonschema (Debian: python3-jsonschema, 4.0 or
later). Where that is missing it says so and ends with 0.
"""
from __future__ import annotations

import contextlib
import glob
import importlib
import json
import os
import re
import sys
import unittest
from typing import Any, Iterator, NamedTuple, NoReturn, Optional

from fiorrudda.commands.there import there
from fiorrudda.places import ROOT
from tests import base

HERE = os.path.join(ROOT, "schema")

jsonschema: Any = None
with contextlib.suppress(ImportError):
    jsonschema = importlib.import_module("jsonschema")

# What the rows begin with that print no line with a status: those of crates/rows_fetches/src/access.rt, and those of
# crates/rows_runs/src/servers.rt, and `requests`.
STATUSLESS = {"table", "answer", "serve", "fetch", "program", "requests"}
# The words of the rows of other programs than fetchplay.
OTHERS = {"report", "audit"}


class NoText(Exception):
    """A text that is no JSON text."""


class Given(NamedTuple):
    """A scenario: its name, its line in the stored run, its text, and the place at which the program refuses it, or
    None where it accepts."""

    name: str
    line: str
    text: str
    place: Optional[str]


def no_constant(word: str) -> NoReturn:
    raise ValueError(word)


def read(*path: str) -> str:
    with open(os.path.join(ROOT, *path), encoding="utf-8", newline="") as file:
        return file.read()


def value_of(text: str) -> Any:
    try:
        value = json.loads(text, parse_constant=no_constant)
        json.dumps(value, ensure_ascii=False).encode("utf-8")
    except (ValueError, RecursionError) as error:
        raise NoText from error
    return value


def examples() -> Iterator[Given]:
    for path in sorted(glob.glob(os.path.join(ROOT, "examples", "*.json"))):
        name = os.path.relpath(path, ROOT)
        errors = f"{name[: -len('.json')]}.err"
        place = None
        if os.path.exists(os.path.join(ROOT, errors)):
            place = read(errors).rstrip("\n").removeprefix("fetchplay: scenario refused at ")
        yield Given(name, "", read(name), place)


def gallery() -> Iterator[Given]:
    for path in sorted(glob.glob(os.path.join(ROOT, "gallery", "*", "scenario.json"))):
        name = os.path.relpath(path, ROOT)
        yield Given(name, "", read(name), None)


def scenarios(name: str) -> list[str]:
    """The lines of a stored file of crates/rows_plays behind the title of the scenarios."""
    lines = read("crates", "rows_plays", name).split("\n")
    return lines[lines.index("# Scenarios, each played by the program's top call over streams in memory.") + 1:]


def verdicts() -> list[tuple[int, str]]:
    """The statuses of all plays in the stored output, each with what was complained."""
    found: list[tuple[int, str]] = []
    for line in scenarios("stdout"):
        status = re.fullmatch(r"status (\d+)", line)
        if status:
            found.append((int(status.group(1)), ""))
        elif line.startswith("complained ") and found:
            found[-1] = (found[-1][0], line[len("complained "):])
    return found


def rows() -> Iterator[Given]:
    """The rows whose status is 0 or 2: their name, their line, their text, and the place of a refusal."""
    ends = iter(verdicts())
    for line in scenarios("stdin"):
        if not line or line.startswith("#"):
            continue
        head, tab, text = line.partition("\t")
        words = head.split() if tab else []
        if words and words[0] in STATUSLESS:
            continue
        text = text if tab else line
        for word in words:
            if word.startswith("times="):
                before, part, after = there(re.fullmatch(r"(.*?)<(.*?)>(.*)", text)).groups()
                text = before + part * int(word[len("times="):]) + after
        status, complaint = [next(ends) for _ in range(3 if "pieces" in words else 1)][-1]
        if status in (0, 2) and not any(word.startswith("words=") or word in OTHERS for word in words):
            place = None if status == 0 else complaint.removeprefix("fetchplay: scenario refused at ")
            yield Given(f"crates/rows_plays/stdin: {line[:100]}", line, text, place)
    if next(ends, None) is not None:
        sys.exit("schema/check: crates/rows_plays/stdout has more plays than stdin has rows")


def undescribed(schema: Any, known: dict[str, Any], place: str = "") -> Iterator[str]:
    """The keys of the schema that have no description, neither here nor in `known`, what it refers to."""
    if isinstance(schema, dict):
        for name, part in schema.get("properties", {}).items():
            if isinstance(part, dict) and "description" not in part and "const" not in part:
                target = part.get("$ref", "").removeprefix("#/$defs/")
                if "description" not in known.get(target, {}):
                    yield f"{place}/{name}"
        for name, part in schema.items():
            yield from undescribed(part, known, f"{place}/{name}")
    elif isinstance(schema, list):
        for part in schema:
            yield from undescribed(part, known, place)


def listed() -> Iterator[tuple[str, str]]:
    """The entries of the table of schema/README.md: the place of a refusal, and a part of the row."""
    for line in read("schema", "README.md").split("\n"):
        found = re.fullmatch(r"\| `(/[^`]*|json)` \| `([^`]*)` \| .* \|", line)
        if found:
            yield found.group(1), found.group(2)


def faults_of(name: str) -> Iterator[str]:
    """What is wrong in one of the schemas."""
    schema = json.loads(read("schema", name))
    try:
        jsonschema.Draft202012Validator.check_schema(schema)
    except jsonschema.SchemaError as error:
        yield f"{name}: {error.message} at {error.json_path}"
    yield from (f"{name}: {place} has no description" for place in undescribed(schema, schema["$defs"]))


SCHEMA = json.loads(read("schema", "scenario.schema.json"))


@unittest.skipIf(jsonschema is None, "python3 has no module jsonschema 4 here (Debian: python3-jsonschema)")
class Schemas(base.Checks):
    def test_schemas(self) -> None:
        for name in sorted(os.listdir(HERE)):
            if name.endswith(".schema.json"):
                self.compare(name, list(faults_of(name)), [])

    def test_scenarios(self) -> None:
        """Valid is what the program accepts. What it alone refuses stands in the table, each row once."""
        validator = jsonschema.Draft202012Validator(SCHEMA)
        accepted, refused, table = 0, 0, dict.fromkeys(listed(), 0)
        for name, line, text, place in [*examples(), *gallery(), *rows()]:
            wrong = why_invalid(validator, text)
            accepted, refused = accepted + (place is None), refused + (place is not None)
            if place is None:
                self.compare(f"{name} is accepted by the program: why it is not valid", wrong, None)
            elif wrong is None:
                entries = [entry for entry in table if entry[0] == place and entry[1] in line]
                table.update((entry, table[entry] + 1) for entry in entries)
                self.compare(f"{name} is refused at {place}, and valid: is it in schema/README.md", bool(entries), True)
        for (place, part), count in table.items():
            self.compare(f"schema/README.md has {part} at {place}: rows that only the program refuses", count, 1)
        self.counted(f"{accepted} accepted scenarios are valid; of {refused} refused ones {len(table)} are found by "
                     "the program alone")


def why_invalid(validator: Any, text: str) -> str | None:
    """Why a text is not valid, or None."""
    try:
        error = next(iter(validator.iter_errors(value_of(text))), None)
    except NoText:
        return "no JSON text"
    return None if error is None else f"refused at /{'/'.join(map(str, error.absolute_path))}"


def main() -> int:
    return base.main("schema/check", __name__)
