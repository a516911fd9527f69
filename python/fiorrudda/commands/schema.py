"""Checks a tree of json_text by a JSON Schema, as far as those of schema/ use one, and tells what does not fit: where,
what may stand there, and what the schema says of it. Whole numbers are looked at as they are written: 1.0 is none."""
from __future__ import annotations

import json
import re
from typing import TYPE_CHECKING

if TYPE_CHECKING:
    from collections.abc import Iterator
    from typing import Any

    from fiorrudda.commands.json_text import Node
    from fiorrudda.commands.shapes import Object, Path

KINDS = {"object": "object", "array": "list", "string": "string", "integer": "number", "boolean": "word",
         "null": "word"}


class Problem:
    """What does not fit. `place` is as the program tells it: keys and numbers after slashes, of a key that does not
    belong the place of its object. `kind` is unknown, missing, type, word, number, length, text, form or beside;
    `schemas` are those that hold at the place, and `name` is the key that is about."""

    def __init__(self, kind: str, node: Node, path: Path, schemas: list[Any], name: Any = None,
                 wanted: Any = None) -> None:
        self.kind = kind
        self.node = node
        self.path = path
        self.schemas = schemas
        self.name = name
        self.wanted = wanted

    @property
    def place(self) -> str:
        path = self.path + [self.name] if self.kind == "missing" else self.path
        return "/" + "/".join(map(str, path))

    def described(self) -> str:
        """The schema's sentence."""
        return next((one["description"] for one in self.schemas if isinstance(one, dict) and "description" in one), "")

    def is_of(self, name: str) -> bool:
        """Whether the definition of this name holds here."""
        return any(isinstance(one, dict) and one.get("is") == name for one in self.schemas)


class Schema:
    """A schema of a file, with its patterns as they were compiled."""

    def __init__(self, path: str) -> None:
        with open(path, encoding="utf-8") as file:
            self.root = json.load(file)
        for name, one in self.root["$defs"].items():
            one["is"] = name
        self.patterns: dict[str, re.Pattern[str]] = {}

    def check(self, root: Node) -> list[Problem]:
        """The problems of a tree, in the order of their places; one for each node and each key that it lacks."""
        found: dict[tuple[int, str | None], Problem] = {}
        for problem in Check(self).problems(root, self.root, []):
            found.setdefault((problem.node.start, problem.name if problem.kind == "missing" else None), problem)
        return sorted(found.values(), key=lambda problem: problem.node.start)

    def linked(self, schema: Any) -> list[Any]:
        """The schema itself, and what it refers to."""
        if schema is False or "$ref" not in schema:
            return [schema]
        own = {key: value for key, value in schema.items() if key != "$ref"}
        return [own] + self.linked(self.root["$defs"][schema["$ref"].rpartition("/")[2]])

    def matches(self, text: str, schema: Any) -> bool:
        """Whether a text matches the pattern, where there is one."""
        if "pattern" not in schema:
            return True
        if schema["pattern"] not in self.patterns:
            self.patterns[schema["pattern"]] = re.compile(schema["pattern"])
        return self.patterns[schema["pattern"]].search(text) is not None

    def owners(self, name: str) -> list[Object]:
        """The definitions that have this key."""
        return [one for one in self.root["$defs"].values() if name in one.get("properties", {})]


class Check:
    """One check of a tree. Whether a node fits a form is kept: each form around it asks again, so that of commands
    inside each other each level would double the time."""

    def __init__(self, schema: Schema) -> None:
        self.schema = schema
        self.kept: dict[tuple[int, int], bool] = {}

    def fits(self, node: Node, form: Any) -> bool:
        """Whether a node has no problem by a form."""
        key = id(node), id(form)
        if key not in self.kept:
            self.kept[key] = next(self.problems(node, form, []), None) is None
        return self.kept[key]

    def problems(self, node: Node, schema: Any, path: Path) -> Iterator[Problem]:
        schemas = self.schema.linked(schema)
        for one in schemas:
            yield from self.own(node, one, path, schemas)

    def own(self, node: Node, schema: Any, path: Path, schemas: list[Any]) -> Iterator[Problem]:
        if schema is False:
            yield Problem("beside", node, path, schemas)
            return
        if "type" in schema and not is_of_type(node, schema["type"]):
            yield Problem("type", node, path, schemas, wanted=schema["type"])
            return
        allowed = schema.get("enum", [schema["const"]] if "const" in schema else None)
        if allowed is not None and not any(is_equal(node, value) for value in allowed):
            yield Problem("word", node, path, schemas, wanted=allowed)
        inside = {"object": self.of_object, "list": self.of_list, "string": self.of_text, "number": self.of_number}
        if node.kind in inside:
            yield from inside[node.kind](node, schema, path, schemas)
        yield from self.of_conditions(node, schema, path)
        yield from self.of_alternatives(node, schema, path, schemas)

    def of_object(self, node: Node, schema: Any, path: Path, schemas: list[Any]) -> Iterator[Problem]:
        properties = schema.get("properties", {})
        others = schema.get("additionalProperties")
        last = {key.value: value for key, value in node.members}
        for key, value in node.members:
            own = properties.get(key.value)
            if own is False:
                yield Problem("beside", key, path, schemas, name=key.value)
            elif own is None and others is False:
                yield Problem("unknown", key, path, schemas, name=key.value, wanted=list(properties))
            elif own is None and isinstance(others, dict):
                yield from self.problems(value, others, path + [key.value])
            elif own is not None and last[key.value] is value:
                yield from self.problems(value, own, path + [key.value])
        for name in schema.get("required", []):
            if name not in last:
                yield Problem("missing", node, path, self.schema.linked(properties.get(name, {})), name=name)

    def of_list(self, node: Node, schema: Any, path: Path, schemas: list[Any]) -> Iterator[Problem]:
        least, most = schema.get("minItems", 0), schema.get("maxItems", len(node.items))
        if not least <= len(node.items) <= most:
            yield Problem("length", node, path, schemas, wanted=(least, schema.get("maxItems")))
            return
        first = schema.get("prefixItems", [])
        for index, item in enumerate(node.items):
            own = first[index] if index < len(first) else schema.get("items")
            if own:
                yield from self.problems(item, own, path + [index])

    def of_text(self, node: Node, schema: Any, path: Path, schemas: list[Any]) -> Iterator[Problem]:
        length = len(node.value)
        has_length = schema.get("minLength", 0) <= length <= schema.get("maxLength", length)
        if not has_length or not self.schema.matches(node.value, schema):
            yield Problem("text", node, path, schemas)

    @staticmethod
    def of_number(node: Node, schema: Any, path: Path, schemas: list[Any]) -> Iterator[Problem]:
        least, most = schema.get("minimum", node.value), schema.get("maximum", node.value)
        if not least <= node.value <= most:
            yield Problem("number", node, path, schemas, wanted=(least, most))

    def of_conditions(self, node: Node, schema: Any, path: Path) -> Iterator[Problem]:
        if "if" in schema:
            branch = schema.get("then" if self.fits(node, schema["if"]) else "else")
            if branch is not None:
                yield from self.problems(node, branch, path)

    def of_alternatives(self, node: Node, schema: Any, path: Path, schemas: list[Any]) -> Iterator[Problem]:
        forms = schema.get("oneOf", [])
        if not forms or sum(self.fits(node, one) for one in forms) == 1:
            return
        meant = [one for one in forms if self.is_meant(node, one)]
        meant = meant or [one for one in forms if self.is_like(node, one)]
        if len(meant) == 1:
            yield from self.problems(node, meant[0], path)
        else:
            yield Problem("form", node, path, schemas, wanted=forms)

    def is_like(self, node: Node, form: Any) -> bool:
        """Whether a node is an object or a list, as an alternative is: then what is in it is wrong, and not that it is
        one."""
        kind = {"object": "object", "list": "array"}.get(node.kind)
        return kind is not None and any(one.get("type") == kind for one in self.schema.linked(form))

    def is_meant(self, node: Node, form: Any) -> bool:
        """Whether a node begins as an alternative does: by a key that it must have, or by its first item."""
        for one in self.schema.linked(form):
            if node.kind == "object" and any(key.value in one.get("required", []) for key, _ in node.members):
                return True
            parts = one.get("prefixItems", [])[:1]
            first = one["const"][:1] if "const" in one else [part.get("const") for part in parts]
            if node.kind == "list" and node.items and first and is_equal(node.items[0], first[0]):
                return True
            if node.kind not in ("object", "list") and one.get("type") and is_of_type(node, one["type"]):
                return True
        return False


def is_of_type(node: Node, kinds: str | list[str]) -> bool:
    """Whether a node has a type, or one of a list of them."""
    return any(is_of_kind(node, kind) for kind in ([kinds] if isinstance(kinds, str) else kinds))


def is_of_kind(node: Node, kind: str) -> bool:
    if node.kind != KINDS[kind]:
        return False
    more = {"integer": node.is_whole(), "boolean": isinstance(node.value, bool), "null": node.value is None}
    return more.get(kind, True)


def is_equal(node: Node, value: Any) -> bool:
    if isinstance(value, list):
        return node.kind == "list" and len(node.items) == len(value) and all(map(is_equal, node.items, value))
    same = node.kind in ("string", "number", "word") and type(node.value) is type(value) and node.value == value
    return same and (node.kind != "number" or node.is_whole())
