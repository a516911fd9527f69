"""Reads the parts of a JSON value whose types nobody has promised: each has its type, or a sentence says what is
there."""
from __future__ import annotations

from typing import Any

from fiorrudda.commands import streams

Object = dict[str, Any]  # of JSON

NAMES = {dict: "an object", list: "a list", str: "a text", bool: "true or false", int: "a number", float: "a number",
         type(None): "null"}


class Bad(Exception):
    """What is wrong with a value, in a sentence with its place."""


def told(value: Any) -> str:
    return NAMES.get(type(value), "no JSON")


def want(value: Any, kind: type, place: str) -> Any:
    if not isinstance(value, kind) or isinstance(value, bool) and kind is not bool:
        raise Bad(f"{place} is {told(value)}, and {NAMES[kind]} belongs there")
    return value


def object_of(data: Object, key: str, place: str) -> Object:
    """The object of a key; an empty one where there is none."""
    value = data.get(key)
    found: Object = {} if value is None else want(value, dict, f"{place}.{key}")
    return found


def list_of(data: Object, key: str, place: str) -> list[Any]:
    value = data.get(key)
    found: list[Any] = [] if value is None else want(value, list, f"{place}.{key}")
    return found


def text_of(data: Object, key: str, place: str) -> str:
    """The text of a required key."""
    value = data.get(key)
    if type(value) is str:
        return clean(value)
    raise Bad(f"{place}.{key} is {told(value)}, and a text belongs there" if key in data else f"{place} has no {key}")


def any_text(data: Object, *keys: str) -> str:
    """The first text of some keys that tools write in different ways, or an empty one."""
    for key in keys:
        value = data.get(key)
        if value and isinstance(value, str):
            return clean(value)
    return ""


def clean(text: str) -> str:
    """The text, where a replacement character stands for half of a surrogate pair."""
    return text if text.isascii() else streams.HALF.sub("\ufffd", text)


def number_of(data: Object, key: str, place: str) -> int:
    """The whole number of a key; 0 where there is none."""
    value = data.get(key)
    if value is None:
        return 0
    is_number = isinstance(value, (int, float)) and not isinstance(value, bool) and abs(value) < 1e15
    if not is_number or int(value) != value:
        raise Bad(f"{place}.{key} is {told(value)}, and a whole number belongs there")
    return int(value)
