"""What an answer lacks that CORS wants of it, one by one; and the answer that has it. What a server sends already
stays: a list is extended."""
from __future__ import annotations

from typing import Any, Iterable, NamedTuple, Optional

from fiorrudda.commands.needs import ALLOW_HEADERS, ALLOW_METHODS, VARY, items_of, merged

Key = tuple[str, str, str]  # origin, method, request target
STATUS = "status"
LISTS = {ALLOW_METHODS: False, ALLOW_HEADERS: True, VARY: True}  # whether the items are names, which have no case


class Lack(NamedTuple):
    """A header with its value, an item of a list, or a status. An empty item wants no more than a list of tokens.
    `is_named` says that names are to stand in the place of a `*`, which is no wildcard with credentials."""

    name: str
    value: str
    is_named: bool = False


Lacks = dict[Key, tuple[Lack, ...]]


def value_of(headers: Iterable[Iterable[str]], name: str) -> Optional[str]:
    """All values of a name, joined; None where there is none."""
    values = [value for own, value in headers if own.lower() == name.lower()]
    return ", ".join(values) if values else None


def with_lack(value: Optional[str], lack: Lack) -> str:
    """The value of its header then."""
    if lack.name not in LISTS:
        return lack.value
    kept = ", ".join(item for item in items_of(value) if item != "*") if lack.is_named else value
    return merged(kept, [lack.value] if lack.value else [], LISTS[lack.name])


def given(rule: dict[str, Any], lacks: Iterable[Lack]) -> dict[str, Any]:
    """The rule of an answer that has all of it."""
    for lack in lacks:
        if lack.name == STATUS:
            rule = {**rule, "status": int(lack.value)}
            continue
        left = [pair for pair in rule["headers"] if pair[0].lower() != lack.name.lower()]
        value = with_lack(value_of(rule["headers"], lack.name), lack)
        rule = {**rule, "headers": [*left, [lack.name, value]]}
    return rule
