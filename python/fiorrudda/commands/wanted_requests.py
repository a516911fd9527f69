"""The requests that a test of bin/expect names: a method, alone or with a target or a URL, as "PUT /x"; or an object,
which says of the headers too what the request has and lacks."""
from __future__ import annotations

import re
from typing import TYPE_CHECKING

from fiorrudda.commands import edits, test_words
from fiorrudda.commands.case import Request
from fiorrudda.commands.needs import TOKEN

if TYPE_CHECKING:
    from collections.abc import Iterable
    from typing import Any

    from fiorrudda.commands.case import Case
    from fiorrudda.commands.shapes import AnyRequest

FORM = re.compile(rf"{TOKEN.pattern}(?: (?:/|https?://)\S*)?")
SECRETS = ("cookie", "authorization")
EXAMPLE = '{"request": "PUT /x", "has": {"Cookie": true}}'


def problem(text: str) -> str | None:
    """What is wrong with a request's text, in a sentence; None where nothing is."""
    if FORM.fullmatch(text):
        return test_words.request_problem(text)
    return 'a request is a method and a target, such as "PUT /x"; with headers it is an object, such as ' + EXAMPLE


def text_of(wanted: Any) -> str:
    return str(wanted["request"] if isinstance(wanted, dict) else wanted)


def method_of(wanted: Any) -> str:
    return text_of(wanted).partition(" ")[0]


def values_of(request: AnyRequest, name: str) -> str | None:
    """All values that a request has of a header, joined; None where it has none."""
    values = [value for own, value in request.headers if own.lower() == name.lower()]
    return ", ".join(values).encode("latin-1", "replace").decode("utf-8", "replace") if values else None


def is_met(wanted: Any, request: AnyRequest) -> bool:
    """Whether a request is one that a test names."""
    method, _, where = text_of(wanted).partition(" ")
    is_there = method == request.method and where in ("", request.target, request.origin + request.target)
    return is_there and (isinstance(wanted, str) or has_headers(wanted, request))


def with_secret(own: list[Any], others: list[Any], case: Case) -> bool:
    """Whether a test wants a fetch to send a cookie or Authorization: by its own requests, or by one of its URL."""
    asked = case.request and Request(case.asked_url, case.method)
    wanted = [*own, *(one for one in others if asked and is_met(text_of(one), asked))]
    return any(name.lower() in SECRETS for one in wanted if isinstance(one, dict) for name in one.get("has", {}))


def has_headers(wanted: Any, request: AnyRequest) -> bool:
    has = all(values_of(request, name) is not None and value in (True, values_of(request, name))
              for name, value in wanted.get("has", {}).items())
    return has and all(values_of(request, name) is None for name in wanted.get("lacks", []))


def told(wanted: Any) -> str:
    """What a test names, in words."""
    if isinstance(wanted, str):
        return wanted
    has = [name if value is True else f"{name}: {value}" for name, value in wanted.get("has", {}).items()]
    return text_of(wanted) + with_headers(has, wanted.get("lacks", []))


def with_headers(has: list[str], lacks: list[str]) -> str:
    parts = [f"{word} {edits.listed(names)}" for word, names in (("with", has), ("without", lacks)) if names]
    return " " + " and ".join(parts) if parts else ""


def named(request: AnyRequest, wanted: Iterable[Any] = ()) -> str:
    """A request that was sent, and of the headers that a test looks at which it has."""
    names = {name.lower(): name for one in wanted if isinstance(one, dict)
             for name in [*one.get("has", {}), *one.get("lacks", [])]}
    values = {name: values_of(request, name) for name in names.values()}
    has = [f"{name}: {value}" for name, value in values.items() if value is not None]
    lacks = [name for name, value in values.items() if value is None]
    return f"{request.method} {request.origin}{request.target}{with_headers(has, lacks)}"
