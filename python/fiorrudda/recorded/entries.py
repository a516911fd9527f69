"""Reads one entry of a HAR, with the `_` fields of Chromium's tools, Playwright and WebPageTest where they are
there."""
from __future__ import annotations

import datetime
import functools
import re
from typing import Any, Optional

from fiorrudda.commands.scenario import origin_of
from fiorrudda.commands.urls import scheme_of
from fiorrudda.recorded import fields
from fiorrudda.recorded.fields import Bad
from fiorrudda.recorded.model import Entry

SCHEME = re.compile(r"[A-Za-z][A-Za-z0-9+.-]*:")
TOKEN = re.compile(r"[!#$%&'*+\-.^_`|~0-9A-Za-z]+")
TIME = re.compile(r"(\d{4}-\d\d-\d\d)[T ](\d\d:\d\d:\d\d)(\.\d+)?(Z|[+-]\d\d:?\d\d)?")
BREAKS = re.compile(r"[\r\n\x00]+")
MOST_STATUS = 999
MOST_KNOWN = 4096
KNOWN: dict[str, str] = {}  # names of headers that were seen, each a token, in lower case
Headers = tuple[list[tuple[str, str]], dict[str, list[str]]]


def read(data: Any, number: int) -> Entry:
    """The entry of this number; raises Bad where it is none."""
    place = f"entries[{number}]"
    fields.want(data, dict, place)
    request = fields.want(data.get("request"), dict, place + ".request")
    response = fields.object_of(data, "response", place)
    method = fields.text_of(request, "method", place + ".request")
    if not is_token(method):
        raise Bad(f"{place}.request.method is no method: {method[:40]!r}")
    url = fields.text_of(request, "url", place + ".request").strip()
    origin = origin_of(url)
    if not SCHEME.match(url) or origin is None and is_without_host(url):
        raise Bad(f"{place}.request.url is no whole URL: {url[:80]!r}")
    sent, sent_values = headers_of(request, place + ".request")
    got, got_values = headers_of(response, place + ".response")
    cookies = fields.list_of(request, "cookies", place + ".request")
    entry = Entry(
        number=number, page=page_of(data, place), started=time_of(data.get("startedDateTime")), method=method, url=url,
        origin=origin, sent=sent, status=status_of(response, place + ".response"),
        got=got, sent_values=sent_values, got_values=got_values,
        content=fields.object_of(response, "content", place + ".response"), error=error_of(data, request, response),
        resource_type=fields.any_text(data, "_resourceType", "_request_type", "_resource_type").lower(),
        initiator=initiator_of(data), redirect=fields.any_text(response, "redirectURL"),
        is_from_worker=response.get("_fetchedViaServiceWorker") is True, took=took_of(data.get("time")))
    entry.has_cookies = bool(cookies) or "cookie" in sent_values
    return entry


def is_without_host(url: str) -> bool:
    """Whether a URL of a scheme that has hosts has none that can be read."""
    scheme = scheme_of(url)
    return scheme in ("http", "https") or scheme in ("ws", "wss") and origin_of("http" + url[2:]) is None


def page_of(data: fields.Object, place: str) -> Optional[str]:
    page = data.get("pageref")
    return None if page is None else fields.clean(fields.want(page, str, place + ".pageref"))


def headers_of(data: fields.Object, place: str) -> Headers:
    """The headers, a pair for each line, and the values of each name in lower case: some tools join equal ones by line
    ends, or by zero bytes. Pseudo headers of HTTP/2, as `:path`, are no headers."""
    found: list[tuple[str, str]] = []
    values: dict[str, list[str]] = {}
    for index, one in enumerate(fields.list_of(data, "headers", place)):
        try:
            name, value = one["name"], one["value"]
            lowered = KNOWN[name] if value.isprintable() else ""  # as nearly all are
        except (TypeError, KeyError, AttributeError):
            lowered = ""
        if not lowered:
            for name, value in lines_of(one, f"{place}.headers[{index}]"):
                add(found, values, name, value)
            continue
        value = value.strip(" ")
        found.append((name, value))
        if lowered in values:
            values[lowered].append(value)
        else:
            values[lowered] = [value]
    return found, values


def add(found: list[tuple[str, str]], values: dict[str, list[str]], name: str, value: str) -> None:
    found.append((name, value))
    values.setdefault(name.lower(), []).append(value)


def lines_of(data: Any, place: str) -> list[tuple[str, str]]:
    """The pairs of a header of which nothing is known; raises Bad where it is none."""
    fields.want(data, dict, place)
    name, value = fields.text_of(data, "name", place), fields.text_of(data, "value", place)
    if not is_token(name):
        return []
    if len(KNOWN) < MOST_KNOWN:
        KNOWN[name] = name.lower()
    return [(name, line.strip("\t ")) for line in BREAKS.split(value)]


def is_token(name: str) -> bool:
    return TOKEN.fullmatch(name) is not None


def status_of(response: fields.Object, place: str) -> int:
    """The status of the answer; 0 where none came, which some tools write as -1."""
    status = fields.number_of(response, "status", place)
    if status > MOST_STATUS or 0 < status < 100:
        raise Bad(f"{place}.status is {status}, which is no status")
    return max(status, 0)


def error_of(data: fields.Object, request: fields.Object, response: fields.Object) -> str:
    return (fields.any_text(response, "_error", "_failureText") or fields.any_text(data, "_error", "_failureText")
            or fields.any_text(request, "_failureText"))


def initiator_of(data: fields.Object) -> str:
    """The URL of what asked: that of a script's call, or what WebPageTest writes."""
    told = data.get("_initiator")
    if isinstance(told, str):
        return fields.clean(told)
    if not isinstance(told, dict):
        return ""
    stack = told.get("stack")
    while isinstance(stack, dict):
        frames = stack.get("callFrames")
        for frame in frames if isinstance(frames, list) else []:
            if isinstance(frame, dict) and fields.any_text(frame, "url"):
                return fields.any_text(frame, "url")
        stack = stack.get("parent")
    return fields.any_text(told, "url")


def took_of(milliseconds: Any) -> float:
    """Seconds of a time in milliseconds; 0 of another value, such as the -1 of what is not known."""
    is_number = isinstance(milliseconds, (int, float)) and not isinstance(milliseconds, bool)
    took: float = milliseconds / 1000 if is_number and 0 < milliseconds < 1e9 else 0
    return took


def time_of(text: Any) -> Optional[float]:
    """Seconds of a time in the form of ISO 8601; None of another value."""
    if not isinstance(text, str):
        return None
    found = TIME.fullmatch(text.strip())
    if not found:
        return None
    day, time, fraction, zone = found.groups()
    begun = second_of(day, time, zone or "Z")
    return None if begun is None else begun + float(fraction or 0)


@functools.lru_cache(1024)
def second_of(day: str, time: str, zone: str) -> Optional[float]:
    """The second of a time, which many entries share; None of one that no clock shows."""
    zone = "+00:00" if zone == "Z" else zone if ":" in zone else zone[:3] + ":" + zone[3:]
    try:
        return datetime.datetime.fromisoformat(f"{day}T{time}{zone}").timestamp()
    except (ValueError, OverflowError):
        return None
