"""Writes a recording without its secrets: cookies, Authorization, bodies, and what WebSockets carried. The keys of each
object that are listed here stay, and no other. Values in URLs and in other headers stay, since nothing says which of
them are secret; their names are told."""
from __future__ import annotations

import json
from typing import Any, Optional
from urllib.parse import parse_qsl, urlsplit

from fiorrudda.commands import files, guards
from fiorrudda.commands.urls import without_user_info
from fiorrudda.recorded.commands_of import ADDED

MARK = "bin/har --redact"
SECRET = {"cookie", "cookie2", "set-cookie", "set-cookie2", "authorization", "proxy-authorization",
          "authentication-info", "proxy-authentication-info"}
GONE = "redacted"
LOG = ("version", "_madeBy")
NAMED = ("name", "version")
PAGE = ("id", "title", "startedDateTime", "_URL", "_url")
ENTRY = ("pageref", "startedDateTime", "time", "serverIPAddress", "connection", "_resourceType", "_request_type",
         "_resource_type", "_priority", "_securityState", "_fromCache", "_error", "_failureText")
MESSAGE = ("method", "url", "httpVersion", "headersSize", "bodySize", "status", "statusText", "redirectURL",
           "_transferSize", "_error", "_failureText", "_fetchedViaServiceWorker")
BODY = ("size", "mimeType", "compression")
INITIATOR = ("type", "url", "lineNumber")
MOST_NAMES = 20


def redacted(log: dict[str, Any]) -> dict[str, Any]:
    """The recording of a log without its secrets. What is no entry goes."""
    found: dict[str, Any] = {**kept(log, LOG), "_madeBy": MARK}
    for key in ("creator", "browser"):
        if isinstance(log.get(key), dict):
            found[key] = kept(log[key], NAMED)
    found["pages"] = [{**kept(page, PAGE), "pageTimings": {}} for page in objects(log.get("pages"))]
    found["entries"] = list(map(redacted_entry, objects(log["entries"])))
    return {"log": found}


def kept(data: dict[str, Any], keys: tuple[str, ...]) -> dict[str, Any]:
    """The plain values of these keys."""
    return {key: data[key] for key in keys if key in data and not isinstance(data[key], (dict, list))}


def objects(values: Any) -> list[dict[str, Any]]:
    return [one for one in values if isinstance(one, dict)] if isinstance(values, list) else []


def redacted_entry(entry: dict[str, Any]) -> dict[str, Any]:
    timings: dict[str, Any] = entry["timings"] if isinstance(entry.get("timings"), dict) else {}
    initiator = entry.get("_initiator")
    told = {"_initiator": kept(initiator, INITIATOR) if isinstance(initiator, dict) else initiator} \
        if isinstance(initiator, (dict, str)) else {}
    return {**kept(entry, ENTRY), **told, "request": redacted_message(entry.get("request"), "postData"),
            "response": redacted_message(entry.get("response"), "content"), "cache": {},
            "timings": {key: value for key, value in timings.items() if isinstance(value, (int, float))}}


def redacted_message(message: Any, body: str) -> dict[str, Any]:
    message = message if isinstance(message, dict) else {}
    headers = list(map(redacted_header, objects(message.get("headers"))))
    found: dict[str, Any] = {**kept(message, MESSAGE), "cookies": [], "headers": headers}
    if isinstance(found.get("url"), str):
        found["url"] = without_user(found["url"])
    if message.get(body) is not None:
        own = message[body] if isinstance(message[body], dict) else {}
        found[body] = {**kept(own, BODY), "comment": GONE}
    return {**found, "queryString": []} if body == "postData" else found


def redacted_header(header: dict[str, Any]) -> dict[str, Any]:
    found = kept(header, ("name", "value"))
    return {**found, "value": GONE} if name_of(header) in SECRET else found


def name_of(header: dict[str, Any]) -> str:
    return str(header.get("name", "")).strip().lower()


def without_user(url: str) -> str:
    try:
        return without_user_info(url) if "@" in url else url
    except ValueError:
        return url


# ---- what stays

def notes(log: dict[str, Any]) -> list[str]:
    """What is to be said of what stays."""
    found = ["values in URLs and in other headers are not guessed to be secrets, and stay: look at them"]
    for what, own in (("keys of queries", query_keys(log)), ("headers of requests", header_names(log))):
        more = f", and {len(own) - MOST_NAMES} more" if len(own) > MOST_NAMES else ""
        found += [f"{what} that stay: {', '.join(own[:MOST_NAMES])}{more}"] if own else []
    return found


def query_keys(log: dict[str, Any]) -> list[str]:
    keys: set[str] = set()
    for request in requests(log):
        try:
            query = urlsplit(str(request.get("url", ""))).query
            keys.update(name for name, _ in parse_qsl(query, keep_blank_values=True))
        except ValueError:
            continue
    return sorted(keys)


def header_names(log: dict[str, Any]) -> list[str]:
    """Those that no browser adds itself."""
    names = {name_of(one) for request in requests(log) for one in objects(request.get("headers"))}
    return sorted(name for name in names - SECRET - ADDED - {"accept", "content-type"}
                  if not name.startswith(":") and guards.in_place(name, "") is None)


def requests(log: dict[str, Any]) -> list[dict[str, Any]]:
    return [entry["request"] for entry in objects(log["entries"]) if isinstance(entry.get("request"), dict)]


# ---- the file

def is_own(data: bytes) -> bool:
    """Whether a file's bytes are a recording that was written here."""
    return bool(json.loads(data.decode("utf-8"))["log"]["_madeBy"] == MARK)


def write(path: str, log: dict[str, Any]) -> Optional[str]:
    """Writes the file, for its owner alone. What is wrong, in a sentence, or None."""
    text = json.dumps(redacted(log), ensure_ascii=False, indent=1)
    return files.refusal(path, "--redact", is_own) or files.replace(path, (text + "\n").encode("utf-8", "replace"))
