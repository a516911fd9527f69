"""For the check: recordings of plays, written as Firefox or as Chromium writes what they came to. A request that a
policy or a preflight stopped is an entry without status and headers, before its OPTIONS; Chromium tells an error of
what CORS or Cross-Origin-Resource-Policy refused, and Firefox nothing."""
from __future__ import annotations

import html
from typing import Any, Iterator

from fiorrudda.commands.case import Case
from fiorrudda.commands.play_text import is_preflight
from fiorrudda.commands.urls import is_trustworthy
from tests.commands import cases
from tests.recorded.recordings import HTML, headers

AGENTS = {"firefox": "Mozilla/5.0 (X11; Linux x86_64; rv:153.0) Gecko/20100101 Firefox/153.0",
          "chromium": "Mozilla/5.0 (X11; Linux x86_64) AppleWebKit/537.36 (KHTML, like Gecko) Chrome/156.0.0.0"}
CREATORS = {"firefox": "Firefox", "chromium": "WebInspector"}
TYPES = {"style": "stylesheet", "audio": "media", "video": "media"}
TAGS = {"script": "<script src={}></script>", "style": "<link rel=stylesheet href={}>", "image": "<img src={}>",
        "audio": "<audio src={}></audio>", "video": "<video src={}></video>", "manifest": "<link rel=manifest href={}>"}
ERRORS = {12: "net::ERR_FAILED", 13: "net::ERR_BLOCKED_BY_RESPONSE.NotSameOrigin", 15: "net::ERR_INVALID_REDIRECT",
          16: "net::ERR_UNSAFE_REDIRECT", 17: "net::ERR_TOO_MANY_REDIRECTS", 18: "net::ERR_FAILED"}
BLOCKED = {4: "net::ERR_BLOCKED_BY_CSP"}

# The ways of python/tests/commands/cases.py that no recording tells, and why.
UNTOLD = {
    "cors/no-rule": "it is of scenarios alone",
    "same-origin/known-host": "nothing is sent, so the mode is not recorded",
    "same-origin/other": "nothing is sent, so the mode is not recorded",
    "no-cors/redirect-mode": "the redirect mode is not recorded",
    "redirect/mode-error": "the redirect mode is not recorded",
    "integrity/opaqueredirect": "the redirect mode is not recorded",
    "integrity/incomplete": "what a body should have been is not recorded",
    "integrity/toobig": "it is of scenarios alone",
    "policy/response": "the URL before the upgrade is not recorded",
    "mixed/top": "the frame itself would have been blocked",
    "no-verdict/data": "a browser loads it", "no-verdict/blob": "a browser loads it",
    "no-verdict/websocket": "a browser loads it", "no-verdict/coded": "a recording has the decoded body",
    "scheme/host-taken-for-it": "tools record no such URL", "scheme/other": "tools record no such URL"}


def told_ways() -> Iterator[tuple[str, dict[str, Any]]]:
    """The ways that a recording tells, with their scenarios. The integrity text of a fetch is in no HTML: a script
    has it in its place."""
    groups = (cases.CORS, cases.PREFLIGHTS, cases.UNLOADED, cases.BEFORE_SENDING, cases.POLICIES, cases.ANSWERS)
    for group in groups:
        for name, data in group.items():
            if name not in UNTOLD and not name.startswith("head/"):
                yield name, with_scripts(data)


def with_scripts(data: dict[str, Any]) -> dict[str, Any]:
    document = data["documents"][0]
    script = [{"load": {"kind": "script", "url": one["fetch"]["url"], "integrity": one["fetch"]["integrity"],
                        "crossorigin": "anonymous"}} if "integrity" in one.get("fetch", {}) else one
              for one in document["script"]]
    return {**data, "documents": [{**document, "script": script}]}


def recording(data: dict[str, Any], played: list[Case], browser: str) -> dict[str, Any]:
    """The recording of a scenario's play."""
    document = data["documents"][0]
    page = entry(browser, document["url"], "document", 200, [*HTML, *document.get("headers", [])], (), "GET")
    page["response"]["content"] = {"text": "<p>" + "".join(map(tag_of, document["script"]))}
    entries = [page] + [one for case in played for one in entries_of(case, browser)]
    return {"log": {"creator": {"name": CREATORS[browser]}, "entries": entries}}


def tag_of(command: dict[str, Any]) -> str:
    """The element that loads, where the parser inserts one."""
    load = command.get("load")
    if load is None or load["kind"] not in TAGS or not load.get("parser", True):
        return ""
    names = [name for name in ("integrity", "nonce", "crossorigin") if name in load]
    attributes = "".join(f' {name}="{html.escape(load[name])}"' for name in names)
    return TAGS[load["kind"]].format(f'"{html.escape(load["url"])}"{attributes}')


def entries_of(case: Case, browser: str) -> Iterator[dict[str, Any]]:
    """All entries of a fetch or load, the preflights behind their requests."""
    number = case.result.number
    is_stopped = case.refused_before or (case.request is not None and is_preflight(case.request))
    waiting: list[dict[str, Any]] = []
    for request, answer in case.exchanges:
        one = sent(case, request, answer, browser)
        if is_preflight(request):
            waiting.append(one)
        else:
            yield one
            yield from waiting
            waiting = []
    if browser == "chromium" and not is_stopped and number in ERRORS:
        one["response"]["_error"] = ERRORS[number]
    if is_stopped and (browser == "chromium" or not case.chain):
        yield entry(browser, case.url, case.kind, 0, (), (), case.method, BLOCKED.get(number, "net::ERR_FAILED"))
    yield from waiting


def sent(case: Case, request: Any, answer: Any, browser: str) -> dict[str, Any]:
    """The entry of a request that reached a server."""
    own = [pair for pair in request.headers if pair[0].lower() not in ("user-agent", "cookie")]
    own.append(("User-Agent", AGENTS[browser]))
    if case.includes and not is_preflight(request):
        own.append(("Cookie", "sid=7"))
    if is_trustworthy(request.origin):
        destination = "empty" if case.kind == "fetch" else case.kind
        own += [("Sec-Fetch-Dest", destination), ("Sec-Fetch-Mode", case.command.options["mode"])]
    status, got = (answer.head.status, answer.head.headers) if answer.head else (0, [])
    one = entry(browser, case.whole(request), case.kind, status, got, own, request.method)
    if answer.head:
        one["response"]["content"] = {"size": len(answer.body()), "text": answer.body().decode("latin-1")}
    return one


def entry(browser: str, url: str, kind: str, status: int, got: Any, own: Any, method: str,
          error: str = "") -> dict[str, Any]:
    """An entry as the browser writes it; of one that reached no server Firefox has no header."""
    more = {"_resourceType": TYPES.get(kind, kind)} if browser == "chromium" else {}
    if kind == "document":
        own = [("User-Agent", AGENTS[browser]), ("Sec-Fetch-Dest", "document")]
    response = {"status": status, "headers": headers(got), "content": {}}
    if browser == "chromium":
        response["_error"] = error or None
    return {**more, "request": {"method": method, "url": url, "headers": headers(own)}, "response": response}
