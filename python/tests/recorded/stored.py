"""For the check: recordings of what browsers really did. browsers/corpus has the requests that Chromium and Firefox
sent for a scenario, with their headers, and what came of each; this writes them as the browser's tools would."""
from __future__ import annotations

import glob
import json
import os
import re
from dataclasses import dataclass
from typing import Any, Iterator, NamedTuple, Optional

from fiorrudda.commands import answers
from fiorrudda.commands.scenario import Scenario, joined
from fiorrudda.commands.shapes import Pairs
from fiorrudda.names import CORS_LOADS
from fiorrudda.places import ROOT
from tests.recorded import made
from tests.recorded.recordings import HTML

CORPUS = os.path.join(ROOT, "browsers", "corpus")
FAILED = ("error", "failed", "type-error", "late")
# Scenarios of which no recording is made: of bytes that are no head, and of URLs that no tool records.
LEFT_OUT = ("wire", "urls/schemes")
# Where both refuse, for reasons of their own: docs/BROWSERS.md, `policy-before-scheme`, `policy-before-port` and
# `blank-in-a-host`.
OTHER_CAUSES = ("reports/other-schemes", "reports/bad-port-and-policy", "urls/blank-in-a-host")
# What the tools of Chromium tell no error of.
SILENT = re.compile("integrity|MIME|nosniff", re.I)
ORDER = "2026-12-01T%02d:%02d:%02d.%06dZ"


@dataclass
class Request:
    """One that a browser sent."""

    origin: str
    method: str
    target: str
    headers: Pairs
    kind: str = "send"


class Stored(NamedTuple):
    """A recording, the commands of its scenario's script, what the browser made of each, and of which command each
    entry is."""

    name: str
    browser: str
    data: dict[str, Any]
    commands: list[dict[str, Any]]
    told: list[dict[str, Any]]
    owners: dict[int, int]


def all_of(browser: str) -> Iterator[Stored]:
    """The recordings of a browser's stored answers, of scenarios whose script is a plain list of fetches and loads."""
    for path in sorted(glob.glob(os.path.join(CORPUS, "*", f"*.{browser}.json"))):
        name = os.path.relpath(path, CORPUS)[:-len(f".{browser}.json")]
        scenario, told = read(os.path.join(CORPUS, name + ".json")), read(path)["commands"]
        script = scenario["documents"][0]["script"]
        commands = [one for one in script if "wait" not in one]
        is_plain = all(set(one) <= {"fetch", "load", "wait"} for one in script) and "${" not in json.dumps(script)
        if is_plain and len(commands) == len(told) and not name.startswith(LEFT_OUT):
            yield Writer(browser, scenario).stored(name, commands, told)


def read(path: str) -> Any:
    with open(path, encoding="utf-8") as file:
        return json.load(file)


class Writer:
    """Writes the recording of one scenario."""

    def __init__(self, browser: str, scenario: dict[str, Any]):
        self.browser = browser
        self.scenario = Scenario(None, scenario)
        self.document = scenario["documents"][0]
        self.entries: list[dict[str, Any]] = []
        self.owners: dict[int, int] = {}

    def stored(self, name: str, commands: list[dict[str, Any]], told: list[dict[str, Any]]) -> Stored:
        for host in self.scenario.data.get("hsts", []):
            field = "max-age=600; includeSubDomains" if host["subdomains"] else "max-age=600"
            self.add(self.page(f"https://{host['host']}/", [["Strict-Transport-Security", field]]), 0, 0)
        page = self.page(self.document["url"], self.document.get("headers", []))
        page["response"]["content"] = {"text": "<p>" + "".join(map(made.tag_of, commands))}
        self.add(page, 1, 0)
        clocks = list(self.clocks())
        for number, (command, own) in enumerate(zip(commands, told)):
            for one in self.entries_of(command, own):
                self.owners[len(self.entries)] = number
                self.add(one, clocks[number], number + 1)
        data = {"log": {"creator": {"name": made.CREATORS[self.browser]}, "entries": self.entries}}
        return Stored(name, self.browser, data, commands, told, self.owners)

    def clocks(self) -> Iterator[int]:
        """At which second each command begins."""
        clock = 2
        for one in self.document["script"]:
            clock += one.get("wait", 0)
            if "wait" not in one:
                yield clock

    def add(self, entry: dict[str, Any], clock: int, number: int) -> None:
        place = (number * 1000 + len(self.entries)) % 1000000
        entry["startedDateTime"] = ORDER % (2 + clock // 3600, clock // 60 % 60, clock % 60, place)
        self.entries.append(entry)

    def page(self, url: str, headers: Any) -> dict[str, Any]:
        return made.entry(self.browser, url, "document", 200, [*HTML, *headers], (), "GET")

    def entries_of(self, command: dict[str, Any], told: dict[str, Any]) -> Iterator[dict[str, Any]]:
        """The entries of a command: its requests, a preflight behind its request, and one that was stopped."""
        waiting: list[dict[str, Any]] = []
        last: Optional[dict[str, Any]] = None
        for one in told["requests"]:
            request = Request(one["origin"], one["method"], one["target"], one["headers"])
            names = [name.lower() for name, _ in request.headers]
            entry = self.sent(command, request)
            if request.method == "OPTIONS" and "access-control-request-method" in names:
                waiting.append(entry)
                continue
            last = entry
            yield from [entry, *waiting]
            waiting = []
        if last is None or waiting:
            yield from [self.stopped(command, waiting), *waiting]
        elif is_failed(told) and self.browser == "chromium" and not SILENT.search(" ".join(told["reasons"])):
            last["response"]["_error"] = error_of(told["reasons"])

    def sent(self, command: dict[str, Any], request: Request) -> dict[str, Any]:
        kind = command["load"]["kind"] if "load" in command else "fetch"
        own = [(name, value) for name, value in request.headers if name.lower() != "user-agent"]
        own.append(("User-Agent", made.AGENTS[self.browser]))
        if request.origin.startswith("https:"):
            destination = "empty" if kind == "fetch" else kind
            own += [("Sec-Fetch-Dest", destination), ("Sec-Fetch-Mode", mode_of(command))]
        answer = answers.scripted(self.scenario, request)
        status, got = (answer.head.status, answer.head.headers) if answer.head else (0, [])
        entry = made.entry(self.browser, request.origin + request.target, kind, status, got, own, request.method)
        if answer.head:
            body = answer.body()
            entry["response"]["content"] = {"size": len(body), "text": body.decode("utf-8", "replace")}
        return entry

    def stopped(self, command: dict[str, Any], preflights: list[dict[str, Any]]) -> dict[str, Any]:
        """A request that was never sent: by a policy, or by its preflight."""
        given = next(iter(command.values()))
        url, method = joined(given["url"], self.document["url"]), given.get("method", "GET")
        if preflights:
            asked = {one["name"].lower(): one["value"] for one in preflights[-1]["request"]["headers"]}
            url, method = preflights[-1]["request"]["url"], asked["access-control-request-method"]
        return made.entry(self.browser, url, given.get("kind", "fetch"), 0, (), (), method, "net::ERR_FAILED")


def error_of(reasons: list[str]) -> str:
    """The word that Chromium's tools have for a failure."""
    if "ORB" in " ".join(reasons):
        return "net::ERR_BLOCKED_BY_ORB"
    return next((reason for reason in reasons if reason.startswith("net::")), "net::ERR_FAILED")


def without_policies(scenario: dict[str, Any]) -> tuple[dict[str, Any], str]:
    """A scenario without the policies that its document enforces, and these as one text."""
    document = scenario["documents"][0]
    headers = document.get("headers", [])
    policies = [value for name, value in headers if name.lower() == "content-security-policy"]
    left = [pair for pair in headers if pair[0].lower() != "content-security-policy"]
    return {**scenario, "documents": [{**document, "headers": left}]}, ", ".join(policies)


def mode_of(command: dict[str, Any]) -> str:
    if "fetch" in command:
        mode: str = command["fetch"].get("mode", "cors")
        return mode
    is_cors = command["load"]["kind"] in CORS_LOADS or "crossorigin" in command["load"]
    return "cors" if is_cors else "no-cors"


def is_failed(told: dict[str, Any]) -> bool:
    return told["result"]["result"] in FAILED


def reasons() -> dict[str, list[tuple[str, list[str]]]]:
    """The engine's errors that a browser's own reasons stand for, as browsers/reasons.js has them: its lists are
    Python's too, without `const` and semicolons."""
    with open(os.path.join(ROOT, "browsers", "reasons.js"), encoding="utf-8") as file:
        text = file.read()
    tables = text[text.index("const CORS"):text.index("const TABLES")]
    found: dict[str, Any] = {}
    exec(re.sub(r"const (\w+) = ", r"\1 = (", tables).replace(";\n", ")\n"), {}, found)
    return {"chromium": found["CHROMIUM"], "firefox": found["FIREFOX"]}


def causes(table: list[tuple[str, list[str]]], told: dict[str, Any]) -> list[str]:
    """The names of the errors that a browser's reasons for a failure stand for; none where they say too little."""
    return [name for form, names in table for reason in told["reasons"]
            if re.fullmatch(f"{form}( .*)?", reason, re.S) for name in names]


def policy_causes(told: dict[str, Any]) -> list[str]:
    """The names of the errors by which an enforced policy refuses, where one did."""
    return ["CspRequest", "CspResponse"] if any(one["enforced"] for one in told["violations"]) else []


def untold(stored: Stored, number: int) -> Optional[str]:
    """Why the recording cannot tell what came of a command; None where it can."""
    command, told = stored.commands[number], stored.told[number]
    given, is_fetch = next(iter(command.values())), "fetch" in command
    if given.get("integrity") and (is_fetch or not given.get("parser", True)):
        return "the integrity text of what a script asks for is not recorded"
    if given.get("redirect", "follow") != "follow":
        return "the redirect mode is not recorded"
    if stored.browser == "chromium":
        return None
    includes = given.get("credentials") == "include" or given.get("crossorigin") == "use-credentials"
    has_cookies = any(name == "Cookie" for one in told["requests"] for name, _ in one["headers"])
    if includes and not has_cookies:
        return "no cookie tells of credentials, and Firefox tells no error"
    is_allowed = not any(one["enforced"] for one in told["violations"])
    if given.get("kind") in ("image", "audio", "video") and is_allowed:
        return "Firefox tells nothing of an answer that opaque response blocking keeps back for its bytes"
    return None
