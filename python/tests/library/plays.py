"""Plays scenarios of one document by the Python module, and prints what `fetchplay play` prints: a test of the
module."""
from __future__ import annotations

import json
import pathlib
from typing import Iterator, Union, cast

import fiorrudda as f
from fiorrudda import printed
from fiorrudda.places import ROOT
from tests.library import scripts
from tests.library.scripts import Data

UNKNOWN = b"HTTP/1.1 404 Scripted\r\n\r\n"
Outcome = Union[f.Response, f.NetworkError, f.Loaded]


def answer(servers: list[Data], act: f.Send) -> bytes:
    """What the scripted servers answer to a request (docs/scenario.md, "What the servers answer")."""
    for server in servers:
        if server["origin"] == act.origin:
            for rule in server["rules"]:
                if rule.get("method", act.method) == act.method and rule.get("path", act.url) == act.url:
                    return scripts.answer(rule)
            return UNKNOWN
    return b""


def policy(asked: Data) -> f.ReferrerPolicy:
    return f.ReferrerPolicy(scripts.POLICIES[asked.get("referrer_policy", "")])


class Play(scripts.Script):
    """A play of a scenario of one document, with its answers in pieces of so many bytes."""

    def __init__(self, scenario: Data, piece: int) -> None:
        self.servers, self.piece, self.limit = scenario.get("servers", []), piece, scripts.body_limit(scenario)
        self.now, self.book, self.fetches = scenario.get("now", 0), f.Book(), 0
        self.lines: list[str] = []
        self.calls: list[str] = []
        self.came = scripts.Last()
        for host in scenario.get("hsts", []):
            below = "; includeSubDomains" if host["subdomains"] else ""
            self.book.note(host["host"], f"max-age={host['until']}{below}", 0)
        self.begin(scenario["documents"][0], scenario.get("cookies", []))
        self.ending = "finished"
        try:
            self.play(scenario["documents"][0]["script"])
        except scripts.Over:
            self.ending = "limit commands"

    def begin(self, document: Data, cookies: list[tuple[str, str]]) -> None:
        top, headers = document.get("top", document["url"]), document.get("headers", [])
        referrers = f.ReferrerPolicy(scripts.referrer_policy(headers))
        self.client = f.Client(document["url"], top, referrers, cookies=cookies)
        # A scenario's policies are numbered in the order of its headers, those that only report among the others.
        for name, value in headers:
            if name.lower() in f.Policies.NAMES:
                self.client.add_policy(value, f.Policies.NAMES[name.lower()])
        self.lines.append(f"document 0 {f.origin(top)}")

    def last(self) -> scripts.Last:
        return self.came

    def wait(self, seconds: int) -> None:
        self.now += seconds

    def load(self, asked: Data) -> None:
        given = {**asked, "url": self.filled(asked["url"]), "parser": asked.get("parser", True),
                 "referrer_policy": policy(asked)}
        if given.get("crossorigin") == "absent":
            del given["crossorigin"]
        self.lines.append(f"load {self.fetches} {asked['kind']}")
        self.run(f.Load(**given), loads=True)

    def fetch(self, asked: Data) -> None:
        headers = [(name, self.filled(value)) for name, value in asked.get("headers", [])]
        given = {**asked, "url": self.filled(asked["url"]), "referrer": asked.get("referrer", "client") == "client",
                 "referrer_policy": policy(asked), "headers": headers}
        if "body" in asked:
            given["body"] = self.filled(asked["body"])
        self.lines.append(f"fetch {self.fetches}")
        self.run(f.Request(**given), loads=False)

    def run(self, request: f.Request | f.Load, loads: bool) -> None:
        self.fetches += 1
        try:
            fetch = f.Fetch(self.client, request, self.now, self.limit)
        except f.NoRequest as fault:
            self.lines.append(printed.fault_line(fault, loads))
            self.came = scripts.Last("failed" if loads else "type-error")
            return
        self.acts(fetch)
        outcome = cast(Outcome, fetch.outcome)
        self.lines += printed.outcome_lines(outcome, loads)
        self.came = came(outcome, loads)

    def acts(self, fetch: f.Fetch) -> None:
        left = b""
        for act in fetch:
            if isinstance(act, f.Ask):
                line = printed.call_line(act.call, fetch.ask(self.book))
                self.lines.append(f"call {line}")
                self.calls.append(line)
            elif isinstance(act, f.Send):
                self.lines += printed.sent_lines(act)
                left = answer(self.servers, act)
                fetch.sent()
            elif isinstance(act, f.Tell):
                self.lines.append(printed.violation_line(act))
                fetch.told()
            elif left:
                left = left[fetch.feed(left[: self.piece]):]
            else:
                fetch.feed(b"")
                if type(next(fetch, None)) is type(act):
                    fetch.ended()

    def text(self) -> str:
        history = [f"{turn} 0 {line}" for turn, line in enumerate(self.calls)]
        return "\n".join(["fetchplay 1", *self.lines, f"end {self.ending}", "history", *history, "done", ""])


def came(outcome: Outcome, loads: bool) -> scripts.Last:
    """An outcome, as conditions and templates see it."""
    if isinstance(outcome, f.Loaded):
        return scripts.Last("loaded")
    if isinstance(outcome, f.NetworkError):
        return scripts.Last("failed" if loads else "error")
    url = None if outcome.url is None else outcome.url.encode("latin-1")
    body = outcome.body if outcome.end == "whole" else None
    return scripts.Last(outcome.kind, outcome.status, url, body, tuple(outcome.headers))


def stored(folders: list[str]) -> Iterator[tuple[str, bytes, str]]:
    """Stored plays of the gallery, and of folders of NAME.json, NAME.out: the name, the scenario's bytes, the text."""
    gallery = pathlib.Path(ROOT) / "gallery"
    pairs = [(it, it.parent / "play.txt") for it in sorted(gallery.glob("*/scenario.json"))]
    pairs += [(it, it.with_suffix(".out")) for folder in folders for it in sorted(pathlib.Path(folder).glob("*.json"))]
    for place, play in pairs:
        yield str(place), place.read_bytes(), play.read_bytes().decode("latin-1")


def of_one_document(folders: list[str]) -> Iterator[tuple[str, Data, str]]:
    """Those of one document, each scenario read."""
    for name, written, text in stored(folders):
        scenario = json.loads(written)
        if len(scenario["documents"]) == 1:
            yield name, scenario, text


def in_turn(folders: list[str]) -> Iterator[tuple[str, bytes, str]]:
    """Those in which the book is called for one document after another."""
    for name, scenario, text in stored(folders):
        history = text.rpartition("\nhistory\n")[2].splitlines()[:-1]
        turns = [int(line.split(" ")[1]) for line in history]
        if turns == sorted(turns):
            yield name, scenario, text
