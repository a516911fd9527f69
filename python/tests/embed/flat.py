"""Writes a scenario of one document, on standard input, as the lines that embed/play.c plays: a word, and then texts as
hexadecimal digits (`.` for an empty one, `-` for none) and numbers.

    embed/flat               writes the lines; a scenario with templates or conditions is refused
    embed/flat PLAYER..      hands them to a player, and asks it for the last result where a template or a condition
                             needs it

The status is 3 where a scenario is refused, as one of several documents is."""
from __future__ import annotations

import json
import subprocess
import sys
from typing import NoReturn

from fiorrudda.commands.there import there
from tests.library import scripts
from tests.library.scripts import Data

MODES, CREDENTIALS, REDIRECTS, KINDS = (scripts.NAMES[name] for name in ("modes", "credentials", "redirects", "loads"))
CROSSORIGINS = {"absent": 0, **scripts.NAMES["crossorigins"]}
MODE, CREDENTIAL, REDIRECT, REFERRER, REFERRER_POLICY, UPLOAD, CROSSORIGIN, PARSER = range(8)
BODY, INTEGRITY, NONCE = range(3)
player: subprocess.Popen[str] | None = None


def fail(text: str) -> NoReturn:
    print(f"embed/flat: {text}", file=sys.stderr)
    sys.exit(3)


def hexed(text: str | bytes) -> str:
    data = text if isinstance(text, bytes) else text.encode()
    return data.hex() or "."


def unhexed(digits: str) -> bytes | None:
    return None if digits == "-" else bytes.fromhex(digits.strip("."))


def say(word: str, *parts: object) -> None:
    print(word, *parts, file=player.stdin if player else sys.stdout)


class Lines(scripts.Script):
    """The lines of a script."""

    def last(self) -> scripts.Last:
        if not player:
            fail("a script has a template or a condition")
        say("tell")
        there(player.stdin).flush()
        kind, status, url, body, *lines = there(player.stderr).readline().split()
        headers = [bytes.fromhex(line.strip(".")) for line in lines]
        return scripts.Last(kind, int(status), unhexed(url), unhexed(body), tuple(zip(headers[::2], headers[1::2])))

    def wait(self, seconds: int) -> None:
        say("wait", seconds)

    def fetch(self, asked: Data) -> None:
        say("fetch", hexed(asked.get("method", "GET")), hexed(self.filled(asked["url"])))
        say("choose", MODE, MODES[asked.get("mode", "cors")])
        say("choose", CREDENTIAL, CREDENTIALS[asked.get("credentials", "same-origin")])
        say("choose", REDIRECT, REDIRECTS[asked.get("redirect", "follow")])
        say("choose", REFERRER, int(asked.get("referrer", "client") == "client"))
        say("choose", REFERRER_POLICY, scripts.POLICIES[asked.get("referrer_policy", "")])
        say("choose", UPLOAD, int(asked.get("upload", False)))
        for name, value in asked.get("headers", []):
            say("header", hexed(name), hexed(self.filled(value)))
        if "body" in asked:
            say("text", BODY, hexed(self.filled(asked["body"])))
        say("text", INTEGRITY, hexed(asked.get("integrity", "")))
        say("run")

    def load(self, asked: Data) -> None:
        say("load", KINDS[asked["kind"]], hexed(self.filled(asked["url"])))
        say("choose", CROSSORIGIN, CROSSORIGINS[asked.get("crossorigin", "absent")])
        say("choose", PARSER, int(asked.get("parser", True)))
        say("choose", REFERRER_POLICY, scripts.POLICIES[asked.get("referrer_policy", "")])
        say("text", NONCE, hexed(asked.get("nonce", "")))
        say("text", INTEGRITY, hexed(asked.get("integrity", "")))
        say("run")


def say_scenario(scenario: Data) -> None:
    """What the document finds: limits, known hosts, the time, and the servers."""
    say("limit", scripts.body_limit(scenario))
    say("piece", scenario.get("piece", 4096))
    for host in scenario.get("hsts", []):
        say("host", hexed(host["host"]), int(host["subdomains"]), host["until"])
    say("now", scenario.get("now", 0))
    for server in scenario.get("servers", []):
        say("server", hexed(server["origin"]))
        for rule in server["rules"]:
            words = [hexed(rule[key]) if key in rule else "-" for key in ("method", "path")]
            say("rule", *words, hexed(scripts.answer(rule)))


def say_document(document: Data, cookies: list[list[str]]) -> None:
    headers = document.get("headers", [])
    top = document.get("top", document["url"])
    say("document", hexed(document["url"]), hexed(top), scripts.referrer_policy(headers))
    for name, value in headers:
        if name.lower() in ("content-security-policy", "content-security-policy-report-only"):
            say("policy", hexed(value), int(name.lower() == "content-security-policy"))
    for origin, value in cookies:
        say("cookie", hexed(origin), hexed(value))


def main() -> None:
    global player
    scenario = json.load(sys.stdin)
    if len(scenario["documents"]) != 1:
        fail("the scenario has not one document")
    document = scenario["documents"][0]
    if sys.argv[1:]:
        player = subprocess.Popen(sys.argv[1:], stdin=subprocess.PIPE, stderr=subprocess.PIPE, text=True)
    say_scenario(scenario)
    say_document(document, scenario.get("cookies", []))
    try:
        Lines().play(document["script"])
    except scripts.Over:
        say("over")
    say("end")
    if player:
        there(player.stdin).close()
        sys.stderr.write(there(player.stderr).read())
        sys.exit(player.wait())

