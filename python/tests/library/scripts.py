"""Scripts of scenarios (docs/scenario.md), for what plays them by the library: plays.py by Python's module, embed/flat
by C."""
from __future__ import annotations

import json
import pathlib
import re
from typing import Any, Dict, NamedTuple, Optional, Tuple

from fiorrudda.places import ROOT

MOST_COMMANDS = 16384
Data = Dict[str, Any]  # a part of a scenario
NAMES = json.loads((pathlib.Path(ROOT) / "schema/names.json").read_text("utf-8"))
POLICIES = NAMES["referrer_policies"]
TEMPLATE = re.compile(rb"\$\{(status|type|url|body|header:([^}]*))\}")


class Last(NamedTuple):
    """The last result; the body where it came whole."""

    type: str = "none"
    status: int = 0
    url: Optional[bytes] = None
    body: Optional[bytes] = None
    headers: Tuple[Tuple[bytes, bytes], ...] = ()

    def put_in(self, found: re.Match[bytes]) -> bytes:
        """What a template is replaced by."""
        if found[2] is not None:
            return b", ".join(value for name, value in self.headers if name.lower() == found[2].lower())
        return {b"status": str(self.status).encode(), b"type": self.type.encode(), b"url": self.url or b"",
                b"body": self.body or b""}[found[1]]

    def meets(self, word: str, wanted: Any = None) -> bool:
        """Whether a condition holds."""
        if word == "ok":
            return 200 <= self.status <= 299
        if word == "error":
            return self.type in ("error", "type-error", "failed")
        if word == "body":
            return self.body == str(wanted).encode()
        return bool(wanted == {"type": self.type, "status": self.status}[word])


class Over(Exception):
    """As many commands were started as may be."""


class Script:
    """Plays the commands of a document by what is made of it: its `fetch`, `load` and `wait`, and its `last` result."""

    started = 0

    def last(self) -> Last:
        raise NotImplementedError

    def wait(self, seconds: int) -> None:
        raise NotImplementedError

    def fetch(self, asked: Data) -> None:
        raise NotImplementedError

    def load(self, asked: Data) -> None:
        raise NotImplementedError

    def play(self, commands: list[Data]) -> None:
        for command in commands:
            self.started += 1
            if self.started > MOST_COMMANDS:
                raise Over
            if "fetch" in command:
                self.fetch(command["fetch"])
            elif "load" in command:
                self.load(command["load"])
            elif "wait" in command:
                self.wait(command["wait"])
            elif "repeat" in command:
                for _ in range(command["repeat"]):
                    self.play(command["do"])
            else:
                self.play(command["then"] if self.last().meets(*command["if"]) else command.get("else", []))

    def filled(self, text: str) -> bytes:
        """A text with its templates replaced."""
        return TEMPLATE.sub(self.last().put_in, text.encode()) if "${" in text else text.encode()


def answer(rule: Data) -> bytes:
    """The bytes of the answer of a rule."""
    if "raw" in rule:
        return str(rule["raw"]).encode()
    lines = "".join(f"{name}: {value}\r\n" for name, value in rule.get("headers", []))
    return f"HTTP/1.1 {rule['status']} Scripted\r\n{lines}\r\n{rule.get('body', '')}".encode()


def referrer_policy(headers: list[list[str]]) -> int:
    """The last token of the Referrer-Policy headers that is a policy, by its number (Referrer Policy, section 8.1)."""
    found: int = 0
    for name, value in headers:
        if name.lower() == "referrer-policy":
            tokens = [token.strip().lower() for token in value.split(",")]
            found = ([POLICIES[token] for token in tokens if token and token in POLICIES] or [found])[-1]
    return found


def body_limit(scenario: Data) -> int:
    limit: int = scenario.get("body_limit", 262144 if scenario["format"] == 1 else 1048576)
    return limit
