"""What bin/ask --export writes: a scenario that plays by scripted servers what real ones answered, without secrets."""
from __future__ import annotations

import json
import re
from typing import TYPE_CHECKING

from fiorrudda.commands import answers, files, known_hosts
from fiorrudda.commands.ask_words import Wrong
from fiorrudda.commands.urls import host_of

if TYPE_CHECKING:
    from collections.abc import Iterable

    from fiorrudda.commands.asked import Question
    from fiorrudda.commands.case import Case
    from fiorrudda.commands.live import Exchange
    from fiorrudda.commands.play_text import Send
    from fiorrudda.commands.shapes import AnyRequest, Object

# A header of the document, which says nothing to a play: the mark of a file that may be written over.
MARK = ["X-Made-By", "bin/ask --export"]
LAST = 281474976710655  # of the seconds that a scenario knows
SET_COOKIE = re.compile(r"(?im)^(set-cookie2?:[ \t]*)([^\r\n]*)")
SCHEME_WORD = re.compile(r"^[!#$%&'*+\-.^_`|~0-9A-Za-z]+ +")


def refuse_path(path: str) -> None:
    """Refuses a file that --export did not write, before anything is asked."""
    wrong = files.refusal(path, "--export", is_own)
    if wrong:
        raise Wrong(wrong)


def is_own(data: bytes) -> bool:
    """Whether a file's bytes are a scenario with the mark of --export."""
    return MARK in json.loads(data.decode("utf-8"))["documents"][0]["headers"]


class Export:
    """The scenario of what was asked; `lacks` says in sentences what it does not have."""

    def __init__(self, question: Question, cases: list[Case], exchanges: list[Exchange]) -> None:
        self.question = question
        self.lacks: list[str] = []
        self.hidden: list[str] = []
        body = question.body
        if body is not None and body.decode("utf-8", "replace").encode() != body:
            self.lacks.append("the body is no UTF-8, and a scenario has texts: it is another there")
        if question.given.book:
            self.lacks.append("the scenario begins with an empty preflight cache")
        requests = [request for case in cases for request, _ in case.exchanges]
        self.scenario = question.scenario(self.hosts(cases), servers=self.servers(zip(requests, exchanges)))
        self.scenario["documents"][0]["headers"].append(MARK)
        if not question.given.with_secrets:
            self.hide_words()
        if self.hidden:
            self.lacks.append(f"the values of {', '.join(dict.fromkeys(self.hidden))} are x, as long as they were; "
                              "--with-secrets keeps them")

    def hosts(self, cases: Iterable[Case]) -> list[Object]:
        """The known hosts of the sites that were asked for: a book may tell of others."""
        asked = {host_of(hop.asked) for case in cases for hop in case.hops}
        names = {name for host in asked for name in [host, *known_hosts.names_above(host)]}
        return [{**one, "until": min(one["until"], LAST)} for one in self.question.hosts
                if known_hosts.site_of(one["host"]) in names]

    def servers(self, exchanges: Iterable[tuple[Send, Exchange]]) -> list[Object]:
        rules: dict[str, list[Object]] = {}
        kept: dict[tuple[str, str, str], bytes] = {}
        for request, exchange in exchanges:
            key = (request.origin, request.method, request.target)
            if exchange.link not in ("done", "tls-port"):
                self.lacks.append(f"the connection to {request.origin} failed, which a scripted server does not")
            elif key not in kept:
                kept[key] = exchange.answer
                rules.setdefault(request.origin, []).append(self.rule_of(request, exchange))
            elif kept[key] != exchange.answer:
                self.lacks.append(f"{request.method} {request.target} was answered twice: the first answer is kept")
        return [{"origin": origin, "rules": own} for origin, own in rules.items()]

    def rule_of(self, request: AnyRequest, exchange: Exchange) -> Object:
        """The rule that gives the bytes that the engine was fed."""
        name = f"the answer to {request.method} {request.target}"
        if exchange.stream.head is not None:
            self.lacks.append(name + " stands there as it was decoded, in chunks and without Content-Encoding")
        fed = exchange.fed
        text = fed.decode("utf-8", "ignore")
        if text.encode() != fed:
            self.lacks.append(name + " has bytes that are no UTF-8: they are left out")
        return {"method": request.method, "path": request.target, "raw": self.without_cookies(text)}

    # ---- secrets

    def without_cookies(self, text: str) -> str:
        """An answer whose Set-Cookie lines have no values."""
        if self.question.given.with_secrets:
            return text
        beginning = answers.Beginning()
        beginning.add(text.encode()[:answers.MOST_HEAD + 1])
        end = len(text.encode()[:beginning.head.end].decode()) if beginning.head else len(text)
        head, count = SET_COOKIE.subn(lambda found: found.group(1) + masked_set_cookie(found.group(2)), text[:end])
        self.hidden += ["Set-Cookie"] * (count > 0)
        return head + text[end:]

    def hide_words(self) -> None:
        """Takes cookies and credentials out of what was asked."""
        for pair in self.scenario.get("cookies", []):
            pair[1] = masked_cookies(pair[1])
            self.hidden.append("cookies")
        options = next(iter(self.scenario["documents"][0]["script"][0].values()))
        for pair in options.get("headers", []):
            if pair[0].lower() in ("authorization", "proxy-authorization", "cookie"):
                pair[1] = masked(pair[1])
                self.hidden.append(pair[0])

    def data(self) -> bytes:
        return (json.dumps(self.scenario, indent=1, ensure_ascii=False) + "\n").encode("utf-8", "surrogatepass")

    def write(self, path: str) -> list[str]:
        """What is to be said of it, in sentences."""
        try:
            refuse_path(path)
        except Wrong as wrong:  # what came there meanwhile
            return [str(wrong)]
        failure = files.replace(path, self.data())
        return [failure] if failure else [f"{path}: {one}" for one in dict.fromkeys(self.lacks)]


def masked(value: str) -> str:
    """A value of credentials as long as it was; its scheme stays."""
    scheme = SCHEME_WORD.match(value)
    kept = scheme.group() if scheme else ""
    return kept + placeholder(value[len(kept):])


def masked_pair(text: str) -> str:
    """A cookie, whose name stays where it has one."""
    name, equals, value = text.partition("=")
    if equals:
        return name + equals + placeholder(value)
    blanks = text[:len(text) - len(text.lstrip(" "))]
    return blanks + placeholder(text[len(blanks):])


def masked_cookies(text: str) -> str:
    return ";".join(map(masked_pair, text.split(";")))


def masked_set_cookie(text: str) -> str:
    first, semicolon, attributes = text.partition(";")
    return masked_pair(first) + semicolon + attributes


def placeholder(text: str) -> str:
    """As many bytes."""
    return "x" * len(text.encode("utf-8", "surrogatepass"))
