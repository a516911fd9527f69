"""What bin/ask does: makes the fetch that a page would make, over real connections, and tells what came and why."""
from __future__ import annotations

import json
import os
import re
import time
from typing import TYPE_CHECKING
from urllib.parse import urlsplit

import fiorrudda

from fiorrudda.commands import (answers, codings, exports, json_text, lints, live, notes, pasted, play_text, slips,
                                told, verdicts)
from fiorrudda.commands.ask_words import Wrong
from fiorrudda.commands.case import LOCAL, SOCKETS
from fiorrudda.commands.scenario import Scenario, joined, origin_of
from fiorrudda.commands.there import there
from fiorrudda.commands.urls import is_trustworthy, scheme_of

if TYPE_CHECKING:
    import argparse
    from collections.abc import Iterator, Sequence
    from typing import Any

    from fiorrudda.commands.answers import Head
    from fiorrudda.commands.case import Case
    from fiorrudda.commands.live import Exchange
    from fiorrudda.commands.shapes import Object

LIMIT = 1048576
KNOWN_FOR = 31536000
KNOWN_LINE = re.compile(rb"([0-9]+) ([01]) [0-9]+:(.+)")  # of a book's text (crates/book_text)
UNCODED = "; it was asked for without a coding: --compressed asks as a browser does"
OWN_ORIGIN = "it was asked as from a page of its own origin; --from PAGE asks as another page would"


def book_of(path: str) -> fiorrudda.Book:
    """The book of a file; an empty one where there is no such file."""
    try:
        with open(path, "rb") as file:
            return fiorrudda.Book.read(file.read())
    except FileNotFoundError:
        return fiorrudda.Book()
    except OSError as error:
        raise Wrong(f"{path}: {error.strerror}") from None
    except fiorrudda.NotABook as fault:
        raise Wrong(f"{path} is no book that --book wrote: {fault.name} at line {fault.line}") from None


def hosts_in(book: fiorrudda.Book) -> list[Object]:
    """The known hosts of a book, as a scenario writes them: they stand in the lines of its text behind their number."""
    _, counted, *lines = book.export().split(b"\n")
    found = [there(KNOWN_LINE.fullmatch(line)).groups() for line in lines[:int(counted.rpartition(b" ")[2])]]
    return [{"host": host.decode(), "subdomains": is_wide == b"1", "until": int(until)}
            for until, is_wide, host in found]


def refuse_others(given: argparse.Namespace) -> None:
    """Refuses words that say nothing of what is asked for: an element that loads has its own method and mode."""
    others = {"--method": given.method or given.head, "--header": given.header or given.user,
              "--data": given.bodies, "--form": given.forms,
              "--mode": given.mode, "--credentials": given.credentials, "--redirect": given.redirect}
    for word, value in others.items() if given.load else [("--crossorigin", given.crossorigin)]:
        if value:
            raise Wrong(f"{word} is not used {'with' if given.load else 'without'} --load: leave it out")


def origin_of_page(given: argparse.Namespace, page: str) -> str:
    """Refuses what is no page."""
    try:
        return fiorrudda.origin(page)
    except fiorrudda.FiorruddaError:
        if not given.page and scheme_of(page) in (*LOCAL, *SOCKETS):
            raise Wrong(f"{page!s:.200} has no page of its own: name the page that asks by --from") from None
        raise Wrong(f"{page} is no http or https URL{' of a page' if given.page else ''}: write it whole, as "
                    "https://api.example/x") from None


class Question:
    """The words of bin/ask for one URL, as a scenario of one document, and as what the library takes."""

    def __init__(self, given: argparse.Namespace, url: str) -> None:
        self.given = given
        refuse_others(given)
        self.said = pasted.Said(given, url)
        self.url, self.body = self.said.url, self.said.body
        fault = slips.of_url(self.url)
        if fault:
            raise Wrong(fault)
        self.page = self.said.page or self.url
        origin_of_page(given, self.page)
        # That of the URL, where it is an http or https one: a cookie is kept for it.
        self.origin = origin_of(joined(self.url, self.page))
        if self.said.cookies and self.origin is None:
            raise Wrong(f"{self.url} is no http or https URL, and no cookie goes to it: leave --cookie out")
        if given.book and not os.access(os.path.dirname(given.book) or ".", os.W_OK):
            raise Wrong(f"{given.book} cannot be written")
        if given.export:
            exports.refuse_path(given.export)
        # What is known of earlier calls holds until a time of the clock.
        self.now = int(time.time()) if given.book else 0
        self.book = book_of(given.book) if given.book else fiorrudda.Book()
        for one in given.hsts:
            self.make_known(*one)
        self.hosts = hosts_in(self.book)

    def make_known(self, word: str, with_subdomains: bool) -> None:
        """Has a host of --hsts in the book."""
        host = domain_of(word)
        if host is None:
            raise Wrong(f"--hsts: {word} is no host that can be known: write a domain, no address and no localhost")
        self.book.note(host, f"max-age={KNOWN_FOR}{'; includeSubDomains' if with_subdomains else ''}", self.now)

    def cookies(self) -> list[list[str]]:
        return [[self.origin or "", "; ".join(self.said.cookies)]] if self.said.cookies else []

    def options(self) -> Object:
        """The keys of the fetch or load, as a scenario has them."""
        given, said = self.given, self.said
        if said.load:
            options = {"kind": said.load, "crossorigin": said.crossorigin, "integrity": given.integrity}
        else:
            options = {"method": said.method or ("POST" if self.body is not None else None), "mode": said.mode,
                       "credentials": said.credentials, "redirect": given.redirect, "body": self.body,
                       "headers": [list(one) for one in said.headers] or None, "integrity": given.integrity}
        return {"url": self.url, **{key: value for key, value in options.items() if value is not None}}

    def command(self) -> Object:
        options = self.options()
        if self.body is not None and not self.said.load:
            options["body"] = self.body.decode("utf-8", "replace")
        return {"load" if self.said.load else "fetch": options}

    def scenario(self, hosts: Sequence[Object] = (), **more: Any) -> Object:
        """`hosts` are those that are known in it, and `more` its servers, or its routes."""
        headers = [["Content-Security-Policy", value] for value in self.given.policy]
        headers += [["Referrer-Policy", self.given.referrer_policy]] if self.given.referrer_policy else []
        document = {"url": self.page, "headers": headers, "script": [self.command()] * (2 if self.given.twice else 1)}
        known = {"now": self.now, "cookies": self.cookies(), "hsts": hosts}
        return {"format": 2, **{key: value for key, value in known.items() if value}, **more, "documents": [document]}

    def client(self) -> fiorrudda.Client:
        policy = fiorrudda.ReferrerPolicy[(self.given.referrer_policy or "default").upper().replace("-", "_")]
        try:
            return fiorrudda.Client(self.page, policy=policy, policies=self.given.policy,
                                    cookies=[(origin, value) for origin, value in self.cookies()])
        except fiorrudda.NotAHeader:
            raise Wrong(f"--cookie: no header has the value {self.cookies()[0][1]!r}: take line ends and zero bytes "
                        "out") from None

    def request(self) -> fiorrudda.Load | fiorrudda.Request:
        options = self.options()
        url = options.pop("url")
        if self.said.load:
            return fiorrudda.Load(options.pop("kind"), url, parser=True, **options)
        return fiorrudda.Request(url, **options)


def domain_of(word: str) -> str | None:
    """A domain as URLs have it; None where it is none, or a localhost name."""
    try:
        host = fiorrudda.origin(f"http://{word}/").partition("://")[2]
    except fiorrudda.FiorruddaError:
        return None
    is_none = re.search(r"[/:?#@]", word) or re.search(r"(?:^|\.)(?:localhost|[0-9]+)\.?$", host)
    return None if is_none else host


class Answered:
    """What came of a question: the lines, the exchanges in order, and what is told of them. `play` asks, `tell` tells;
    each may be ended by the time limit, and leaves what had come."""

    def __init__(self, question: Question) -> None:
        self.question = question
        self.told: told.Told = None  # type: ignore[assignment]  # `tell` makes it
        self.export: exports.Export | None = None
        self.wire = live.Wire(question.given.timeout, question.given.connect_to, question.given.compressed)
        self.page = live.Page(question.page, question.client(), self.wire, LIMIT, question.book, question.now)

    def play(self) -> Answered:
        for _ in range(2 if self.question.given.twice else 1):
            self.page.ask(self.question.request, self.question.said.load)
        return self

    def tell(self) -> Answered:
        self.text = self.page.text()
        scenario = Scenario(json_text.read(json.dumps(self.question.scenario(routes=self.routes()))))
        scenario.data["hsts"] = self.question.hosts  # of a book there may be many
        left = iter(self.wire.exchanges)
        self.told = told.Told(scenario, play_text.read(self.text), lambda request: Came(next(left)), is_net="direct")
        status, sentence = verdicts.verdict(self.told.cases, self.question.said.was_navigation)
        self.verdict = status, sentence + (UNCODED if status == verdicts.READ and self.is_uncoded else "")
        if self.question.given.export:
            self.export = exports.Export(self.question, self.told.cases, self.wire.exchanges)
        return self

    def routes(self) -> list[list[str]]:
        """The address of each origin that was asked, as a scenario has them."""
        found = {exchange.origin: self.wire.place(exchange.origin) for exchange in self.wire.exchanges}
        return [[origin, f"[{host}]:{port}" if ":" in host else f"{host}:{port}"]
                for origin, (host, port) in found.items()]

    def notes(self) -> list[str]:
        """What is to be said besides, in sentences."""
        said = self.question.said
        found: list[str | None] = [] if said.page else [OWN_ORIGIN]
        found += said.notes
        found += [self.of_cookies() if said.cookies else self.of_no_cookies()]
        found += [f"{one.origin}: {one.note}" for one in self.wire.exchanges if one.note]
        found += [note for one in self.wire.exchanges for note in self.of_coding(one)]
        found += [self.of_asked_codings()]
        found += [self.of_unread(case) for case in self.told.cases if case.result.type == "loaded"]
        found += map(self.of_packed, self.told.cases)
        found += [sentence for sentence, _ in lints.told_once(lints.noted(self.told))]
        return list(dict.fromkeys(filter(None, found)))

    def of_coding(self, exchange: Exchange) -> Iterator[str]:
        """What is to be said of a body that came coded, though the request said identity."""
        stream = exchange.stream
        value = stream.own.get("Content-Encoding") if stream.own else None
        is_other = stream.cut is not None and (stream.cut.is_other or stream.cut.is_broken)
        if value and not stream.codings and stream.is_opened:
            yield (f"{exchange.origin}: Content-Encoding says `{value}`, which Chromium and Firefox do not decode: the "
                   "page gets the bytes as they came")
        elif stream.is_opened and not is_other:
            came = ", ".join(stream.codings) + ("" if self.question.given.compressed else " all the same")
            cut = f"; {stream.cut}" if stream.cut else ""
            yield f"{exchange.origin}: the body came as {came}: it was decoded, as a browser does it{cut}"
        yield from (f"{exchange.origin}: {flaw}: Chromium and Firefox read it all the same, and other programs may "
                    "not: send all of it, as it was compressed" for flaw in stream.flaws)
        if stream.codings and stream.is_opened and len(stream.codings) < len(there(value).split(",")):
            yield (f"{exchange.origin}: with `Content-Encoding: {value}` Chromium gives the page the bytes as they "
                   "came, and Firefox decodes them, as is done here: name the coding alone")

    @property
    def is_uncoded(self) -> bool:
        """Whether the last answer came without a coding, and may have one where a browser asks."""
        head = self.told.cases[-1].head
        is_coded = bool(head) and codings.names_of(head.get("Content-Encoding"))
        return bool(head) and varies(head) and not is_coded and not self.question.given.compressed

    @property
    def varying(self) -> list[str]:
        """The origins whose answers may depend on the codings that a request names."""
        heads = [(case.request.origin, case.head) for case in self.told.cases if case.head]
        return [origin for origin, head in heads if varies(head) or codings.names_of(head.get("Content-Encoding"))]

    def of_asked_codings(self) -> str | None:
        """That a browser names other codings, where the answer may depend on that; or None."""
        if self.question.given.compressed:
            return (f"it was asked with `Accept-Encoding: {codings.accepted()}` (--compressed), the codings that are "
                    "decoded here, and the play has identity, since the engine decodes none; a browser sends this "
                    f"server {self.codings_of_browsers()}")
        if not self.varying:
            return None
        return (f"{self.varying[0]}: what comes may depend on Accept-Encoding, of which a browser sends its own and "
                f"this request said identity: --compressed asks with `{codings.accepted()}`")

    def codings_of_browsers(self) -> str:
        """Which codings a browser names to the server that was asked last."""
        origins = [exchange.origin for exchange in self.wire.exchanges] or [self.question.origin or ""]
        return codings.OVER_TLS if is_trustworthy(origins[-1]) else codings.IN_PLAIN

    def of_unread(self, case: Case) -> str | None:
        """What is to be said of the body of what an element loads, where nothing here decodes it, or None."""
        stream = getattr(case.answer, "stream", None)
        is_unread = not case.is_spoilt and stream is not None and stream.lacks
        if not (is_unread and (case.is_gzip or case.why_coded)):
            return None
        return (f"{case.request.origin}: its body was not read: Content-Encoding says "
                f"{case.coding}{case.but_gzip}{case.why_coded.replace('since', 'and')}")

    def of_packed(self, case: Case) -> str | None:
        """What is to be said of a body that begins as gzip does, where no coding is named, or None."""
        if case.answer is None or not (case.is_packed or case.is_packed_twice):
            return None
        if case.is_packed_twice:
            return (f"{case.request.origin}: the body is still gzip once it is decoded: the page gets it packed; "
                    f"compress it once, or let Content-Encoding say `{case.coding}, gzip`")
        said = f"Content-Encoding says `{case.coding}`" if case.coding else "the answer has no Content-Encoding"
        return (f"{case.request.origin}: the body begins as gzip does, and {said}: the page gets it packed: send "
                f"`Content-Encoding: gzip`{' in its place' if case.coding else ''}")

    @property
    def is_of_one_site(self) -> bool:
        """Whether the URL is of the page's site, and over its scheme."""
        own, page = self.question.origin or "", self.question.page
        return bool(fiorrudda.same_site(page, own)) and urlsplit(page).scheme == urlsplit(own).scheme

    def of_no_cookies(self) -> str | None:
        """What decides which cookies a browser sends, where words ask for them and none was given; or None."""
        own, said = self.question.origin, self.question.said
        is_asked = said.credentials == "include" or said.crossorigin == "use-credentials"
        if own is None or not is_asked or fiorrudda.same_origin(self.question.page, own):
            return None
        text = notes.NONE_GIVEN_TO_SITE if self.is_of_one_site else notes.NONE_GIVEN_TO_OTHER
        return text.format(origin=own)

    def of_cookies(self) -> str | None:
        """What is to be said of the cookies that were given, or None."""
        own, page, is_same = self.question.origin or "", self.question.page, self.is_of_one_site
        requests = [request for case in self.told.cases for request, _ in case.chain]
        if any(play_text.header_of(request, "Cookie") for request in requests):
            return None if is_same else notes.OTHER_SITE.format(origin=own)
        command = self.told.cases[-1].command
        if command.options["credentials"] == "omit":
            return "no cookie was sent: --credentials omit keeps them back"
        if not command.includes() and not fiorrudda.same_origin(page, own):
            word = "--crossorigin use-credentials" if command.is_load else "--credentials include"
            return f"no cookie was sent: to another origin than that of the page they go with {word} alone"
        if requests:
            return f"no cookie was sent: they are those of {own}, and no request went there"
        if not any(case.exchanges for case in self.told.cases):
            return "no cookie was sent, since nothing was sent"
        more = "" if is_same else f"; {notes.PASSED_FIRST}{notes.OTHER_SITE.format(origin=own)}"
        return f"no cookie was sent, since only a preflight was sent{more}"

    def status(self) -> int:
        return self.verdict[0]

    def pieces(self) -> Iterator[tuple[str, list[str]]]:
        """The lines of the play between its first line and its end, each with what is said of it."""
        for number, (line, own) in enumerate(self.told.pieces()):
            if line == "end finished":
                return
            if number:
                yield line, own


def varies(head: Head) -> bool:
    return "accept-encoding" in (head.get("Vary") or "").lower()


class Came(answers.Answer):
    """The answer of an exchange: as it came, with the body that the engine read."""

    def __init__(self, exchange: Exchange) -> None:
        super().__init__(exchange.answer, link=exchange.link)
        self.stream = exchange.stream
        self.unread = exchange.unread

    def framed(self, rest: bytes) -> bytes:
        return self.stream.body.joined() if self.stream.is_opened else super().framed(rest)

    def length(self) -> int | None:
        if not self.stream.is_opened:
            return super().length()
        return len(self.body()) + (not self.stream.is_whole)


def answered(given: argparse.Namespace, url: str) -> Answered:
    """What comes of a question, whatever time it takes."""
    return Answered(Question(given, url)).play().tell()
