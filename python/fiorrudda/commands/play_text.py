"""Reads the text of a play, as docs/rules/printed-text.md has it: the documents with their events, each with its lines,
and the history. What is no play is refused with its line."""
from __future__ import annotations

import re
from typing import TYPE_CHECKING, Literal, cast, overload

from fiorrudda.commands.there import there
from fiorrudda.names import RESPONSE_TYPES

if TYPE_CHECKING:
    from typing import Any, NoReturn

    from fiorrudda.commands.scenario import Command
    from fiorrudda.commands.shapes import AnyRequest, Pairs

RESULT = re.compile(r"result (?:(error|failed) (?:(type-error) )?(\d+) (\w+)(?: (\S+))?"
                    r"|type-error (\d+) (\w+)(?: (\d+))?"
                    rf"|(loaded)|({'|'.join(RESPONSE_TYPES)}) (\d+) (.*))")
BODY = re.compile(r"  body (?:(none)|(whole) (\d+): (.*)|(cut|fault) (\d+)|(toobig))")
HEADER = re.compile(r"  ([^:]+): (.*)")
DOCUMENT = re.compile(r"document (\d+) (.*)")
HISTORY = re.compile(r"\d+ \d+ .*: (?:yes|no|done)")
COMMAND = re.compile(r"(?:fetch (\d+)|load (\d+) (\w+))")
END = re.compile(r"end (.*)")
CALL = re.compile(r"call (\w+) (.*): (\w+)")
VIOLATION = re.compile(r"violation (\d+) (enforce|report) (\S+) (.*)")
REQUEST = re.compile(r"  (\S+) (.*) HTTP/1\.1")
SENT_BODY = re.compile(r"  body (\d+): (.*)")


class NoPlay(Exception):
    """The line that is no line of a play, from 1."""

    def __init__(self, line: int) -> None:
        super().__init__(f"line {line} is no line of a play")
        self.line = line


class Event:
    """One event of a document: its kind, its first and last line, from 1, and what its kind has."""

    def __init__(self, kind: str, line: int, **parts: Any) -> None:
        self.kind = kind
        self.line = self.last = line
        self.__dict__.update(parts)


class Call(Event):
    """A call of the book."""

    op: str
    words: list[str]
    reply: str


class Violated(Event):
    """A violation that was told."""

    policy: int
    enforced: bool
    directive: str
    url: str


class Send(Event):
    """A request that was sent."""

    origin: str
    method: str
    target: str
    headers: list[tuple[str, str]]
    body: bytes | None


class Result(Event):
    """What a fetch or a load came to. `type` is that of the last result (docs/scenario.md); of an error or a fault
    there are `number`, `name` and `detail`, and of a response `status`, `url`, `headers` and the `body`: how it ended,
    and its bytes where it came whole."""

    verdict: str  # told.py gives it

    def __init__(self, line: int, found: re.Match[str]) -> None:
        super().__init__("result", line)
        error, load_fault, number, name, detail, fault, fault_name, index, loaded, kind, status, url = found.groups()
        self.is_fault = bool(fault or load_fault)
        self.number = int(number or fault or 0)
        self.name = name or fault_name
        self.detail = detail or index
        self.type = kind or ("loaded" if loaded else error or "type-error")
        self.status = int(status or 0)
        self.url = None if url == "()" else url
        self.headers: Pairs = []
        self.ending: str | None = None
        self.body: bytes | None = None

    def is_refused(self) -> bool:
        return self.number > 0

    def short(self) -> str:
        """As a test names it."""
        if self.is_refused():
            first = "type-error" if self.is_fault else ""
            return " ".join(filter(None, [first, str(self.number), self.name, self.detail]))
        return self.type if self.type == "loaded" else f"{self.type} {self.status}"


class Fetch:
    """A fetch or a load: its number, its kind (of a load), its events up to its result."""

    def __init__(self, document: Document, number: int, load: str | None, line: int) -> None:
        self.document = document
        self.number = number
        self.load = load
        self.line = line
        self.events: list[Event] = []
        self.command: Command = None  # type: ignore[assignment]  # Scenario.attach gives it

    @property
    def result(self) -> Result:
        return cast("Result", self.events[-1])

    @property
    def name(self) -> str:
        return f"{'load' if self.load else 'fetch'} {self.number}"

    @overload
    def of(self, kind: Literal["send"]) -> list[Send]: ...

    @overload
    def of(self, kind: Literal["call"]) -> list[Call]: ...

    @overload
    def of(self, kind: Literal["violation"]) -> list[Violated]: ...

    @overload
    def of(self, kind: Literal["result"]) -> list[Result]: ...

    def of(self, kind: str) -> Any:
        return [event for event in self.events if event.kind == kind]


class Document:
    def __init__(self, number: int, key: str, line: int) -> None:
        self.number = number
        self.key = key
        self.line = line
        self.fetches: list[Fetch] = []
        self.own_plain: list[str] | None = None  # of this machine, as case.py has it
        self.ending = ""
        self.last = 0


class Play:
    def __init__(self, lines: list[str]) -> None:
        self.lines = lines
        self.documents: list[Document] = []
        self.history: list[str] = []

    def fetches(self) -> list[Fetch]:
        return [fetch for document in self.documents for fetch in document.fetches]

    def requests(self) -> list[Send]:
        return [event for fetch in self.fetches() for event in fetch.of("send")]


def unescaped(text: str) -> bytes:
    """The bytes of an escaped text."""
    return re.sub(rb"\\x([0-9a-f]{2})", lambda found: bytes([int(found.group(1), 16)]), text.encode("latin-1"))


def plain(text: str) -> str:
    """An escaped text, a character for each byte."""
    return unescaped(text).decode("latin-1") if "\\" in text else text


class Reader:
    def __init__(self, text: str) -> None:
        if not text.endswith("\n"):
            raise NoPlay(text.count("\n") + 1)
        self.lines = text.split("\n")[:-1]
        self.at = 0
        self.pairs: dict[str, tuple[str, str]] = {}  # the headers of lines that were read, of which most come again

    def line(self) -> str:
        if self.at >= len(self.lines):
            raise NoPlay(self.at)
        self.at += 1
        return self.lines[self.at - 1]

    def refuse(self) -> NoReturn:
        raise NoPlay(self.at)

    def take(self, form: re.Pattern[str]) -> re.Match[str] | None:
        """The next line, where it has this form."""
        found = form.fullmatch(self.lines[self.at]) if self.at < len(self.lines) else None
        self.at += found is not None
        return found

    def play(self) -> Play:
        play = Play(self.lines)
        if self.line() != "fetchplay 1":
            self.refuse()
        while True:
            found = self.take(DOCUMENT)
            if found is None:
                break
            play.documents.append(self.document(Document(int(found.group(1)), found.group(2), self.at)))
        if self.line() != "history":
            self.refuse()
        while self.take(HISTORY):
            play.history.append(self.lines[self.at - 1])
        if self.line() != "done" or self.at != len(self.lines):
            self.refuse()
        return play

    def document(self, document: Document) -> Document:
        while True:
            found = self.take(COMMAND)
            if found is None:
                break
            number = int(found.group(1) or found.group(2))
            document.fetches.append(self.fetch(Fetch(document, number, found.group(3), self.at)))
        found = self.take(END)
        if found is None:
            self.at += 1
            self.refuse()
        document.ending = found.group(1)
        document.last = self.at
        return document

    def fetch(self, fetch: Fetch) -> Fetch:
        while not fetch.events or fetch.events[-1].kind != "result":
            event = self.event(self.line())
            event.last = self.at
            fetch.events.append(event)
        return fetch

    def event(self, line: str) -> Event:
        word = line.partition(" ")[0]
        if word == "send":
            return self.send(line)
        if word == "call":
            found = there(CALL.fullmatch(line))
            return Call("call", self.at, op=found.group(1), words=found.group(2).split(" "), reply=found.group(3))
        if word == "violation":
            found = there(VIOLATION.fullmatch(line))
            return Violated("violation", self.at, policy=int(found.group(1)), enforced=found.group(2) == "enforce",
                            directive=found.group(3), url=found.group(4))
        return self.result(line)

    def send(self, line: str) -> Send:
        event = Send("send", self.at, origin=line.partition(" ")[2], headers=[], body=None)
        event.method, target = there(REQUEST.fullmatch(self.line())).groups()
        event.target = plain(target)
        lines, at = self.lines, self.at
        while at < len(lines) and lines[at].startswith("  "):
            known = self.pairs.get(lines[at])
            if known:
                event.headers.append(known)
                at += 1
                continue
            name, colon, value = lines[at][2:].partition(": ")
            found = SENT_BODY.fullmatch(lines[at]) if name.startswith("body ") else None
            if found:
                event.body = unescaped(found.group(2))
                at += 1
                break
            if not name or not colon or ":" in name:  # it is no header
                break
            self.pairs[lines[at]] = name, plain(value)
            event.headers.append(self.pairs[lines[at]])
            at += 1
        self.at = at
        return event

    def result(self, line: str) -> Result:
        found = RESULT.fullmatch(line)
        if found is None:
            self.refuse()
        result = Result(self.at, found)
        if result.is_refused() or result.type == "loaded":
            return result
        while True:
            ending = self.take(BODY)
            if ending:
                self.end_body(result, ending)
                return result
            header = self.take(HEADER)
            if header is None:
                self.at += 1
                self.refuse()
            result.headers.append((header.group(1), plain(header.group(2))))

    @staticmethod
    def end_body(result: Result, found: re.Match[str]) -> None:
        none, whole, _, text, broken, _, toobig = found.groups()
        result.ending = none or whole or broken or toobig
        result.body = unescaped(text) if whole else None


def header_of(event: AnyRequest, name: str) -> str | None:
    """The value of a request's header, or None."""
    wanted = name.lower()
    return next((value for own, value in event.headers if own.lower() == wanted), None)


def is_preflight(event: AnyRequest) -> bool:
    is_options = event.kind == "send" and event.method == "OPTIONS"
    return is_options and header_of(event, "Access-Control-Request-Method") is not None


def read(text: str) -> Play:
    """The play of a text, whose bytes are characters (latin-1)."""
    reader = Reader(text)
    try:
        return reader.play()
    except (AttributeError, IndexError) as error:
        raise NoPlay(reader.at) from error
