"""The answers of servers: what a scripted server says by its rules, and what the bytes of an answer are
(docs/rules/answers.md). Bytes are looked at once, in whatever pieces they come, so no server can make this dearer than
what it sends is long."""
from __future__ import annotations

import re
from functools import cached_property
from typing import TYPE_CHECKING

from fiorrudda.commands.there import there

if TYPE_CHECKING:
    from fiorrudda.commands.scenario import Scenario
    from fiorrudda.commands.shapes import AnyRequest, Object, Pairs

STATUS_LINE = re.compile(rb"HTTP/1\.[01] (\d\d\d)(?: [^\r\n]*)?")
LINE_END = re.compile(rb"\r?\n")
BLANK_LINES = re.compile(rb"[\r\n]*")
HEAD_END = re.compile(rb"\n\r?\n")
HEADER_LINE = re.compile(rb"([!#$%&'*+\-.^_`|~0-9A-Za-z]+):([^\x00-\x08\x0b-\x1f\x7f]*)")
CHUNK_LINE = re.compile(rb"([0-9a-fA-F]{1,16})[\t ]*(?:;[^\r\n]*)?\r\n")
LENGTH = re.compile(r"[0-9]{1,18}")
TLS_RECORDS = (b"\x15\x03", b"\x16\x03")  # an alert, or a handshake
NO_RULE = b"HTTP/1.1 404 Scripted\r\n\r\n"
MOST_LINES = 128
MOST_HEAD = 65536
MOST_CHUNK_LINE = 4096
MOST_TRAILERS = 8192
MOST_KEPT = 67108864


class Pieces:
    """Bytes that come in pieces. What comes behind the first MOST_KEPT is not kept."""

    def __init__(self) -> None:
        self.data = bytearray()
        self.known = b""

    def add(self, piece: bytes) -> None:
        self.data += piece[:MOST_KEPT - len(self.data)]

    def joined(self) -> bytes:
        if len(self.known) != len(self.data):
            self.known = bytes(self.data)
        return self.known


class Head:
    """A final head: its status, its headers as pairs, and where its body begins."""

    def __init__(self, status: int, headers: Pairs, end: int) -> None:
        self.status = status
        self.headers = headers
        self.end = end

    def is_final(self) -> bool:
        return self.status == 101 or not 100 <= self.status <= 199

    def values(self, name: str) -> list[str]:
        return [value for own, value in self.headers if own.lower() == name.lower()]

    def get(self, name: str) -> str | None:
        """All values of a name, joined; None where there is none."""
        values = self.values(name)
        return ", ".join(values) if values else None


class Answer:
    """What came for one request. `server` and `rule` are numbers of a scripted server, or None where there is none;
    over a network `link` says how the connection went: done, or a word of relay.py, and `is_ended` that all came that
    the server sent."""

    is_ended = False

    def __init__(self, data: bytes, server: int | None = None, rule: int | None = None,
                 link: str | None = None) -> None:
        self.data = data
        self.server = server
        self.rule = rule
        self.link = link
        self.known_beginning: tuple[str | None, Head | None] | None = None  # which many are never asked for
        self.known_body: bytes | None = None

    @property
    def beginning(self) -> tuple[str | None, Head | None]:
        if self.known_beginning is None:
            self.known_beginning = parsed(self.data)
        return self.known_beginning

    @property
    def problem(self) -> str | None:
        return self.beginning[0]

    @property
    def head(self) -> Head | None:
        return self.beginning[1]

    @property
    def is_scripted(self) -> bool:
        return self.link is None

    def body(self) -> bytes:
        """The body's bytes, as far as they came, by its framing."""
        if self.known_body is None:
            self.known_body = self.framed(self.data[there(self.head).end:])
        return self.known_body

    def sent(self) -> bytes:
        """The same as it was sent: not decoded."""
        return Answer.framed(self, self.data[there(self.head).end:])

    def framed(self, rest: bytes) -> bytes:
        if (there(self.head).get("Transfer-Encoding") or "").lower() == "chunked":
            return Chunks().feed(rest)
        return rest[:Answer.length(self)]

    def length(self) -> int | None:
        """The number of Content-Length; None where there is none, or no such number."""
        found = LENGTH.fullmatch(there(self.head).get("Content-Length") or "")
        return int(found.group()) if found else None


class Scripted(Answer):
    """That of a scenario's server, whose bytes are made where they are asked for."""

    link = None

    def __init__(self, scenario: Scenario, server: int | None, rule: int | None) -> None:
        self.scenario = scenario
        self.server = server
        self.rule = rule
        self.known_beginning = self.known_body = None

    @cached_property
    def data(self) -> bytes:  # type: ignore[override]  # it is as the other's, and made later
        return bytes_of(self.scenario, self.server, self.rule)


class Chunks:
    """A body in chunks, taken apart as its bytes come. `is_whole` says that its end came, `is_broken` that a byte does
    not fit."""

    def __init__(self) -> None:
        self.is_whole = self.is_broken = False
        self.left = 0  # bytes of the chunk that has begun, with its line end
        self.line = b""  # what came of a line that is not whole
        self.trailers: int | None = None  # how many bytes of them came, behind the last chunk

    def feed(self, piece: bytes) -> bytes:
        """The data in the next bytes."""
        data, at = self.line + piece, 0
        found: list[bytes] = []
        self.line = b""
        while at < len(data) and not self.is_whole and not self.is_broken:
            if not self.left:
                at = self.take_line(data, at)
            else:
                at = self.take_data(data, at, found)
                at = at if self.left or self.is_broken else whole_chunks(data, at, found)
        return b"".join(found)

    def take_data(self, data: bytes, at: int, found: list[bytes]) -> int:
        """Takes what is there of the chunk and of its line end; where the next bytes stand."""
        end = min(at + max(self.left - 2, 0), len(data))
        found.append(data[at:end])
        self.left -= end - at
        ending = data[end:end + self.left] if self.left <= 2 else b""
        self.is_broken = not b"\r\n"[2 - min(self.left, 2):].startswith(ending)
        self.left -= len(ending)
        return end + len(ending)

    def take_line(self, data: bytes, at: int) -> int:
        """Takes a line that says how long a chunk is, or one behind the last; where the next one stands."""
        end = data.find(b"\n", at) + 1
        line = data[at:end] if end else data[at:]
        if not end:
            self.line = line
            self.is_broken = len(line) >= (MOST_CHUNK_LINE if self.trailers is None else MOST_TRAILERS - self.trailers)
        elif self.trailers is None:
            self.take_size(line)
        else:
            self.take_trailer(line)
        return at + len(line)

    def take_size(self, line: bytes) -> None:
        found = CHUNK_LINE.fullmatch(line) if len(line) <= MOST_CHUNK_LINE else None
        size = int(found.group(1), 16) if found else 0
        self.is_broken = found is None
        self.left = size + 2 if size else 0
        self.trailers = None if size else 0

    def take_trailer(self, line: bytes) -> None:
        self.trailers = (self.trailers or 0) + len(line)
        self.is_broken = self.trailers > MOST_TRAILERS or not line.endswith(b"\r\n") or line.count(b"\r") > 1
        self.is_whole = line == b"\r\n" and not self.is_broken


def whole_chunks(data: bytes, at: int, found: list[bytes]) -> int:
    """Takes the chunks that are there with their line ends, which most are: where the next bytes stand."""
    line = CHUNK_LINE.match(data, at)
    while line and line.end() - at <= MOST_CHUNK_LINE:
        begin = line.end()
        end = begin + int(line.group(1), 16)
        if end == begin or data[end:end + 2] != b"\r\n":
            break
        found.append(data[begin:end])
        at = end + 2
        line = CHUNK_LINE.match(data, at)
    return at


def scripted(scenario: Scenario, request: AnyRequest) -> Answer:
    """The answer of the scenario's servers to a request (docs/scenario.md, "What the servers answer"). One rule has one
    answer, however often it is asked for."""
    server = scenario.server_of(request.origin)
    index = None if server is None else scenario.rule_of(server, request)
    if (server, index) not in scenario.answers:
        scenario.answers[server, index] = Scripted(scenario, server, index)
    return scenario.answers[server, index]


def scripted_like(scenario: Scenario, request: AnyRequest) -> Answer:
    """The same, where an origin without a server had one like another (`server_like`)."""
    server = scenario.server_like(request.origin)
    if server is None:
        return Answer(data_of({"status": 200}))
    request.origin = scenario.servers()[server]["origin"]
    return scripted(scenario, request)


def bytes_of(scenario: Scenario, server: int | None, index: int | None) -> bytes:
    if server is None:
        return b""
    return NO_RULE if index is None else data_of(scenario.servers()[server]["rules"][index])


def data_of(rule: Object) -> bytes:
    if "raw" in rule:
        return str(rule["raw"]).encode("utf-8", "surrogatepass")
    lines = [f"HTTP/1.1 {rule['status']} Scripted"]
    lines += [f"{name}: {value}" for name, value in rule.get("headers", [])]
    return ("\r\n".join(lines) + "\r\n\r\n" + str(rule.get("body", ""))).encode("utf-8", "surrogatepass")


# ---- heads

class Beginning:
    """The first bytes of an answer, up to those that decide whether it has a head: `head` is the final one, `problem`
    says in a word why there is none, and neither is there before."""

    def __init__(self) -> None:
        self.data = bytearray()
        self.problem: str | None = None
        self.head: Head | None = None
        self.start = 0  # of the head that is read
        self.seen = 0  # so far its end was looked for

    def add(self, piece: bytes) -> bool:
        """The next bytes; whether it is decided now."""
        self.data += piece
        while not self.is_decided() and self.next_head():
            pass
        return self.is_decided()

    def is_decided(self) -> bool:
        return self.problem is not None or self.head is not None

    def next_head(self) -> bool:
        """Reads the next head, if its end is there; whether it is."""
        self.start = there(BLANK_LINES.match(self.data, self.start)).end()
        end = HEAD_END.search(self.data, max(self.start, self.seen - 2))
        if (end.end() if end else len(self.data)) > MOST_HEAD:
            self.problem = "too-big"
        elif end:
            self.problem, head = lines_of(bytes(self.data[self.start:end.start()]), end.end())
            if head and head.is_final():
                self.head = head
            elif head:
                self.start = head.end
        else:
            self.seen = len(self.data)
        return bool(end)

    def why(self) -> str:
        """Why there is no head, where no more bytes come."""
        if self.start == len(self.data):
            return "nothing"
        if self.data.startswith(TLS_RECORDS, self.start):
            return "tls"
        return self.problem or ("cut" if STATUS_LINE.match(self.data, self.start) else "no-status-line")


def parsed(data: bytes) -> tuple[str | None, Head | None]:
    """A word that says what is wrong, or None, and the head, or None."""
    beginning = Beginning()
    beginning.add(data[:MOST_HEAD + 1])
    return None if beginning.head else beginning.why(), beginning.head


def lines_of(block: bytes, end: int) -> tuple[str | None, Head | None]:
    first, *lines = LINE_END.split(block.rstrip(b"\r"))
    status = STATUS_LINE.fullmatch(first)
    if not status:
        return "no-status-line", None
    forms = [HEADER_LINE.fullmatch(line) for line in lines]
    found = [form for form in forms if form]
    if len(found) < len(forms):
        return "bad-line", None
    if len(found) > MOST_LINES:
        return "many-lines", None
    headers = [(one.group(1).decode("latin-1"), one.group(2).strip(b"\t\n\r ").decode("latin-1")) for one in found]
    return None, Head(int(status.group(1)), headers, end)
