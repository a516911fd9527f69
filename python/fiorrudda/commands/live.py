"""Fetches over real connections. The library says what is to be done next; here it is done, and written down as
`fetchplay` prints it."""
from __future__ import annotations

import re
import socket
import ssl
import threading
import time
from typing import TYPE_CHECKING
from urllib.parse import urlsplit

import fiorrudda
from fiorrudda import printed, whole
from fiorrudda.commands import answers, codings
from fiorrudda.commands.there import there

if TYPE_CHECKING:
    from collections.abc import Callable, Iterator
    from typing import Any

    from fiorrudda.commands.shapes import Places

PIECE = 65536
SOON = 0.5  # seconds for what is still to come of a body that the engine does not read
MOST_UNREAD = 1048576
IDENTITY = b"\r\nAccept-Encoding: identity"
PORTS = {"http": 80, "https": 443}
BAD_REQUEST = re.compile(rb"HTTP/1\.[01] 400[ \r\n]")
TOLD_BY = re.compile(rb"plain HTTP|HTTPS|requires TLS")


class Exchange:
    """One request and the bytes of its answer. `link` says how the connection went: done, unknown-name, refused,
    unreached, certificate, no-tls, tls-port, hang, reset; `note` has what the system says of it. `stream` is what the
    engine reads, `unread` what is wrong in a body that it does not, or None."""

    def __init__(self, origin: str, method: str, receive: Callable[[], bytes | None]) -> None:
        self.origin = origin
        self.kept = answers.Pieces()
        self.stream = codings.Stream(receive, method)
        self.failure: str | None = None
        self.said, self.is_ended = "", False
        self.unread: codings.Cut | None = None

    @property
    def answer(self) -> bytes:
        return self.kept.joined()

    @property
    def fed(self) -> bytes:
        """The answer as the engine was fed it."""
        fed = self.stream.fed()
        return self.answer if fed is None else fed

    @property
    def is_tls_port(self) -> bool:
        return self.origin.startswith("http:") and is_of_tls_port(self.answer[:PIECE])

    @property
    def link(self) -> str:
        return "tls-port" if self.is_tls_port else self.failure or "done"

    @property
    def note(self) -> str:
        return "" if self.is_tls_port else self.said


class Wire:
    """A connection for each request, each of them over before the deadline. `places` are hosts and ports to connect to
    in the place of others."""

    def __init__(self, seconds: float, places: Places, is_compressed: bool = False) -> None:
        self.is_compressed = is_compressed
        self.deadline = time.monotonic() + seconds
        self.places = places
        self.trust = ssl.create_default_context()
        self.socket: socket.socket | None = None
        self.exchanges: list[Exchange] = []

    def send(self, act: fiorrudda.Send) -> bool:
        """Connects and sends; whether that succeeded."""
        self.close()
        exchange = Exchange(act.origin, act.method, self.receive)
        self.exchanges.append(exchange)
        try:
            self.connect(act.origin)
        except (OSError, ValueError) as error:  # the latter of names that are none to the system
            return self.fail(exchange, error, "refused" if self.socket is None else "reset", "unreached")
        try:
            there(self.socket).sendall(self.as_sent(act.request))
            return True
        except OSError as error:
            return self.fail(exchange, error, "reset")

    def as_sent(self, request: bytes) -> bytes:
        """A request, as it was asked for, or with the codings that are decoded here."""
        if not self.is_compressed:
            return request
        head, gap, body = request.partition(b"\r\n\r\n")
        return head.replace(IDENTITY, b"\r\nAccept-Encoding: " + codings.accepted().encode(), 1) + gap + body

    def connect(self, origin: str) -> None:
        self.socket = self.reached(*self.place(origin))
        if origin.startswith("https:"):
            self.socket.settimeout(self.left())
            self.socket = self.trust.wrap_socket(self.socket, server_hostname=urlsplit(origin).hostname)
        self.socket.settimeout(self.left())

    def reached(self, host: str, port: int) -> socket.socket:
        """A connection to the first address of a host that takes one; the time that is left is for all of them."""
        found = looked_up(host, port, self.left())
        for number, (family, kind, _, _, address) in enumerate(found, 1):
            one = socket.socket(family, kind)
            try:
                one.settimeout(self.left() / (len(found) - number + 1))
                one.connect(address)
                return one
            except OSError:
                one.close()
                if number == len(found):
                    raise
        raise OSError("the name has no address")

    def place(self, origin: str) -> tuple[str, int]:
        """The host and the port to which an origin's requests go."""
        parts = urlsplit(origin)
        own = parts.hostname or "", parts.port or PORTS[parts.scheme]
        return self.places.get(own, own)

    def receive(self) -> bytes | None:
        """The next bytes of the answer, none at its end, and None where the connection failed."""
        exchange = self.exchanges[-1]
        try:
            there(self.socket).settimeout(self.left())
            piece = there(self.socket).recv(PIECE)
        except OSError as error:
            self.fail(exchange, error, "reset")
            return None
        exchange.kept.add(piece)
        return piece

    def read(self) -> bytes | None:
        """The same, as the engine reads it."""
        return self.exchanges[-1].stream.read()

    def look_on(self) -> None:
        """Looks into a body that the engine does not read, as far as it comes soon, for what is to be said of it."""
        exchange = self.exchanges[-1] if self.exchanges else None
        head = answers.Answer(exchange.answer).head if exchange else None
        if exchange is None or head is None or self.socket is None:
            return
        if exchange.failure or exchange.stream.is_opened:
            return
        fault = codings.fault_in(head, self.soon(exchange, head.end), there(exchange).stream.codings)
        # Broken chunks are read by some browsers: of a framing its early end alone is a fault.
        there(exchange).unread = fault if fault and (fault.coding or there(exchange).is_ended) else None

    def look_behind(self) -> None:
        """Takes what comes soon behind the length of a body whose coding is cut there."""
        exchange = self.exchanges[-1] if self.exchanges else None
        cut = (exchange.stream.cut or exchange.unread) if exchange else None
        if exchange is None or cut is None or self.socket is None:
            return
        if cut.coding is None or cut.is_other or exchange.failure:
            return
        try:
            for _ in self.soon(exchange, len(there(exchange).answer)):
                pass
        except codings.Unknown:
            pass

    def soon(self, exchange: Exchange, start: int) -> Iterator[bytes]:
        """What came of a body, which begins at `start`, and what comes soon."""
        until = time.monotonic() + min(SOON, max(self.deadline - time.monotonic(), 0))
        piece, count = exchange.answer[start:], 0
        while True:
            count += len(piece)
            yield piece
            if count >= MOST_UNREAD or time.monotonic() >= until:
                raise codings.Unknown
            try:
                there(self.socket).settimeout(max(until - time.monotonic(), 0.001))
                piece = there(self.socket).recv(PIECE)
            except OSError:  # it comes later, or breaks: nothing is said of that
                raise codings.Unknown from None
            exchange.is_ended = not piece
            exchange.kept.add(piece)
            if not piece:
                return

    def left(self) -> float:
        """How many seconds are left."""
        left = self.deadline - time.monotonic()
        if left <= 0:
            raise TimeoutError("the time limit")
        return left

    def fail(self, exchange: Exchange, error: BaseException, word: str, late: str = "hang") -> bool:
        """`late` is the word where the time limit came."""
        said = (getattr(error, name, None) for name in ("verify_message", "reason", "strerror"))
        exchange.failure, exchange.said = word_of(error, word, late), str(next(filter(None, said), error))
        return False

    def close(self) -> None:
        if self.socket is not None:
            self.socket.close()
            self.socket = None


def looked_up(host: str, port: int, seconds: float) -> list[Any]:
    """The addresses of a host. The system may take longer than there is time: a thread asks it, and is left alone
    then."""
    found: list[Any] = []

    def look_up() -> None:
        try:
            found.append(socket.getaddrinfo(host, port, type=socket.SOCK_STREAM))
        except (OSError, ValueError) as error:
            found.append(error)

    asking = threading.Thread(target=look_up, daemon=True)
    asking.start()
    asking.join(seconds)
    if not found:
        raise TimeoutError("the name was not looked up until the time limit")
    if isinstance(found[0], Exception):
        raise found[0]
    addresses: list[Any] = found[0]
    return addresses


def word_of(error: BaseException, otherwise: str, late: str) -> str:
    """How a connection failed, in a word."""
    kinds = [(TimeoutError, late), (socket.timeout, late), (ssl.SSLCertVerificationError, "certificate"),
             (ssl.SSLError, "no-tls"),
             (socket.gaierror, "unknown-name"), (ValueError, "unknown-name")]
    return next((word for kind, word in kinds if isinstance(error, kind)), otherwise)


def is_of_tls_port(answer: bytes) -> bool:
    """Whether an answer to a plain request is that of a port which speaks TLS: a record of TLS, or a 400 that speaks of
    HTTPS, as nginx, Apache, Go and Tomcat word it."""
    return answer.startswith(answers.TLS_RECORDS) or bool(BAD_REQUEST.match(answer) and TOLD_BY.search(answer))


class Page:
    """A document that fetches over a wire at a time in seconds, by a book, with the lines of its play."""

    def __init__(self, url: str, client: fiorrudda.Client, wire: Wire, limit: int, book: fiorrudda.Book,
                 now: int) -> None:
        self.client = client
        self.wire = wire
        self.limit = limit
        self.book = book
        self.now = now
        self.count = 0
        self.calls: list[str] = []
        self.lines = ["fetchplay 1", "document 0 " + fiorrudda.origin(url)]

    def ask(self, make: Callable[[], fiorrudda.Request | fiorrudda.Load], kind: str | None = None) -> None:
        """One fetch, or a load of a kind; `make` makes its request."""
        self.lines.append(f"fetch {self.count}" if kind is None else f"load {self.count} {kind}")
        self.count += 1
        try:
            request = make()
            fetch = fiorrudda.Fetch(self.client, request, self.now, self.limit)
        except fiorrudda.NoRequest as fault:
            self.lines.append(printed.fault_line(fault, kind is not None))
            return
        self.act(fetch)
        if kind is not None and isinstance(fetch.outcome, fiorrudda.Loaded):
            self.wire.look_on()
        self.wire.look_behind()
        self.wire.close()
        outcome: whole.Outcome = fetch.outcome  # type: ignore[assignment]  # the fetch is over
        self.lines += printed.outcome_lines(self.as_it_came(outcome, request), kind is not None)

    def as_it_came(self, outcome: whole.Outcome, request: fiorrudda.Request | fiorrudda.Load) -> whole.Outcome:
        """The outcome with the headers that the answer lets a page see, by the engine's own filter, where the engine
        was fed another head."""
        own = self.wire.exchanges[-1].stream.own if self.wire.exchanges else None
        if own is None or not isinstance(outcome, fiorrudda.Response) or outcome.kind not in ("basic", "cors"):
            return outcome
        headers = [(name.encode("latin-1"), value.encode("latin-1")) for name, value in own.headers]
        seen = fiorrudda.seen(self.client, request, own.status, headers, outcome.kind)
        return outcome._replace(headers=seen.headers.pairs())

    def act(self, fetch: fiorrudda.Fetch) -> None:
        left, waits = b"", None
        for act in fetch:
            if isinstance(act, fiorrudda.Ask):
                line = printed.call_line(act.call, fetch.ask(self.book))
                self.lines.append("call " + line)
                self.calls.append(line)
            elif isinstance(act, fiorrudda.Tell):
                self.lines.append(printed.violation_line(act))
                fetch.told()
            elif isinstance(act, fiorrudda.Send):
                self.lines += printed.sent_lines(act)
                left, waits = b"", None
                fetch.sent() if self.wire.send(act) else fetch.failed()
            elif left or waits is not type(act):
                # what was left of the last piece comes first, be there some or none
                waits = type(act)
                left = left[fetch.feed(left):]
            else:
                left = self.read(fetch)

    def read(self, fetch: fiorrudda.Fetch) -> bytes:
        """The next bytes, for the fetch to read; or that they ended or failed."""
        piece = self.wire.read()
        if piece:
            return piece
        fetch.failed() if piece is None else fetch.ended()
        return b""

    def text(self) -> str:
        history = [f"{turn} 0 {line}" for turn, line in enumerate(self.calls)]
        return "\n".join([*self.lines, "end finished", "history", *history, "done", ""])
