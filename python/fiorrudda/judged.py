"""What a browser makes of a request, or of an answer, that others send: for a proxy, and for a judge of many.

    page = Client("https://app.example/", policies=["img-src 'self'; upgrade-insecure-requests"])
    judge(page, Load("image", "http://app.example/i.png")).sends.url        # 'https://app.example/i.png'
    judge(page, Load("image", "https://ads.example/")).refusal.name         # 'CspRequest'
    judge_answer(page, Request("https://api.example/"), 200, {}).refusal    # NetworkError(12, 'CorsCheck', None)

Nothing is sent. `NoRequest` where no request can be made of what is asked for.
"""
import ctypes
from typing import Any, Iterable, List, NamedTuple, Optional, Tuple, Union

from .checks import _ERRORS, Asked, Violation, _Found, _list, seen
from .engine import (
    Book, FiorruddaError, Headers, Listed, NoRequest, Text, _bytes, _Handle, _lib, _Thing, _time, _told, _written,
)
from .whole import (
    _ERROR, _ORIGIN, _SEND, Act, Ask, Client, Fetch, Loaded, NetworkError, Pairs, ReadBody, ReadHead, Response, Send,
    Tell,
)

__all__ = ["Answered", "Judged", "Preflight", "Sends", "judge", "judge_answer", "judge_many"]

_ROOM = 8192  # bytes that hold most requests
_FRAMING = (b"content-encoding", b"content-length", b"transfer-encoding")
_READABLE = ("basic", "cors")


class Preflight(NamedTuple):
    """What a preflight asks for: a method, and names of headers."""

    method: str
    names: Tuple[str, ...]


class Sends(NamedTuple):
    """A request that is sent: its URL after all upgrades, without a fragment; its method; the bytes of its head."""

    url: str
    method: str
    head: bytes

    @classmethod
    def of_request(cls, origin: bytes, request: bytes) -> "Sends":
        """What is sent to a server: its origin, and all bytes of the request."""
        head = request[:request.index(b"\r\n\r\n")]
        method, target, _ = head.split(b" ", 2)
        return cls((origin + target).decode("latin-1"), method.decode("latin-1"), head)

    @property
    def headers(self) -> Pairs:
        """Its headers, in order, as pairs of a name and a value."""
        lines = [line.partition(b": ") for line in self.head.split(b"\r\n")[1:]]
        return [(name, value) for name, _, value in lines]

    @property
    def preflight(self) -> Optional[Preflight]:
        """What it asks for, where it is a preflight."""
        method, names = self._word(b"access-control-request-method"), self._word(b"access-control-request-headers")
        return None if method is None else Preflight(method, tuple(names.split(",")) if names else ())

    @property
    def origin(self) -> Optional[str]:
        """The origin that the server is told."""
        return self._word(b"origin")

    @property
    def referrer(self) -> Optional[str]:
        """The referrer that it is told."""
        return self._word(b"referer")

    @property
    def cookies(self) -> Optional[bytes]:
        """The value of the Cookie header."""
        return self._value(b"cookie")

    def _value(self, wanted: bytes) -> Optional[bytes]:
        return next((value for name, value in self.headers if name.lower() == wanted), None)

    def _word(self, wanted: bytes) -> Optional[str]:
        value = self._value(wanted)
        return None if value is None else value.decode("latin-1")

    def __repr__(self) -> str:
        """Without its head, which a log need not have."""
        asked = self.preflight
        return f"Sends({self.url!r}, {self.method!r}{'' if asked is None else f', preflight={asked!r}'})"


class Judged(NamedTuple):
    """What a browser makes of a request: what it sends first, be it a preflight, or why it sends nothing; and the
    violations of the page's policies on the way, report-only ones too."""

    sends: Optional[Sends]
    refusal: Optional[NetworkError]
    violations: Tuple[Violation, ...]


class Answered(NamedTuple):
    """What a browser makes of an answer: whether the page may read it, or the load succeeds; why it comes to nothing;
    the response as a script sees it; what is sent next, where the answer redirects; and the violations, those by the
    request first. An opaque response is seen, and not readable."""

    readable: bool
    refusal: Optional[NetworkError]
    seen: Optional[Response]
    sends: Optional[Sends]
    violations: Tuple[Violation, ...]

    def __repr__(self) -> str:
        """Without headers and body, which a log need not have."""
        seen = None if self.seen is None else f"<{self.seen.kind} {self.seen.status}>"
        return (f"Answered(readable={self.readable}, refusal={self.refusal!r}, seen={seen}, sends={self.sends!r}, "
                f"violations={self.violations!r})")


def judge(client: Client, request: Asked, book: Optional[Book] = None, now: int = 0) -> Judged:
    """What a browser makes of a request, with a book, or an empty one, at a time in seconds. The book stays as it was.
    Threads that share it hold one common lock around this call."""
    return _Judging(now).judged(client, request, book)


def judge_many(triples: Iterable[Tuple[Client, Asked, Optional[Book]]],
               now: int = 0) -> List[Union[Judged, FiorruddaError]]:
    """`judge` of each of many triples of a client, a request and a book or None, in order. Where one has no answer, the
    error stands in its place."""
    judging = _Judging(now)
    return [judging.answer(*triple) for triple in triples]


class _Judging(_Thing):
    """Fetches, one after another, that are judged before they send, and the room that their requests are read into."""

    def __init__(self, now: int) -> None:
        super().__init__(lambda handle: 0)
        self._now, self._found, self._none = _time(now), _Found(), Book()
        self._room, self._length = ctypes.create_string_buffer(_ROOM), ctypes.c_size_t(0)
        self._fault, self._header, self._number = ctypes.c_uint32(0), ctypes.c_uint32(0), ctypes.c_uint64(0)

    def answer(self, client: Client, request: Asked, book: Optional[Book]) -> Union[Judged, FiorruddaError]:
        try:
            return self.judged(client, request, book)
        except FiorruddaError as error:
            return error

    def judged(self, client: Client, request: Asked, book: Optional[Book]) -> Judged:
        self._begin(client._handle, request._handle)
        act, told = self._found.of_fetch(self._handle, (self._none if book is None else book)._handle)
        if act == _SEND:
            return Judged(self._sends(), None, tuple(told))
        return Judged(None, self._refusal(), tuple(told))

    def _begin(self, client: _Handle, request: _Handle) -> None:
        code = _lib.fiorrudda_fetch(self._handle, client, request, self._now, 0, self._fault, self._header)
        if code == NoRequest.code:
            raise NoRequest(self._fault.value, self._header.value)
        _told(code)

    def _refusal(self) -> Optional[NetworkError]:
        if not _told(_lib.fiorrudda_number(self._handle, _ERROR, self._number)):
            return None
        return NetworkError(self._number.value, _ERRORS[self._number.value], None)

    def _sends(self) -> Sends:
        return Sends.of_request(self._text(_lib.fiorrudda_text, _ORIGIN, 0), self._text(_lib.fiorrudda_to_send))

    def _text(self, call: Any, *which: int) -> bytes:
        if call(self._handle, *which, self._room, _ROOM, self._length) == 0:
            return ctypes.string_at(self._room, self._length.value)
        return _written(call, self._handle, *which) or b""


# ---- an answer

Head = Tuple[int, Listed]  # of an answer: its status and its headers


def judge_answer(client: Client, request: Asked, status: int, headers: Listed, body: Optional[Text] = None,
                 book: Optional[Book] = None, now: int = 0, *, redirects: Iterable[Head] = (),
                 preflight: Optional[Head] = None) -> Answered:
    """What a browser makes of an answer, with a book, which learns what is said, or an empty one. Threads that share it
    hold one common lock around this call.

    The body is as a page gets it: no longer in chunks, and decoded. Where it is left out, the answer is judged as one
    that is cut off behind its head, and a request with integrity metadata is refused by `ValueError`.

    `redirects` are the answers before this one, each a status and headers. Where this one redirects too, `sends` has
    what is asked next. Each preflight on the way is answered by `preflight`, a status and headers; where that is left
    out, it counts as passed, and is not learnt."""
    answering = _Answering(client, request, book, now, body, preflight)
    for redirect in redirects:
        answering.redirect(*redirect)
    return answering.answered(status, headers)


def _head(status: int, headers: Headers, framing: bytes = b"") -> bytes:
    """The bytes of a head, except what frames and codes a body."""
    if not 0 <= status <= 999:
        raise ValueError(f"{status} is no status")
    pairs = [(name, value) for name, value in headers.pairs() if name.lower() not in _FRAMING]
    return b"HTTP/1.1 %03d\r\n%b%b\r\n" % (status, b"".join(b"%b: %b\r\n" % pair for pair in pairs), framing)


class _Answering:
    """A fetch whose answers are given, one after another."""

    def __init__(self, client: Client, request: Asked, book: Optional[Book], now: int, body: Optional[Text],
                 preflight: Optional[Head]) -> None:
        self.client, self.request, self.book = client, request, Book() if book is None else book
        self.body = None if body is None else _bytes(body)
        self.preflight = None if preflight is None else _head(preflight[0], _list(preflight[1]))
        self.fetch = Fetch(client, request, now, 2**20 if self.body is None else len(self.body))
        self.violations: List[Violation] = []

    def redirect(self, status: int, headers: Listed) -> None:
        """An answer that redirects."""
        if not self._is_asked():
            return
        self._feed(_head(status, _list(headers)))
        self._is_asked()
        if isinstance(next(self.fetch, None), ReadBody) or isinstance(self.fetch.outcome, (Loaded, Response)):
            raise ValueError(f"an answer of `redirects`, of the status {status}, does not redirect")

    def answered(self, status: int, headers: Listed) -> Answered:
        """The last answer, and what came of it."""
        told = _list(headers)
        head = _head(status, told, b"Content-Length: 1\r\n" if self.body is None else b"")
        if self._is_asked():
            self._feed(head)
            if isinstance(self._next(), ReadBody):
                self._feed_body()
        act = self._next()
        outcome = self.fetch.outcome
        refusal = outcome if isinstance(outcome, NetworkError) else None
        shown = self._seen(outcome, status, told) if isinstance(outcome, Response) else None
        readable = isinstance(outcome, Loaded) or shown is not None and shown.kind in _READABLE
        sends = Sends.of_request(act.origin.encode(), act.request) if isinstance(act, Send) else None
        return Answered(readable, refusal, shown, sends, tuple(self.violations))

    def _seen(self, response: Response, status: int, headers: Headers) -> Response:
        """The response with all headers of the answer that a page sees."""
        if response.kind not in _READABLE:
            return response
        shown = seen(self.client, self.request, status, headers, response.kind)
        return response._replace(headers=shown.headers.pairs())

    def _is_asked(self) -> bool:
        """Goes on to the request that is answered, past its preflight, if it comes to one."""
        if self.preflight is None:
            self._cover()
            return isinstance(self._next(), Send)
        act = self._next()
        while isinstance(act, Send) and act.preflight:
            self._feed(self.preflight)
            act = self._next()
        return isinstance(act, Send)

    def _cover(self) -> None:
        """Goes on as if the preflight cache covered each request."""
        for act in self.fetch:
            if isinstance(act, Ask) and act.call.name == "covers":
                self.fetch.reply(True)
            elif isinstance(act, Ask):
                self.fetch.ask(self.book)
            elif isinstance(act, Tell):
                self.violations.append(Violation(*act))
                self.fetch.told()
            else:
                return

    def _next(self) -> Optional[Act]:
        """What is to be done over the network next, if anything is."""
        self.violations += self.fetch.judge(self.book)
        return next(self.fetch, None)

    def _feed(self, head: bytes) -> None:
        self.fetch.sent()
        self.fetch.feed(head)
        if isinstance(next(self.fetch, None), ReadHead):  # behind a status that another follows
            self.fetch.ended()

    def _feed_body(self) -> None:
        if self.body is None and self.request._options.get("integrity"):
            raise ValueError("the integrity metadata of the request need the body")
        self.fetch.feed(self.body or b"")
        if isinstance(next(self.fetch, None), ReadBody):
            self.fetch.ended()
