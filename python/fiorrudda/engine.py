"""The library, and the rules that ask it for one answer each: `fiorrudda` has what is here, and says how it is used."""
import ctypes
import enum
import json
import os
import pathlib
from typing import (
    Any, Callable, Iterable, List, Mapping, NamedTuple, NoReturn, Optional, Sequence, Tuple, TypeVar, Union,
)

from .names import CREDENTIALS, REQUEST_FAULTS

Buffer = Union[bytes, bytearray, memoryview]
Text = Union[str, Buffer]
Thing = TypeVar("Thing")
Made = Tuple[Callable[..., Any], Tuple[Any, ...]]  # what a value is made of again, by pickle and by copy

_OK, _NO, _TOO_SHORT = 0, 1, 4
SHARED = "libfiorrudda.so.1"  # as the dynamic linker finds it where the package is installed
_TEXT_ROOM = 256  # bytes that hold most texts
_PLAY_ROOM = 65536  # bytes that hold the text of most plays, so that these are played once


class FiorruddaError(Exception):
    """What a call was given has no answer."""


class OutOfMemory(FiorruddaError):
    """Memory was refused. Nothing has changed; but a fetch that was told something is gone."""


class WrongHandle(FiorruddaError):
    """What a call was lent holds nothing, or something else: a fetch, say, that memory was refused."""


class NoSuchNumber(FiorruddaError):
    """A number is none of those that the call takes."""


class NotAUrl(FiorruddaError):
    """A text is not UTF-8, or gives no URL by itself."""


class NotHttp(FiorruddaError):
    """A URL is neither http nor https."""


class NotAHeader(FiorruddaError):
    """A name is no token, or a value no header value."""


class TooLate(FiorruddaError):
    """A time is 2^48 seconds or more."""


class NotAHost(FiorruddaError):
    """A host is no domain as a URL has it, or a localhost name: it is never known."""


class NotAwaited(FiorruddaError):
    """What came is not what the fetch awaits. It stands where it stood."""


class NoRequest(FiorruddaError):
    """No request can be made of what is asked for: the fault by its number and name, and a bad header's index. Number 0
    where a rule was asked, and not a fetch."""

    code = 11
    NAMES = ("", *REQUEST_FAULTS)

    def __init__(self, number: int, header: int) -> None:
        self.number, self.name = number, self.NAMES[number]
        self.header = header if self.name == "BadHeader" else None
        super().__init__(self.name)

    def __reduce__(self) -> "Made":
        return type(self), (self.number, self.header or 0)


class NotABook(FiorruddaError):
    """A text is not the text of a book: its first line that is not as such a text has it, counted from 1, and why, by
    number and name."""

    NAMES = ("NoBook", "OtherFormat", "BadLine", "Order", "Full", "TooLong")

    def __init__(self, line: int, number: int) -> None:
        self.line, self.number, self.name = line, number, self.NAMES[number]
        super().__init__(f"line {line}: {self.name}")

    def __reduce__(self) -> "Made":
        return type(self), (self.line, self.number)


class NotAScenario(FiorruddaError):
    """A scenario is refused: the place of the first refusal, `json` or the way from the root to the value, as
    `/documents/0/url`."""

    def __init__(self, place: str) -> None:
        self.place = place
        super().__init__(place)


_ERRORS = {2: WrongHandle, 3: OutOfMemory, 5: NoSuchNumber, 6: NotAUrl, 7: NotHttp, 8: NotAHeader, 9: TooLate,
           10: NotAwaited, 12: NotAHost}


class ReferrerPolicy(enum.IntEnum):
    """The referrer policies (Referrer Policy, section 3). DEFAULT is no policy: strict-origin-when-cross-origin
    counts."""

    DEFAULT = 0
    NO_REFERRER = 1
    NO_REFERRER_WHEN_DOWNGRADE = 2
    SAME_ORIGIN = 3
    ORIGIN = 4
    STRICT_ORIGIN = 5
    ORIGIN_WHEN_CROSS_ORIGIN = 6
    STRICT_ORIGIN_WHEN_CROSS_ORIGIN = 7
    UNSAFE_URL = 8


class Sts(NamedTuple):
    """What a Strict-Transport-Security field says: for how many seconds, and whether of the names under the host
    too."""

    max_age: int
    include_subdomains: bool


class _Handle(ctypes.Structure):
    _fields_ = [("at", ctypes.c_void_p)]


def _library() -> ctypes.CDLL:
    here, given = pathlib.Path(__file__).resolve().parent, os.environ.get("FIORRUDDA_LIBRARY")
    places = [here / "libfiorrudda.so", here.parent.parent / "out/lib/libfiorrudda.so"]
    if here.parent.name == "dist-packages":  # (of Debian's packages, or of a tar of them, which has both below lib/)
        places += here.parents[2].glob(f"*/{SHARED}")
    found = given or next((str(place) for place in places if place.exists()), SHARED)
    try:
        return ctypes.CDLL(found)
    except OSError as error:
        raise ImportError(f"{error}: build libfiorrudda.so by bin/lib, or name it by FIORRUDDA_LIBRARY") from error


_TEXT = [ctypes.c_char_p, ctypes.c_size_t]
_ROOM = [ctypes.c_char_p, ctypes.c_size_t, ctypes.POINTER(ctypes.c_size_t)]
_HELD = [ctypes.POINTER(_Handle)]
_CALLS = {
    "headers": _HELD,
    "append": _HELD + _TEXT + _TEXT,
    "get": _HELD + _TEXT + _ROOM,
    "cors_check": _TEXT + [ctypes.c_bool] + _HELD,
    "resource_policy": _TEXT + _TEXT + _HELD,
    "origin": _TEXT + _ROOM,
    "same_origin": _TEXT + _TEXT,
    "same_site": _TEXT + _TEXT,
    "trustworthy": _TEXT,
    "bad_port": _TEXT,
    "referrer": [ctypes.c_uint32] + _TEXT + _TEXT + _ROOM,
    "integrity": _TEXT + _TEXT,
    "sts": _TEXT + [ctypes.POINTER(ctypes.c_uint64), ctypes.POINTER(ctypes.c_uint32)],
    "book": _HELD,
    "note_host": _HELD + _TEXT + _TEXT + [ctypes.c_uint64],
    "known_host": _HELD + _TEXT + [ctypes.c_uint64],
    "safelisted": _TEXT + _TEXT,
    "forbidden_method": _TEXT,
    "nosniff": _HELD,
    "essence": _HELD + _ROOM,
    "source_matches": _TEXT + _TEXT + _TEXT + [ctypes.c_uint32],
    "client": _HELD + _TEXT + _TEXT + [ctypes.c_uint32],
    "client_policy": _HELD + _TEXT + [ctypes.c_bool],
    "client_cookie": _HELD + _TEXT + _TEXT,
    "request": _HELD + _TEXT + _TEXT,
    "load": _HELD + [ctypes.c_uint32] + _TEXT,
    "request_header": _HELD + _TEXT + _TEXT,
    "request_text": _HELD + [ctypes.c_uint32] + _TEXT,
    "request_choose": _HELD + [ctypes.c_uint32, ctypes.c_uint32],
    "fetch": _HELD * 3 + [ctypes.c_uint64, ctypes.c_uint32] + [ctypes.POINTER(ctypes.c_uint32)] * 2,
    "act": _HELD + [ctypes.POINTER(ctypes.c_uint32)],
    "text": _HELD + [ctypes.c_uint32, ctypes.c_size_t] + _ROOM,
    "number": _HELD + [ctypes.c_uint32, ctypes.POINTER(ctypes.c_uint64)],
    "to_send": _HELD + _ROOM,
    "input": _HELD + [ctypes.c_uint32],
    "feed": _HELD + _TEXT + [ctypes.POINTER(ctypes.c_size_t)],
    "ask": _HELD + _HELD + [ctypes.POINTER(ctypes.c_uint32)],
    "judge": _HELD * 3 + [ctypes.POINTER(ctypes.c_uint32)],
    "name_at": _HELD + [ctypes.c_size_t] + _ROOM,
    "value_at": _HELD + [ctypes.c_size_t] + _ROOM,
    "unsafe_name": _HELD + [ctypes.c_size_t] + _ROOM,
    "exposed_name": _HELD + [ctypes.c_bool, ctypes.c_size_t] + _ROOM,
    "forbidden_header": _TEXT + _TEXT,
    "mixed_upgraded": _HELD * 2 + _TEXT,
    "mixed_blocked": _HELD * 2 + _TEXT,
    "policies": _HELD * 2,
    "upgrades": _HELD,
    "check": _HELD * 4 + _TEXT + [ctypes.c_uint32],
    "violation": _HELD + [ctypes.c_size_t] + [ctypes.POINTER(ctypes.c_uint32)] * 2,
    "violation_directive": _HELD + [ctypes.c_size_t] + _ROOM,
    "violation_url": _HELD + [ctypes.c_size_t] + _ROOM,
    "preflight": _HELD * 2 + _ROOM,
    "verdict": _HELD * 3 + [ctypes.c_uint16, ctypes.POINTER(ctypes.c_uint32), ctypes.POINTER(ctypes.c_uint64)],
    "refused_name": _HELD * 3 + [ctypes.c_uint16] + _ROOM,
    "filtered": _HELD * 4 + [ctypes.c_uint16, ctypes.c_uint32, ctypes.POINTER(ctypes.c_uint32)],
    "type_blocked": _HELD * 2,
    "nosniff_blocked": _HELD * 2,
    "book_text": _HELD + _ROOM,
    "book_of_text": _HELD + _TEXT + [ctypes.POINTER(ctypes.c_uint64), ctypes.POINTER(ctypes.c_uint32)],
    "play": _TEXT + _ROOM,
    "reports": _TEXT + _ROOM,
    "audit": _TEXT * 2 + _ROOM,
}

_lib = _library()
for _name, _types in _CALLS.items():
    _call = getattr(_lib, f"fiorrudda_{_name}", None)
    if _call is None:
        raise ImportError(f"{_lib._name} is older than this module, and has no fiorrudda_{_name}: build it by bin/lib")
    _call.argtypes, _call.restype = _types, ctypes.c_uint32
_lib.fiorrudda_free.argtypes, _lib.fiorrudda_free.restype = _HELD, None


def _bytes(text: Text) -> bytes:
    """The bytes of a text. A number or a list has none, of which `bytes` would make zeros."""
    if isinstance(text, str):
        return text.encode()
    return text if isinstance(text, bytes) else bytes(memoryview(text))


def _lent(text: Text) -> Tuple[bytes, int]:
    """A text as a pointer and a length."""
    said = _bytes(text)
    return said, len(said)


def _kept(text: Text) -> Union[str, bytes]:
    """A text as it is kept to be shown and pickled."""
    return text if isinstance(text, str) else _bytes(text)


def _told(code: int) -> bool:
    """Whether it holds; or the error that the code stands for."""
    if code in (_OK, _NO):
        return code == _OK
    if code == NoRequest.code:
        raise NoRequest(0, 0)
    kind = _ERRORS.get(code, FiorruddaError)
    raise kind(" ".join((kind.__doc__ or f"code {code}").split()))


def _written(call: Callable[..., Any], *given: Any) -> Optional[bytes]:
    """The text that a call writes, if it writes one: in a room that mostly holds it, or in one of its length."""
    length, room = ctypes.c_size_t(0), ctypes.create_string_buffer(_TEXT_ROOM)
    code = call(*given, room, _TEXT_ROOM, length)
    if code == _TOO_SHORT:
        room = ctypes.create_string_buffer(length.value)
        code = call(*given, room, length.value, length)
    return ctypes.string_at(room, length.value) if _told(code) else None


def _flag(given: bool, name: str) -> bool:
    """A flag, which no word is, as `omit` for `credentials`: each would count as true."""
    if not isinstance(given, bool):
        raise TypeError(f"{name} is True or False, and not {given!r}")
    return given


def _includes(credentials: Union[bool, str]) -> bool:
    """Whether a credentials mode is include, where it is told by its word or by a bool."""
    if isinstance(credentials, bool):
        return credentials
    return _number_of(credentials, list(CREDENTIALS), "credentials mode") == list(CREDENTIALS).index("include")


def _number_of(word: Optional[str], words: Sequence[Optional[str]], kind: str) -> int:
    """The number of a word among those that may stand there."""
    if word not in words:
        raise ValueError(f"{word!r} is no {kind}: it is one of {', '.join(map(repr, words))}")
    return words.index(word)


def _known(found: Optional[Thing]) -> Thing:
    """What an act or an outcome of this kind always has."""
    assert found is not None
    return found


def _time(now: int) -> int:
    if not 0 <= now < 2**64:
        raise TooLate(f"{now} is not a time")
    return now


class _Thing:
    """What a handle of the library holds. It is used by one thread at a time."""

    def __init__(self, make: Callable[[_Handle], Any]) -> None:
        self._handle = _Handle()
        _told(make(self._handle))

    def __del__(self) -> None:
        if hasattr(self, "_handle"):
            _lib.fiorrudda_free(self._handle)

    def __reduce__(self) -> "Union[Made, NoReturn]":
        """A copy that shared the handle would free it twice: each kind that is copied says what it is made of again."""
        raise TypeError(f"a {type(self).__name__} is neither copied nor pickled")


def _pairs(given: "Listed") -> List[Tuple[Text, Text]]:
    """Pairs of a name and a value, out of a `Headers`, a mapping or pairs."""
    if isinstance(given, Headers):
        return list(given.pairs())
    listed: List[Tuple[Text, Text]] = list(given.items() if hasattr(given, "items") else given)
    for pair in listed:
        if not isinstance(pair, (tuple, list)) or len(pair) != 2:
            raise TypeError(f"{pair!r} is no pair of a name and a value")
    return listed


class Headers(_Thing):
    """A header list (Fetch, section 2.2.2), made of pairs of a name and a value, or of a mapping."""

    def __init__(self, pairs: "Listed" = ()) -> None:
        super().__init__(_lib.fiorrudda_headers)
        for name, value in _pairs(pairs):
            self.append(name, value)

    def __reduce__(self) -> Made:
        return Headers, (self.pairs(),)

    def __repr__(self) -> str:
        return f"Headers({self.pairs()!r})"

    def append(self, name: Text, value: Text) -> None:
        """ "append". `NotAHeader` where the name is no token, or the value no header value."""
        _told(_lib.fiorrudda_append(self._handle, *_lent(name), *_lent(value)))

    def get(self, name: Text) -> Optional[bytes]:
        """ "get": the values of a name, joined by a comma and a space, or None."""
        return _written(_lib.fiorrudda_get, self._handle, *_lent(name))

    def pairs(self) -> List[Tuple[bytes, bytes]]:
        """The headers in order, as pairs of a name and a value."""
        found: List[Tuple[bytes, bytes]] = []
        while (name := _written(_lib.fiorrudda_name_at, self._handle, len(found))) is not None:
            found.append((name, _known(_written(_lib.fiorrudda_value_at, self._handle, len(found)))))
        return found


Listed = Union[Headers, Mapping[Any, Any], Iterable[Tuple[Text, Text]]]


class Book(_Thing):
    """Known HSTS hosts, and the CORS-preflight cache. Times are in seconds since any fixed moment, which is 1970 for a
    book that lasts over restarts. Threads that share one hold one common lock around each call of it, and around
    `Fetch.ask`."""

    def __init__(self) -> None:
        super().__init__(_lib.fiorrudda_book)

    def __reduce__(self) -> Made:
        """Its text, under the lock of those who share it."""
        return Book.read, (self.export(),)

    @classmethod
    def read(cls, text: Text) -> "Book":
        """The book that `export` wrote. `NotABook` where the text is not the text of a book: nothing is read of it
        then."""
        book, line, reason = cls(), ctypes.c_uint64(0), ctypes.c_uint32(0)
        if not _told(_lib.fiorrudda_book_of_text(book._handle, *_lent(text), line, reason)):
            raise NotABook(line.value, reason.value)
        return book

    def export(self) -> bytes:
        """The book as a text, so that what it knows lasts over restarts: `read` reads it back as the same book. Its
        times are those that the calls were given."""
        return _written(_lib.fiorrudda_book_text, self._handle) or b""

    def note(self, host: Text, field: Text, now: int) -> bool:
        """Notes a Strict-Transport-Security field of a host, and says whether it counts (RFC 6797, section 8.1)."""
        return _told(_lib.fiorrudda_note_host(self._handle, *_lent(host), *_lent(field), _time(now)))

    def is_known(self, host: Text, now: int) -> bool:
        """Whether a host is known, so that its http URLs are asked by https (RFC 6797, section 8.2)."""
        return _told(_lib.fiorrudda_known_host(self._handle, *_lent(host), _time(now)))


def origin(url: Text) -> str:
    """The serialised origin of an http or https URL (HTML, section 7.1.1)."""
    return (_written(_lib.fiorrudda_origin, *_lent(url)) or b"").decode()


def same_origin(a: Text, b: Text) -> bool:
    """Whether two http or https URLs have the same origin (HTML, section 7.1.1)."""
    return _told(_lib.fiorrudda_same_origin(*_lent(a), *_lent(b)))


def same_site(a: Text, b: Text) -> bool:
    """Whether the origins of two URLs are schemelessly same site; the site of a domain is its last two labels."""
    return _told(_lib.fiorrudda_same_site(*_lent(a), *_lent(b)))


def is_trustworthy(url: Text) -> bool:
    """Whether a URL is potentially trustworthy (Secure Contexts, section 3.2)."""
    return _told(_lib.fiorrudda_trustworthy(*_lent(url)))


def is_bad_port(url: Text) -> bool:
    """Whether a URL has a bad port, to which nothing is sent (Fetch, section 2.9)."""
    return _told(_lib.fiorrudda_bad_port(*_lent(url)))


def is_safelisted(name: Text, value: Text) -> bool:
    """Whether a name and a value are a CORS-safelisted request-header (Fetch, section 2.2.2)."""
    return _told(_lib.fiorrudda_safelisted(*_lent(name), *_lent(value)))


def is_forbidden_method(method: Text) -> bool:
    """Whether a method is forbidden to scripts (Fetch, section 2.2.1)."""
    return _told(_lib.fiorrudda_forbidden_method(*_lent(method)))


def source_matches(word: Text, url: Text, page: Text, redirects: int = 0) -> bool:
    """Whether a word of a policy matches a URL (CSP 3, "does url match expression in origin with redirect count")."""
    return _told(_lib.fiorrudda_source_matches(*_lent(word), *_lent(url), *_lent(page),
                                               min(max(redirects, 0), 2**32 - 1)))


def referrer(source: Text, target: Text, policy: ReferrerPolicy = ReferrerPolicy.DEFAULT) -> Optional[str]:
    """The referrer that a policy tells `target` of the page `source`, or None (Referrer Policy, section 8.3)."""
    text = _written(_lib.fiorrudda_referrer, ReferrerPolicy(policy), *_lent(source), *_lent(target))
    return None if text is None else text.decode()


def matches_integrity(metadata: Text, body: Text) -> bool:
    """Whether a whole body matches an integrity text (Subresource Integrity, section 3.3)."""
    return _told(_lib.fiorrudda_integrity(*_lent(metadata), *_lent(body)))


def parse_sts(field: Text) -> Optional[Sts]:
    """What a Strict-Transport-Security field says, or None where it is to be ignored (RFC 6797, section 6.1)."""
    age, subdomains = ctypes.c_uint64(0), ctypes.c_uint32(0)
    if not _told(_lib.fiorrudda_sts(*_lent(field), age, subdomains)):
        return None
    return Sts(age.value, bool(subdomains.value))


def play(scenario: Union[Text, Mapping[str, Any]]) -> str:
    """Plays a scenario over its own servers, from its own time on, and gives the text that `fetchplay play` prints. Its
    documents play one after another, over one book. The scenario is JSON, or the object that is written as such.
    `NotAScenario` where it is refused."""
    return _played(_lib.fiorrudda_play, scenario)


def reports(scenario: Union[Text, Mapping[str, Any]]) -> str:
    """Plays a scenario of at most 16 documents, likewise, with the reports of its documents' violations, and gives the
    text that `cspreport play` prints. `NotAScenario` where it is refused."""
    return _played(_lib.fiorrudda_reports, scenario)


def _played(call: Any, scenario: Union[Text, Mapping[str, Any]]) -> str:
    said = _lent(json.dumps(dict(scenario)) if isinstance(scenario, Mapping) else scenario)
    length, size = ctypes.c_size_t(0), _PLAY_ROOM
    while True:
        room = ctypes.create_string_buffer(size)
        code = call(*said, room, size, length)
        if code != _TOO_SHORT:
            break
        size = length.value
    is_played = _told(code)
    text = room.raw[:length.value].decode("latin-1")
    if not is_played:
        raise NotAScenario(text)
    return text


def audit(scenario: Union[Text, Mapping[str, Any]], play: Text) -> Optional[str]:
    """Audits a text that claims to be the printed play of a scenario over its own servers. None where it is one; else
    what keeps it from being one, as `playaudit` prints it: `Text 120`, `Calls 0`, .."""
    said = _lent(json.dumps(dict(scenario)) if isinstance(scenario, Mapping) else scenario)
    length, size = ctypes.c_size_t(0), 256
    while True:
        room = ctypes.create_string_buffer(size)
        code = _lib.fiorrudda_audit(*said, *_lent(play), room, size, length)
        if code != _TOO_SHORT:
            break
        size = length.value
    if _told(code):
        return None
    return room.raw[:length.value].decode("latin-1").removeprefix("not a play: ").rstrip("\n")
