"""Rules on a request that a client makes: policies, mixed content, preflights, and what a page sees of an answer.

    page = Client("https://app.example/")
    script = Load("script", "http://cdn.example/s.js")
    is_mixed_blocked(page, script)                                  # True: http, from a page of https
    Policies(["script-src 'self'"]).violations(page, script)        # what the policy says to it
    preflight(page, Request("https://api.example/", "PUT"))         # the bytes that ask the server first

A list of headers is a `Headers`, a mapping, or pairs of a name and a value. `NoRequest` where no request can be made of
what is asked for: `Fetch` says why.
"""
import ctypes
from typing import Any, Callable, Iterable, List, NamedTuple, Optional, Tuple, Union

from .engine import (
    FiorruddaError, Headers, Listed, Text, _Handle, _includes, _lent, _lib, _number_of, _Thing, _told, _written,
)
from .names import NETWORK_ERRORS
from .whole import _ASK, _TELL, Client, Load, Policies, Request

__all__ = [
    "Seen", "Verdict", "Violation", "essence", "exposed_names", "is_forbidden_header", "is_mixed_blocked",
    "is_mixed_upgraded", "is_nosniff_blocked", "is_type_blocked", "keeps_from", "passes_cors_check", "preflight",
    "preflight_verdict", "says_nosniff", "seen", "unsafe_names", "upgrades", "violations", "violations_many",
]

Asked = Union[Request, Load]
_URL_ROOM = 8192  # bytes that hold the URL of most violations
_CHECKS = ["enforced", "report-only", "response"]
_TAINTINGS = ["basic", "cors", "opaque"]
_ERRORS = {number: name for name, number in NETWORK_ERRORS.items()}


class Violation(NamedTuple):
    """A violation: the policy's number, the enforced ones first; whether it is enforced; the effective directive; the
    URL that is reported."""

    policy: int
    enforced: bool
    directive: str
    url: str


class Verdict(NamedTuple):
    """The verdict on a preflight's answer: for how many seconds it is learnt, or the number and name of the network
    error, and the header that is not allowed."""

    age: Optional[int]
    error: Optional[int] = None
    name: Optional[str] = None
    header: Optional[str] = None

    @property
    def passes(self) -> bool:
        """Whether the request may be sent."""
        return self.error is None


class Seen(NamedTuple):
    """What a page sees of an answer: its status and its headers."""

    status: int
    headers: Headers


def _list(headers: Listed) -> Headers:
    return headers if isinstance(headers, Headers) else Headers(headers)


def _each(call: Callable[..., Any], *given: Any) -> Tuple[bytes, ...]:
    """The texts that a call writes by their index, until there is none."""
    found: List[bytes] = []
    while (text := _written(call, *given, len(found))) is not None:
        found.append(text)
    return tuple(found)


def passes_cors_check(origin: Text, headers: Listed, credentials: Union[bool, str] = False) -> bool:
    """ "CORS check" (Fetch, section 4.10) of an answer's list, for a serialised origin; `credentials` is the mode, or
    whether that is include."""
    answer = _list(headers)
    return _told(_lib.fiorrudda_cors_check(*_lent(origin), _includes(credentials), answer._handle))


def keeps_from(page: Text, url: Text, headers: Listed) -> bool:
    """Whether the answer of a URL is kept from a page in mode no-cors (Fetch, section 3.7, "cross-origin resource
    policy check")."""
    answer = _list(headers)
    return _told(_lib.fiorrudda_resource_policy(*_lent(page), *_lent(url), answer._handle))


def says_nosniff(headers: Listed) -> bool:
    """ "determine nosniff" of an answer's list (Fetch, section 3.6)."""
    answer = _list(headers)
    return _told(_lib.fiorrudda_nosniff(answer._handle))


def essence(headers: Listed) -> Optional[str]:
    """The essence of the MIME type of a list, in lower case, or None (Fetch, section 3.5, "extract a MIME type")."""
    answer = _list(headers)
    text = _written(_lib.fiorrudda_essence, answer._handle)
    return None if text is None else text.decode()


def unsafe_names(headers: Listed) -> Tuple[str, ...]:
    """The CORS-unsafe request-header names of a list, in lower case and in order (Fetch, section 2.2.2)."""
    asked = _list(headers)
    return tuple(name.decode("latin-1") for name in _each(_lib.fiorrudda_unsafe_name, asked._handle))


def exposed_names(headers: Listed, credentials: Union[bool, str] = False) -> Tuple[str, ...]:
    """The names that an answer's list exposes; `credentials` is the mode, or whether that is include (Fetch, section
    2.2.6)."""
    answer = _list(headers)
    found = _each(_lib.fiorrudda_exposed_name, answer._handle, _includes(credentials))
    return tuple(name.decode("latin-1") for name in found)


def is_forbidden_header(name: Text, value: Text) -> bool:
    """Whether a name and a value are a forbidden request-header, which no script can set (Fetch, section 2.2.2)."""
    return _told(_lib.fiorrudda_forbidden_header(*_lent(name), *_lent(value)))


def is_mixed_upgraded(client: Client, request: Asked, redirect: Text = "") -> bool:
    """Whether a request, redirected to a URL if one is given, is upgraded as mixed content (section 4.1 there)."""
    return _told(_lib.fiorrudda_mixed_upgraded(client._handle, request._handle, *_lent(redirect)))


def is_mixed_blocked(client: Client, request: Asked, redirect: Text = "") -> bool:
    """Whether a request, redirected to a URL if one is given, is blocked as mixed content (section 4.4 there)."""
    return _told(_lib.fiorrudda_mixed_blocked(client._handle, request._handle, *_lent(redirect)))


def upgrades(policies: Policies) -> bool:
    """Whether an enforced policy has `upgrade-insecure-requests`."""
    return _told(_lib.fiorrudda_upgrades(policies.compiled()._handle))


def violations(policies: Policies, client: Client, request: Asked, of: str = "enforced",
               redirect: Text = "") -> List[Violation]:
    """The violations of the `enforced` or the `report-only` policies by a request, or of all by its `response`,
    redirected to a URL if one is given (CSP 3, section 4.1)."""
    return _Checking(of).violations(policies, client, request, redirect)


def violations_many(triples: Iterable[Tuple[Policies, Client, Asked]],
                    of: str = "enforced") -> List[Union[List[Violation], FiorruddaError]]:
    """`violations` of each of many triples of policies, a client and a request, in order. Where one has no answer, the
    error stands in its place, which counts as true, as violations do."""
    checking = _Checking(of)
    return [checking.answer(*triple) for triple in triples]


class _Found(_Thing):
    """The violations that a call finds, and the room that they are read into."""

    def __init__(self) -> None:
        self._room, self._length = ctypes.create_string_buffer(_URL_ROOM), ctypes.c_size_t(0)
        self._policy, self._enforced, self._act = ctypes.c_uint32(0), ctypes.c_uint32(0), ctypes.c_uint32(0)
        super().__init__(lambda handle: 0)

    def listed(self) -> List[Violation]:
        told: List[Violation] = []
        while _told(_lib.fiorrudda_violation(self._handle, len(told), self._policy, self._enforced)):
            directive = self._text(_lib.fiorrudda_violation_directive, len(told)).decode()
            url = self._text(_lib.fiorrudda_violation_url, len(told)).decode("latin-1")
            told.append(Violation(self._policy.value, bool(self._enforced.value), directive, url))
        return told

    def of_fetch(self, fetch: _Handle, book: _Handle) -> Tuple[int, List[Violation]]:
        """Has a fetch go on as far as it comes without the network: its act then, and the violations on the way."""
        told: List[Violation] = []
        while True:
            _told(_lib.fiorrudda_judge(fetch, book, self._handle, self._act))
            told += self.listed()
            if self._act.value not in (_ASK, _TELL):  # at which a call ends that went on for long
                return self._act.value, told

    def _text(self, call: Callable[..., int], at: int) -> bytes:
        if call(self._handle, at, self._room, _URL_ROOM, self._length) == 0:
            return ctypes.string_at(self._room, self._length.value)
        return _written(call, self._handle, at) or b""


class _Checking(_Found):
    """Checks of one kind, one after another."""

    def __init__(self, of: str) -> None:
        self._kind = _number_of(of, _CHECKS, "check")
        super().__init__()

    def answer(self, policies: Policies, client: Client, request: Asked) -> Union[List[Violation], FiorruddaError]:
        try:
            return self.violations(policies, client, request)
        except FiorruddaError as error:
            return error

    def violations(self, policies: Policies, client: Client, request: Asked, redirect: Text = "") -> List[Violation]:
        given = policies.compiled()._handle, client._handle, request._handle
        if _told(_lib.fiorrudda_check(self._handle, *given, *_lent(redirect), self._kind)):
            return []
        return self.listed()


def preflight(client: Client, request: Asked) -> Optional[bytes]:
    """All bytes of the CORS-preflight request, or None where its mode, method and headers ask for none (Fetch,
    section 4.8)."""
    return _written(_lib.fiorrudda_preflight, client._handle, request._handle)


def _status(status: int) -> int:
    if not 0 <= status < 2**16:
        raise ValueError(f"{status} is no status")
    return status


def preflight_verdict(client: Client, request: Asked, status: int, headers: Listed) -> Verdict:
    """The verdict on an answer to the preflight of a request (Fetch, section 4.8, steps 7 and 8)."""
    error, age, answer = ctypes.c_uint32(0), ctypes.c_uint64(0), _list(headers)
    given = client._handle, request._handle, answer._handle, _status(status)
    if _told(_lib.fiorrudda_verdict(*given, error, age)):
        return Verdict(age.value)
    header = _written(_lib.fiorrudda_refused_name, *given)
    return Verdict(None, error.value, _ERRORS[error.value], None if header is None else header.decode("latin-1"))


def seen(client: Client, request: Asked, status: int, headers: Listed, tainting: str = "cors") -> Seen:
    """What a page sees of an answer: the `basic`, `cors` or `opaque` filtered response (Fetch, section 2.2.6). A
    redirect in redirect mode `manual` gives an opaque-redirect one: status 0, and no headers."""
    shown, status_seen, answer = Headers(), ctypes.c_uint32(0), _list(headers)
    _told(_lib.fiorrudda_filtered(shown._handle, client._handle, request._handle, answer._handle, _status(status),
                                  _number_of(tainting, _TAINTINGS, "tainting"), status_seen))
    return Seen(status_seen.value, shown)


def is_type_blocked(request: Asked, headers: Listed) -> bool:
    """Whether an answer to a request is blocked for its MIME type (Fetch, section 2.10)."""
    answer = _list(headers)
    return _told(_lib.fiorrudda_type_blocked(request._handle, answer._handle))


def is_nosniff_blocked(request: Asked, headers: Listed) -> bool:
    """Whether an answer to a request is blocked since it says nosniff (Fetch, section 3.6.1)."""
    answer = _list(headers)
    return _told(_lib.fiorrudda_nosniff_blocked(request._handle, answer._handle))
