"""A whole fetch that touches nothing: `Client`, `Request` or `Load`, and `Fetch`, an iterator of acts.

    book = Book()
    client, request = Client("https://app.example/"), Request("https://api.example/", credentials="include")
    fetch = Fetch(client, request, now=int(time.time()))
    violations = fetch.judge(book)
    for act in fetch:
        if isinstance(act, Send):
            connection = connect(act.origin)
            connection.sendall(act.request)
            fetch.sent()
        else:
            ... fetch.feed(bytes), and fetch.ended() where no more come
        violations += fetch.judge(book)
    print(fetch.outcome)

Who leaves `judge` out answers the acts `Ask` and `Tell` too, by `Fetch.ask` and `Fetch.told`.
"""
import ctypes
from typing import (
    TYPE_CHECKING, Any, Callable, Dict, Iterable, Iterator, List, NamedTuple, Optional, Tuple, Type, Union,
)

from .engine import (
    Book, Buffer, Headers, Listed, Made, NoRequest, ReferrerPolicy, Text, _bytes, _flag, _Handle, _kept, _known, _lent,
    _lib, _number_of, _pairs, _Thing, _time, _told, _written,
)
from .names import CREDENTIALS, CROSSORIGINS, LOADS, MODES, REDIRECTS

if TYPE_CHECKING:
    from .checks import Violation


def _by_number(table: Dict[str, int]) -> List[str]:
    """The words of a table in the order of their numbers, which stand one after the other."""
    return sorted(table, key=table.__getitem__)


_MODES = _by_number(MODES)
_CREDENTIALS = _by_number(CREDENTIALS)
_REDIRECTS = _by_number(REDIRECTS)
_CROSSORIGINS = [None, *_by_number(CROSSORIGINS)]
_KINDS = _by_number(LOADS)
_BOOK_CALLS = ["match", "note", "covers", "learn", "clear"]
_ENDS = ["null", "whole", "cut", "fault", "toobig"]
_A_RESPONSE, _A_LOAD, _AN_ERROR = range(3)
_MODE, _CREDENTIAL, _REDIRECT, _REFERRER, _REFERRER_POLICY, _UPLOAD, _CROSSORIGIN, _PARSER = range(8)
_BODY, _INTEGRITY, _NONCE = range(3)
_OVER, _ASK, _SEND, _READ_HEAD, _READ_BODY, _TELL, _GONE = range(7)
_SENT, _TOLD, _ENDED, _FAILED, _YES, _DID_NOT, _DONE = range(7)
(_ORIGIN, _URL, _METHOD, _TEXT_BODY, _NAME_OF, _VALUE_OF, _HOST, _KEY, _NAME, _LEARNT, _WORD, _REFUSED) = range(12)
(_CALL, _TIME, _AGE, _SUBDOMAINS, _INCLUDE, _PREFLIGHT, _POLICY, _ENFORCED, _OUTCOME, _STATUS, _ERROR, _END,
 _COUNT) = range(13)

Pairs = List[Tuple[bytes, bytes]]


class Call(NamedTuple):
    """A call of the book: `match`, `note`, `covers`, `learn` or `clear`, at a time, with what is of that kind."""

    name: str
    time: int
    host: Optional[str] = None
    age: Optional[int] = None
    include_subdomains: Optional[bool] = None
    key: Optional[str] = None
    origin: Optional[str] = None
    url: Optional[str] = None
    include: Optional[bool] = None
    method: Optional[str] = None
    names: Tuple[str, ...] = ()
    methods: Tuple[str, ...] = ()


class Ask(NamedTuple):
    """The book is to be asked or told: `Fetch.ask`, or `Fetch.reply` with what another book says."""

    call: Call


class Send(NamedTuple):
    """A request is to be sent to the server of an origin: `Fetch.sent`, or `Fetch.failed`."""

    origin: str
    request: bytes
    preflight: bool
    method: str
    url: str
    headers: Pairs
    body: Optional[bytes]


class ReadHead(NamedTuple):
    """The head of the answer is to be read: `Fetch.feed`, `Fetch.ended` or `Fetch.failed`."""


class ReadBody(NamedTuple):
    """The body is to be read, in the same way: first what was left of the last piece, be there some or none."""


class Tell(NamedTuple):
    """The document is to be told of a violation of its policies: `Fetch.told`."""

    policy: int
    enforced: bool
    directive: str
    url: str


class Response(NamedTuple):
    """A response as a script sees it. `end` is `null`, `whole`, `cut`, `fault` or `toobig`; `count` the body's
    bytes."""

    kind: str
    status: int
    url: Optional[str]
    headers: Pairs
    end: str
    count: Optional[int]  # type: ignore[assignment]  # a tuple has a method of that name
    body: Optional[bytes]


class Loaded(NamedTuple):
    """A load that succeeded."""


class NetworkError(NamedTuple):
    """A network error, by its number and name; `header` is the one that a preflight did not allow."""

    number: int
    name: str
    header: Optional[str]


Act = Union[Ask, Send, ReadHead, ReadBody, Tell]
Outcome = Union[Response, Loaded, NetworkError]


class Policies:
    """The content security policies of a document: the values of their headers, in order, and whether each is enforced
    or only reports (CSP 3, section 2.2)."""

    NAMES = {"content-security-policy": True, "content-security-policy-report-only": False}

    def __init__(self, enforced: Iterable[Text] = (), report_only: Iterable[Text] = ()) -> None:
        for given in (enforced, report_only):
            if isinstance(given, (str, bytes)):
                raise TypeError("policies are a list of header values, not one text")
        self.values: List[Tuple[Text, bool]] = [
            *((value, True) for value in enforced), *((value, False) for value in report_only)]
        self._compiled: Optional[Tuple[Tuple[Tuple[Text, bool], ...], _Thing]] = None

    def __getstate__(self) -> Dict[str, Any]:
        return {"values": [(_kept(value), enforced) for value, enforced in self.values], "_compiled": None}

    def __repr__(self) -> str:
        enforced, report_only = ([value for value, own in self.values if own is kind] for kind in (True, False))
        return f"Policies({enforced!r}{f', {report_only!r}' if report_only else ''})"

    @classmethod
    def of_headers(cls, headers: Listed) -> "Policies":
        """Those among an answer's headers, in a `Headers`, a mapping or pairs: the enforced ones first, in which order
        the violations number them."""
        named = [(name if isinstance(name, str) else _bytes(name).decode("latin-1"), value)
                 for name, value in _pairs(headers)]
        given = [(value, cls.NAMES[name.lower()]) for name, value in named if name.lower() in cls.NAMES]
        found = cls()
        found.values = sorted(given, key=lambda one: not one[1])
        return found

    def compiled(self) -> _Thing:
        """The policies, parsed and read once, the enforced ones first. `NotAHeader` where a value is none."""
        if self._compiled is None or self._compiled[0] != tuple(self.values):
            names = {enforced: name for name, enforced in self.NAMES.items()}
            given = Headers((names[enforced], value) for value, enforced in self.values)
            made = _Thing(lambda handle: _lib.fiorrudda_policies(handle, given._handle))
            self._compiled = (tuple(self.values), made)
        return self._compiled[1]

    def violations(self, client: "Client", request: "Union[Request, Load]", of: str = "enforced",
                   redirect: Text = "") -> "List[Violation]":
        """The violations by a request, or by its response: `fiorrudda.violations`."""
        from .checks import violations
        return violations(self, client, request, of, redirect)


class Client(_Thing):
    """A document that fetches: its URL, that of the page at the top, its referrer policy, its policies (`Policies`, or
    the values of headers that are enforced), and of URLs' origins the value of the Cookie header, as pairs or a
    mapping."""

    def __init__(self, url: Text, top: Optional[Text] = None, policy: ReferrerPolicy = ReferrerPolicy.DEFAULT,
                 policies: Union[Policies, Iterable[Text]] = (), cookies: Listed = ()) -> None:
        given = (*_lent(url), *_lent(url if top is None else top), ReferrerPolicy(policy))
        super().__init__(lambda handle: _lib.fiorrudda_client(handle, *given))
        self._page = (_kept(url), None if top is None else _kept(top), ReferrerPolicy(policy))
        self._policies, self._cookies = Policies(), []  # type: Policies, List[Tuple[Text, Text]]
        for value, enforced in (policies if isinstance(policies, Policies) else Policies(policies)).values:
            self.add_policy(value, enforced)
        for origin, value in _pairs(cookies):
            self.add_cookie(origin, value)

    def __reduce__(self) -> Made:
        return Client, (*self._page, self._policies, list(self._cookies))

    def __repr__(self) -> str:
        """Without cookies, which a log need not have."""
        url, top, policy = self._page
        said = [repr(url)] + [f"top={top!r}"] * (top is not None) + [f"policy={policy!s}"] * bool(policy)
        return f"Client({', '.join(said + [f'policies={self._policies!r}'] * bool(self._policies.values))})"

    def add_policy(self, value: Text, enforced: bool = True) -> None:
        """Adds the policies of a header's value (CSP 3, section 2.2), numbered on from those that were given before."""
        _told(_lib.fiorrudda_client_policy(self._handle, *_lent(value), _flag(enforced, "enforced")))
        self._policies.values.append((_kept(value), enforced))

    def add_cookie(self, url: Text, value: Text) -> None:
        """Adds the value of the Cookie header for the origin of a URL."""
        _told(_lib.fiorrudda_client_cookie(self._handle, *_lent(url), *_lent(value)))
        self._cookies.append((_kept(url), _kept(value)))


def _asked_again(kind: "Type[Union[Request, Load]]", words: Tuple[Any, Any],
                 options: Dict[str, Any]) -> "Union[Request, Load]":
    return kind(*words, **options)


class _Asked(_Thing):
    """What is asked for. Where an option is that of the library at first, no call is made of it."""

    _words: Tuple[Text, Text]
    _options: Dict[str, Any]

    def __reduce__(self) -> Made:
        return _asked_again, (type(self), self._words, self._options)

    def __repr__(self) -> str:
        """Without headers and body, which a log need not have."""
        shown = {name: value for name, value in self._options.items() if name not in ("headers", "body")}
        options = [f"{name}={value!r}" for name, value in shown.items()]
        return f"{type(self).__name__}({', '.join([*map(repr, self._words), *options])})"

    def _choose(self, choice: int, number: int, name: str, given: Any) -> None:
        _told(_lib.fiorrudda_request_choose(self._handle, choice, number))
        self._options[name] = given

    def _write(self, which: int, text: Text, name: str) -> None:
        _told(_lib.fiorrudda_request_text(self._handle, which, *_lent(text)))
        self._options[name] = _kept(text)


class Request(_Asked):
    """What a script asks of `fetch` (Fetch, sections 5.4 and 5.6)."""

    def __init__(self, url: Text, method: Text = "GET", *, mode: str = "cors", credentials: str = "same-origin",
                 redirect: str = "follow", headers: Listed = (), body: Optional[Text] = None,
                 referrer: bool = True, referrer_policy: ReferrerPolicy = ReferrerPolicy.DEFAULT, integrity: Text = "",
                 upload: bool = False) -> None:
        given = (*_lent(method), *_lent(url))
        super().__init__(lambda handle: _lib.fiorrudda_request(handle, *given))
        self._words, self._options = (_kept(url), _kept(method)), {}
        if mode != "cors":
            self._choose(_MODE, _number_of(mode, _MODES, "mode"), "mode", mode)
        if credentials != "same-origin":
            self._choose(_CREDENTIAL, _number_of(credentials, _CREDENTIALS, "credentials mode"), "credentials",
                         credentials)
        if redirect != "follow":
            self._choose(_REDIRECT, _number_of(redirect, _REDIRECTS, "redirect mode"), "redirect", redirect)
        if not _flag(referrer, "referrer"):
            self._choose(_REFERRER, 0, "referrer", False)
        if referrer_policy != ReferrerPolicy.DEFAULT:
            self._choose(_REFERRER_POLICY, ReferrerPolicy(referrer_policy), "referrer_policy", referrer_policy)
        if _flag(upload, "upload"):
            self._choose(_UPLOAD, 1, "upload", True)
        if headers:
            self._send_headers(_pairs(headers))
        if body is not None:
            self._write(_BODY, body, "body")
        if integrity:
            self._write(_INTEGRITY, integrity, "integrity")

    def _send_headers(self, pairs: List[Tuple[Text, Text]]) -> None:
        for name, value in pairs:
            _told(_lib.fiorrudda_request_header(self._handle, *_lent(name), *_lent(value)))
        self._options["headers"] = [(_kept(name), _kept(value)) for name, value in pairs]


class Load(_Asked):
    """What an element asks for that loads a resource (HTML, section 2.5.1, "create a potential-CORS request")."""

    def __init__(self, kind: str, url: Text, *, crossorigin: Optional[str] = None, nonce: Text = "",
                 integrity: Text = "", parser: bool = False,
                 referrer_policy: ReferrerPolicy = ReferrerPolicy.DEFAULT) -> None:
        number, given = _number_of(kind, _KINDS, "kind of a load") + 1, _lent(url)
        super().__init__(lambda handle: _lib.fiorrudda_load(handle, number, *given))
        self._words, self._options = (kind, _kept(url)), {}
        if crossorigin is not None:
            self._choose(_CROSSORIGIN, _number_of(crossorigin, _CROSSORIGINS, "crossorigin attribute"), "crossorigin",
                         crossorigin)
        if _flag(parser, "parser"):
            self._choose(_PARSER, 1, "parser", True)
        if referrer_policy != ReferrerPolicy.DEFAULT:
            self._choose(_REFERRER_POLICY, ReferrerPolicy(referrer_policy), "referrer_policy", referrer_policy)
        if nonce:
            self._write(_NONCE, nonce, "nonce")
        if integrity:
            self._write(_INTEGRITY, integrity, "integrity")


class Fetch(_Thing):
    """A whole fetch, an iterator of the acts that are to be done. Each is answered before the next is asked for: one
    that was not answered comes again. `now` is in seconds, and `limit` is how many bytes a body may have. All fetches
    that ask one book count from one moment.

    `NoRequest` where no request can be made of what is asked for."""

    def __init__(self, client: Client, request: Union[Request, Load], now: int = 0, limit: int = 2**20) -> None:
        fault, header = ctypes.c_uint32(0), ctypes.c_uint32(0)

        def make(handle: _Handle) -> int:
            if not 0 <= limit < 2**32:
                raise ValueError(f"{limit} is no number of bytes below 2^32")
            code = _lib.fiorrudda_fetch(handle, client._handle, request._handle, _time(now), limit, fault, header)
            if code == NoRequest.code:
                raise NoRequest(fault.value, header.value)
            return int(code)

        super().__init__(make)
        self._asks = repr(request)

    def __repr__(self) -> str:
        return f"<Fetch of {self._asks}>"

    def __iter__(self) -> Iterator[Act]:
        return self

    def __next__(self) -> Act:
        act = self._act()
        if act in (_OVER, _GONE):
            raise StopIteration
        made: Dict[int, Callable[[], Act]] = {_ASK: self._asked, _SEND: self._sends, _READ_HEAD: ReadHead,
                                              _READ_BODY: ReadBody, _TELL: self._tells}
        return made[act]()

    def judge(self, book: Book) -> "List[Violation]":
        """Goes on without the network: asks a book, and tells the document of violations, until something is to be sent
        or read, or the fetch is over. It gives the violations on the way, report-only ones too. Threads that share the
        book hold one common lock around each call of the book."""
        from .checks import _Found
        return _Found().of_fetch(self._handle, book._handle)[1]

    # ---- what came of an act

    def ask(self, book: Book) -> Optional[bool]:
        """Asks a book what the act asks; its reply is a bool, or None where it was told something. Threads that share
        the book hold one common lock around each call of the book."""
        reply = ctypes.c_uint32(0)
        _told(_lib.fiorrudda_ask(self._handle, book._handle, reply))
        return {_YES: True, _DID_NOT: False}.get(reply.value)

    def reply(self, reply: Optional[bool] = None) -> None:
        """What a book of the caller's own replied: a bool to a question, and else None."""
        self._input(_DONE if reply is None else _YES if reply else _DID_NOT)

    def sent(self) -> None:
        """The request was sent."""
        self._input(_SENT)

    def told(self) -> None:
        """The document was told."""
        self._input(_TOLD)

    def ended(self) -> None:
        """The answer ended: no more bytes come."""
        self._input(_ENDED)

    def failed(self) -> None:
        """The connection failed."""
        self._input(_FAILED)

    def feed(self, piece: Buffer) -> int:
        """The next bytes of the answer came, in any buffer: how many of them were read. Those behind a head are fed
        again."""
        if isinstance(piece, str):
            raise TypeError("an answer comes in bytes, not in text")
        used = ctypes.c_size_t(0)
        _told(_lib.fiorrudda_feed(self._handle, *_lent(piece), used))
        return used.value

    # ---- what it came to

    @property
    def outcome(self) -> Optional[Outcome]:
        """What the fetch came to, once it is over."""
        if self._act() != _OVER:
            return None
        what = self._number(_OUTCOME)
        if what == _A_RESPONSE:
            return self._response()
        return Loaded() if what == _A_LOAD else NetworkError(
            _known(self._number(_ERROR)), _known(self._word(_WORD)), self._word(_REFUSED))

    def _response(self) -> Response:
        end = _ENDS[_known(self._number(_END))]
        return Response(_known(self._word(_WORD)), _known(self._number(_STATUS)), self._word(_URL), self._headers(),
                        end, self._number(_COUNT), self._text(_TEXT_BODY))

    def _act(self) -> int:
        act = ctypes.c_uint32(0)
        _told(_lib.fiorrudda_act(self._handle, act))
        return act.value

    def _input(self, number: int) -> None:
        _told(_lib.fiorrudda_input(self._handle, number))

    def _number(self, which: int) -> Optional[int]:
        number = ctypes.c_uint64(0)
        return number.value if _told(_lib.fiorrudda_number(self._handle, which, number)) else None

    def _text(self, which: int, at: int = 0) -> Optional[bytes]:
        return _written(_lib.fiorrudda_text, self._handle, which, at)

    def _word(self, which: int) -> Optional[str]:
        text = self._text(which)
        return None if text is None else text.decode("latin-1")

    def _texts(self, which: int) -> Tuple[bytes, ...]:
        found: List[bytes] = []
        while (text := self._text(which, len(found))) is not None:
            found.append(text)
        return tuple(found)

    def _words(self, which: int) -> Tuple[str, ...]:
        return tuple(text.decode("latin-1") for text in self._texts(which))

    def _headers(self) -> Pairs:
        return list(zip(self._texts(_NAME_OF), self._texts(_VALUE_OF)))

    def _flag(self, which: int) -> Optional[bool]:
        number = self._number(which)
        return None if number is None else bool(number)

    def _asked(self) -> Ask:
        name = _BOOK_CALLS[_known(self._number(_CALL))]
        return Ask(Call(name, _known(self._number(_TIME)), self._word(_HOST), self._number(_AGE),
                        self._flag(_SUBDOMAINS), self._word(_KEY), self._word(_ORIGIN), self._word(_URL),
                        self._flag(_INCLUDE), self._word(_METHOD), self._words(_NAME), self._words(_LEARNT)))

    def _sends(self) -> Send:
        request = _written(_lib.fiorrudda_to_send, self._handle)
        return Send(_known(self._word(_ORIGIN)), _known(request), _known(self._flag(_PREFLIGHT)),
                    _known(self._word(_METHOD)), _known(self._word(_URL)), self._headers(), self._text(_TEXT_BODY))

    def _tells(self) -> Tell:
        return Tell(_known(self._number(_POLICY)), _known(self._flag(_ENFORCED)), _known(self._word(_WORD)),
                    _known(self._word(_URL)))
