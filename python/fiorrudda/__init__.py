"""The rules of a browser's fetch, one call each, whole fetches (`fiorrudda.whole`), and whole plays of scenarios
(`play`, `reports`), over the C library of Fiorrudda.

Texts are `str`, which is encoded as UTF-8, or `bytes` or another buffer. A rule that cannot answer raises a
`FiorruddaError`: the class says what was wrong with what was given. A `Headers`, `Book`, `Client`, `Request`, `Load`,
`Policies` or `Fetch` is used by one thread at a time; others may be used meanwhile, since the interpreter's lock is let
go in each call. All but a `Fetch` are copied and pickled as what they hold; no exception loses what it tells.

The library is that of FIORRUDDA_LIBRARY, or libfiorrudda.so beside this file or where bin/lib has left it, in out/lib,
or the system's libfiorrudda.so.1. """
from .version import __version__ as __version__

TYPE_CHECKING = False  # as type checkers take it for true, without the time that `typing` takes

if TYPE_CHECKING:
    from .engine import (
        Book, FiorruddaError, Headers, NoRequest, NoSuchNumber, NotABook, NotAHeader, NotAHost, NotAScenario,
        NotAUrl, NotAwaited, NotHttp, OutOfMemory, ReferrerPolicy, Sts, TooLate, WrongHandle, audit, is_bad_port,
        is_forbidden_method, is_safelisted, is_trustworthy, matches_integrity, origin, parse_sts, play, referrer,
        reports, same_origin, same_site, source_matches,
    )
    from .whole import (
        Ask, Client, Fetch, Load, Loaded, NetworkError, Policies, ReadBody, ReadHead, Request, Response, Send,
        Tell,
    )
    from .checks import (
        Seen, Verdict, Violation, essence, exposed_names, is_forbidden_header, is_mixed_blocked,
        is_mixed_upgraded, is_nosniff_blocked, is_type_blocked, keeps_from, passes_cors_check, preflight,
        preflight_verdict, says_nosniff, seen, unsafe_names, upgrades, violations, violations_many,
    )
    from .judged import Answered, Judged, Preflight, Sends, judge, judge_answer, judge_many

__all__ = [
    "Answered",
    "Ask",
    "Book",
    "Client",
    "Fetch",
    "FiorruddaError",
    "Headers",
    "Judged",
    "Load",
    "Loaded",
    "NetworkError",
    "NoRequest",
    "NoSuchNumber",
    "NotABook",
    "NotAHeader",
    "NotAHost",
    "NotAScenario",
    "NotAUrl",
    "NotAwaited",
    "NotHttp",
    "OutOfMemory",
    "Policies",
    "Preflight",
    "ReadBody",
    "ReadHead",
    "ReferrerPolicy",
    "Request",
    "Response",
    "Seen",
    "Send",
    "Sends",
    "Sts",
    "Tell",
    "TooLate",
    "Verdict",
    "Violation",
    "WrongHandle",
    "audit",
    "essence",
    "exposed_names",
    "is_bad_port",
    "is_forbidden_header",
    "is_forbidden_method",
    "is_mixed_blocked",
    "is_mixed_upgraded",
    "is_nosniff_blocked",
    "is_safelisted",
    "is_trustworthy",
    "is_type_blocked",
    "judge",
    "judge_answer",
    "judge_many",
    "keeps_from",
    "matches_integrity",
    "origin",
    "parse_sts",
    "passes_cors_check",
    "play",
    "preflight",
    "preflight_verdict",
    "referrer",
    "reports",
    "same_origin",
    "same_site",
    "says_nosniff",
    "seen",
    "source_matches",
    "unsafe_names",
    "upgrades",
    "violations",
    "violations_many",
]


def __getattr__(name: str) -> object:
    """What is above, from the module that has it. The library is loaded at the first: most commands do without it."""
    if name not in __all__:
        raise AttributeError(f"module {__name__!r} has no attribute {name!r}")
    from . import checks, engine, judged, whole
    for module in (engine, whole, checks, judged):
        if hasattr(module, name):
            globals()[name] = found = getattr(module, name)
            return found
    raise AttributeError(name)
