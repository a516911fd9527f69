"""Lints of CORS headers, and of Cross-Origin-Resource-Policy."""
from __future__ import annotations

import functools
import re
from typing import TYPE_CHECKING

from fiorrudda.commands.lints.entry import ANSWER, COMMAND, DOCUMENT, Lint, nearest

if TYPE_CHECKING:
    from fiorrudda.commands.lints.reading import Field
    from fiorrudda.commands.shapes import Found

ORIGIN, CREDENTIALS = "Access-Control-Allow-Origin", "Access-Control-Allow-Credentials"
METHODS, HEADERS = "Access-Control-Allow-Methods", "Access-Control-Allow-Headers"
EXPOSED = "Access-Control-Expose-Headers"
AGE, RESOURCE = "Access-Control-Max-Age", "Cross-Origin-Resource-Policy"
NAMES = (ORIGIN, CREDENTIALS, METHODS, HEADERS, EXPOSED, AGE)
# Headers of other standards that begin alike.
OTHERS = ("access-control-allow-local-network", "access-control-allow-private-network",
          "access-control-request-headers", "access-control-request-local-network", "access-control-request-method",
          "access-control-request-private-network")
TOKEN = re.compile(r"[!#$%&'*+\-.^_`|~0-9A-Za-z]+")
LONGEST_AGE = 86400  # of Firefox; Chromium keeps 7,200 seconds
WHOLE = re.compile(r"([A-Za-z][A-Za-z0-9+.-]*)://([^/?#\s,;\"']+)")
UNFILLED = re.compile(r"[${}<>%]")
OfAnswer = functools.partial(Lint, among=(ANSWER,))


# ---- Access-Control-Allow-Origin

def in_quotes(field: Field) -> Found:
    found = re.fullmatch(r"([\"'`])(.*)\1", field.value)
    return found and found.group(2)


def is_list(field: Field) -> bool:
    return re.search(r"[,;|\s]", field.value) is not None and not UNFILLED.search(field.value)


def is_twice(field: Field) -> bool:
    return field.count > 1 and field.is_last


def with_path(field: Field) -> Found:
    found = re.fullmatch(WHOLE.pattern + r"[/?#][^\s,;|]*", field.value)
    return found and "*" not in found.group(2) and f"{found.group(1)}://{found.group(2)}"


def in_capitals(field: Field) -> Found:
    small = field.value.lower()
    is_origin = re.fullmatch(r"https?://[^/?#*\s,;\"']+", small) is not None
    return is_origin and field.value != small and small


def without_scheme(field: Field) -> Found:
    host = r"[A-Za-z0-9-]+(?:\.[A-Za-z0-9-]+)+(?::\d+)?|[A-Za-z0-9-]+:\d+|localhost"
    found = re.fullmatch(rf"(?://)?({host})/?", field.value)
    return found and "https://" + found.group(1)


def default_port(field: Field) -> Found:
    found = re.fullmatch(r"(https://[^/:]+):443|(http://[^/:]+):80", field.value.lower())
    return found and (found.group(1) or found.group(2))


def is_null(field: Field) -> bool:
    return field.value == "null"


def pattern(field: Field) -> bool:
    return "*" in field.value and field.value != "*" and not re.search(r"[\s,;\"']", field.value)


def unfilled(field: Field) -> bool:
    return UNFILLED.search(field.value) is not None


def own_origin(field: Field) -> bool:
    """That of the server itself, where pages of other origins ask for it, and none of its own."""
    asks = field.headers.asks + field.headers.preflights
    return field.value == field.headers.origin and bool(asks) and all(
        ask.is_foreign and ask.page_origin != field.value for ask in asks)


def no_origin(field: Field) -> bool:
    return field.value != "*" and not WHOLE.fullmatch(field.value)


def star_with_credentials(field: Field) -> Found:
    """The origins of the pages that ask with credentials."""
    asks = field.headers.asks + field.headers.preflights
    origins = list(dict.fromkeys(f"`{ask.page_origin}`" for ask in asks if ask.includes))
    told = origins[0] if len(origins) == 1 else " or ".join(origins) + ", the one that asks,"
    return bool(origins) and field.value == "*" and field.headers.has_credentials and told


def star_beside_credentials(field: Field) -> bool:
    return field.value == "*" and field.headers.has_credentials and not star_with_credentials(field)


def vary_missing(field: Field) -> Found:
    """One origin, where others ask too, or may, by a method whose answers caches keep (RFC 9111, section 3)."""
    headers = field.headers
    pages = {ask.page_origin for ask in headers.asks if ask.method in ("GET", "HEAD")}
    if field.value not in pages or field.value == headers.origin or field.count > 1:
        return None
    if not (headers.is_real or len(pages) > 1):
        return None
    is_kept = "no-store" not in headers.listed("Cache-Control")
    return is_kept and not {"origin", "*"} & set(headers.listed("Vary"))


ALLOW_ORIGIN = [
    OfAnswer("cors/origin-twice", ORIGIN, is_twice,
             ORIGIN + " stands twice, and the two are joined to a value that is no origin", "send one"),
    OfAnswer("cors/origin-quotes", ORIGIN, in_quotes, "the origin is in quotes, and no page's origin has any",
             "write `{meant}`"),
    OfAnswer("cors/origin-list", ORIGIN, is_list, "`{it.value}` is a list, and the value is one origin",
             "send the one that the request's Origin says, where it is one of yours, and `Vary: Origin`"),
    OfAnswer("cors/origin-path", ORIGIN, with_path, "`{it.value}` goes on behind the origin", "write `{meant}`"),
    OfAnswer("cors/origin-capitals", ORIGIN, in_capitals, "`{it.value}` has capitals, and no page's origin has any",
             "write `{meant}`"),
    OfAnswer("cors/origin-without-scheme", ORIGIN, without_scheme, "`{it.value}` has no scheme", "write `{meant}`"),
    OfAnswer("cors/origin-default-port", ORIGIN, default_port,
             "`{it.value}` names the port that its scheme has, and no page's origin does", "write `{meant}`"),
    OfAnswer("cors/origin-null", ORIGIN, is_null,
             "any site can make a frame whose origin is `null`, so this lets all of them read",
             "send the origins that you trust"),
    OfAnswer("cors/origin-pattern", ORIGIN, pattern, "`{it.value}` is a pattern, and only `*` alone is one",
             "send the origin that the request's Origin says, where it is one of yours, and `Vary: Origin`"),
    OfAnswer("cors/origin-unfilled", ORIGIN, unfilled, "`{it.value}` is a variable that nothing has filled in",
             "send the origin itself"),
    OfAnswer("cors/origin-own", ORIGIN, own_origin,
             "`{it.value}` is the server's own origin, and not that of a page that asks", "send the page's origin"),
    OfAnswer("cors/no-origin", ORIGIN, no_origin, "`{it.value}` is no origin",
             "write scheme, `://` and host, such as `https://app.example`", is_last=True),
    OfAnswer("cors/star-with-credentials", ORIGIN, star_with_credentials,
             "`*` lets no request with credentials read, and a page asks with them",
             "send {meant} in its place, where the server trusts it"),
    OfAnswer("cors/star-beside-credentials", ORIGIN, star_beside_credentials,
             "`*` lets no request with credentials read, and Access-Control-Allow-Credentials stands beside it",
             "send an origin that you trust; or leave Access-Control-Allow-Credentials out"),
    OfAnswer("cors/vary-missing", ORIGIN, vary_missing,
             "this answer is for one origin, and where others ask too a cache gives it to them",
             "send `Vary: Origin` with every answer of this URL, also a refusal"),
]


# ---- credentials, lists, ages

def not_true(field: Field) -> bool:
    return field.value != "true"


def quoted_item(field: Field) -> Found:
    return next((item for item in field.items if re.search(r"^[\"'`\[({]|[\"'`\])}]$", item)), None)


def joined_items(field: Field) -> Found:
    """An item that is several, with other signs than commas between them."""
    joined = (item for item in field.items if re.search(r"[^\s;|][\s;|]+[^\s;|]|;$", item))
    return next((item for item in joined if not re.search("[\"'`\\[({]", item)), None)


def bad_item(field: Field) -> Found:
    return next((item for item in field.items if not TOKEN.fullmatch(item)), None)


def small_method(field: Field) -> Found:
    known = ("DELETE", "GET", "HEAD", "OPTIONS", "PATCH", "POST", "PUT")
    meant = (item.upper() for item in field.items if item.upper() in known)
    return next((method for method in meant if method not in field.items), None)


def star_alone(field: Field) -> bool:
    """Beside names a `*` may be for requests without credentials."""
    return set(field.items) == {"*"} and field.headers.has_credentials


def authorization_under_star(field: Field) -> Found:
    """The list with Authorization. Where credentials go along, another lint speaks of a `*` that is alone."""
    asked = any("authorization" in ask.names for ask in field.headers.preflights)
    is_missed = "*" in field.items and asked and "authorization" not in [item.lower() for item in field.items]
    return is_missed and not star_alone(field) and ", ".join([*field.items, "Authorization"])


def set_cookie(field: Field) -> Found:
    return next((item for item in field.items if item.lower() in ("set-cookie", "set-cookie2")), None)


def no_number(field: Field) -> Found:
    whole = field.headers.get(field.name)
    return field.is_last and not re.fullmatch("[0-9]+", whole or "") and whole


def no_resource_policy(field: Field) -> Found:
    whole = field.headers.get(RESOURCE)
    return field.is_last and whole not in ("same-origin", "same-site", "cross-origin") and whole


def long_age(field: Field) -> bool:
    return bool(re.fullmatch("[0-9]{1,18}", field.value)) and int(field.value) > LONGEST_AGE


def lists(name: str) -> list[Lint]:
    """What three headers have in common."""
    short = name.replace("Access-Control-", "").lower()
    return [
        OfAnswer(f"cors/{short}-quotes", name, quoted_item, "`{meant}` has quotes or brackets, which no name has",
                 "write the names alone"),
        OfAnswer(f"cors/{short}-without-commas", name, joined_items,
                 "`{meant}` is one item, since no comma stands in it",
                 "put commas between names, and no blank into one"),
        OfAnswer(f"cors/{short}-no-token", name, bad_item, "`{meant}` is no token", "write a name's letters alone",
                 is_last=True),
    ]


VALUES = [
    OfAnswer("cors/credentials-not-true", CREDENTIALS, not_true,
             "`{it.value}` is none of the values of " + CREDENTIALS,
             "write `true`, in lower case; or leave the header out"),
    OfAnswer("cors/credentials-twice", CREDENTIALS, is_twice,
             CREDENTIALS + " stands twice, and the two are joined to what is not `true`", "send one"),
    *lists(METHODS), *lists(HEADERS), *lists(EXPOSED),
    OfAnswer("cors/method-in-small-letters", METHODS, small_method,
             "the case of a method counts, and `{meant}` is listed in other letters", "write `{meant}`"),
    OfAnswer("cors/methods-star-with-credentials", METHODS, star_alone,
             "`*` is no wildcard for requests with credentials, and allows them no method",
             "list the methods"),
    OfAnswer("cors/headers-star-with-credentials", HEADERS, star_alone,
             "`*` is no wildcard for requests with credentials, and allows them no header",
             "list the names"),
    OfAnswer("cors/exposed-star-with-credentials", EXPOSED, star_alone,
             "`*` exposes nothing to a request with credentials", "list the names"),
    OfAnswer("cors/authorization-under-star", HEADERS, authorization_under_star,
             "`*` does not allow Authorization, which a page sends here", "write `{meant}`"),
    OfAnswer("cors/set-cookie-exposed", EXPOSED, set_cookie, "no script ever sees `{meant}`", "take it out"),
    OfAnswer("cors/max-age-no-number", AGE, no_number, "`{meant}` is no number of seconds",
             "write digits alone, such as `600`, and send one"),
    OfAnswer("cors/max-age-long", AGE, long_age, "no browser keeps an answer to a preflight for {it.value} seconds",
             "write at most `86400`, which Firefox keeps; Chromium keeps `7200`"),
    OfAnswer("cors/resource-policy-word", RESOURCE, no_resource_policy,
             "`{meant}` is no value of " + RESOURCE + ", and protects nothing",
             "write `same-origin`, `same-site` or `cross-origin`"),
]


# ---- names

def misspelt(field: Field) -> Found:
    is_known = field.name in OTHERS or is_answer_header(field)
    short = {name.lower().partition("control-")[2]: name for name in NAMES if name != AGE}
    return None if is_known else nearest(field.name, NAMES) or short.get(field.name.removeprefix("x-"))


def is_request_header(field: Field) -> bool:
    return field.name in ("access-control-request-method", "access-control-request-headers")


def is_answer_header(field: Field) -> bool:
    return field.name in [name.lower() for name in NAMES]


HEADER_NAMES = [
    Lint("cors/header-misspelt", "a header's name", misspelt, "`{it.header}` is no header of CORS", "write `{meant}`",
         (ANSWER,)),
    Lint("cors/request-header", "a header's name", is_request_header,
         "`{it.header}` is a header of requests, and says nothing in an answer",
         "send Access-Control-Allow-Methods or Access-Control-Allow-Headers", (ANSWER,)),
    Lint("cors/on-the-page", "a header's name", lambda field: bool(field.name == ORIGIN.lower()),
         "`{it.header}` of a page says nothing of what its scripts may read",
         "send it with the answers of the server that they ask", (DOCUMENT,), is_note=True),
    Lint("cors/in-a-request", "a header's name", is_answer_header,
         "`{it.header}` is a header of answers, and in a request it only leads to a preflight",
         "take it out, and let the server send it", (COMMAND,)),
]

TABLE = ALLOW_ORIGIN + VALUES + HEADER_NAMES
