"""A document's policies as CSP 3 has them: which directive decides, whether its words let a request pass, and which
word comes near to one that would. docs/rules/csp.md has the rules. They serve for what is said; the engine decides."""
from __future__ import annotations

import functools
import re
from typing import TYPE_CHECKING, NamedTuple
from urllib.parse import unquote_to_bytes, urlsplit

from fiorrudda import names
from fiorrudda.commands.there import there
from fiorrudda.commands.urls import is_address

if TYPE_CHECKING:
    from collections.abc import Callable, Container, Sequence
    from urllib.parse import SplitResult

    from fiorrudda.commands.shapes import Headed, Policies

FALLBACK = {"style-src-elem": ["style-src-elem", "style-src", "default-src"],
            "script-src-elem": ["script-src-elem", "script-src", "default-src"]}
EFFECTIVE = names.EFFECTIVE_DIRECTIVES
HEADERS = {"content-security-policy": True, "content-security-policy-report-only": False}  # whether it is enforced
KEYWORDS = ("self", "none", "unsafe-inline", "unsafe-eval", "strict-dynamic", "unsafe-hashes", "report-sample",
            "wasm-unsafe-eval")
NONCE = re.compile(r"'nonce-[A-Za-z0-9+/_-]+={0,2}'", re.I)
HASH = r"sha(?:256|384|512)-[A-Za-z0-9+/_-]+={0,2}"
QUOTED = re.compile(f"(?:{'|'.join(KEYWORDS)}|nonce-[A-Za-z0-9+/_-]+={{0,2}}|{HASH})", re.I)
SCHEME = re.compile(r"([A-Za-z][A-Za-z0-9+.-]*):")
HOST = re.compile(r"(?:([A-Za-z][A-Za-z0-9+.-]*)://)?"
                  r"(\*|(?:\*\.)?[A-Za-z0-9-]+(?:\.[A-Za-z0-9-]+)*\.?)(?::([0-9]+|\*))?"
                  r"(/(?!/)(?:[A-Za-z0-9/\-._~!$&'()*+=:@]|%[0-9A-Fa-f]{2})*)?")
# What the names of directives that consist of several parts end in.
LAST_PARTS = ("-src", "-elem", "-attr", "-uri", "-action", "-ancestors", "-to", "-requests", "-types", "-for",
              "-content", "-opener", "-xss")
PORTS = {"http": 80, "https": 443}
SCHEMES = ("http", "https", "ws", "wss", "data", "blob")
MOST_LABELS = 127  # of a domain
# What a scheme of a word matches besides itself.
WIDER = {"http": ("https",), "ws": ("wss", "http", "https"), "wss": ("https",)}


class Asked(NamedTuple):
    """What a policy is asked of: the URL, the page's, the kind (fetch, or that of a load), the element's nonce and
    integrity text, whether a parser inserted it, and whether a redirect led here."""

    url: str
    page: str
    kind: str
    nonce: str
    integrity: str
    parser: bool
    redirected: bool


class Near(NamedTuple):
    """A word that would match, were it written otherwise: what is wrong with it, the word, and how to write it."""

    fault: str
    word: str
    written: str


# ---- policies

def texts(headers: Headed) -> list[tuple[bool, str]]:
    """All policies, numbered as docs/rules/csp.md does: of each whether it is enforced, and its text."""
    found: list[tuple[bool, str]] = []
    for name, value in headers:
        if name.lower() in HEADERS:
            found += [(HEADERS[name.lower()], text) for text in value.split(",") if directives(text)]
    return found


def numbered(headers: Headed) -> Policies:
    """The same, with the directives of each."""
    return [(enforced, directives(text)) for enforced, text in texts(headers)]


def policies(headers: Headed) -> list[dict[str, list[str]]]:
    """The same without whether they are enforced."""
    return [policy for _, policy in numbered(headers)]


@functools.lru_cache(64)
def directives(text: str) -> dict[str, list[str]]:
    """A map from a directive's name to its words, which nobody changes."""
    policy: dict[str, list[str]] = {}
    for part in text.split(";"):
        words = part.split()
        if words and part.isascii():
            policy.setdefault(words[0].lower(), words[1:])
    return policy


def with_directive(text: str, name: str, value: str, before: str | None = None) -> str:
    """The text of a policy with a directive in the place of the one of this name, or of the text `before`; or behind
    all."""
    parts = [part.strip() for part in text.split(";") if part.strip()]
    index = next((number for number, part in enumerate(parts)
                  if (part == before if before else part.split()[0].lower() == name)), len(parts))
    return "; ".join([*parts[:index], (name + " " + value).strip(), *parts[index + 1:]])


def may_swallow(words: list[str]) -> bool:
    """Whether the name of another directive may stand among words, since a semicolon is missing."""
    return any("-" in word and word.lower().endswith(LAST_PARTS) for word in words)


def deciders(effective: str) -> list[str]:
    """The directives that may decide for an effective one, the nearest first."""
    return FALLBACK.get(effective, [effective, "default-src"])


def deciding(policy: dict[str, list[str]], effective: str) -> tuple[str, list[str]]:
    """The directive of a policy that decides for an effective one, and its words."""
    name = decider_of(policy, effective)
    return name, policy.get(name, [])


def decider_of(policy: Container[str], effective: str) -> str:
    """The name of that, or the effective one itself."""
    return next((name for name in deciders(effective) if name in policy), effective)


def written_for(name: str, effective: str) -> str:
    """The directive that is to be written for an effective one, where the one of this name decided: no wider one."""
    return name if name != "default-src" else effective.replace("-elem", "")


def meaningful(words: list[str], name: str) -> list[str]:
    """Those of default-src that mean something in a directive of this name, too: what stands in quotes, except 'self',
    does in those of scripts and styles, and 'strict-dynamic' in those of scripts."""
    if name.startswith("script-src"):
        return words
    is_style = name.startswith("style-src")
    return [word for word in words
            if not word.startswith("'") or word.lower() == "'self'" or is_style and word.lower() != "'strict-dynamic'"]


# ---- whether words let a request pass

def passes(words: list[str], asked: Asked) -> bool:
    """The check of a request (docs/rules/csp.md)."""
    if asked.kind in ("script", "style") and asked.nonce and asked.nonce in nonces(words):
        return True
    tokens = digests(asked.integrity) if asked.kind == "script" else []
    if tokens and all(token in hashes(words) for token in tokens):
        return True
    if asked.kind == "script" and any(word.lower() == "'strict-dynamic'" for word in words):
        return not asked.parser
    return any(matches(word, asked) for word in of_host(words, asked.url))


def of_host(words: list[str], url: str) -> list[str]:
    """The words that may match a URL, or would if they were written otherwise, in order: a page may ask for a thousand,
    so each is not compared with all words."""
    name = parts_of(url).hostname or ""
    labels = name.split(".")
    if len(labels) > MOST_LABELS:
        return words
    places = ["", "www." + name, *(".".join(labels[start:]) for start in range(len(labels)))]
    by_place = places_of(tuple(words))
    return [words[number] for number in sorted({number for place in places for number in by_place.get(place, ())})]


@functools.lru_cache(64)
def places_of(words: tuple[str, ...]) -> dict[str | None, list[int]]:
    """The numbers of words by their places."""
    found: dict[str | None, list[int]] = {}
    for number, word in enumerate(words):
        found.setdefault(place_of(word), []).append(number)
    return found


@functools.lru_cache(16384)
def place_of(word: str) -> str | None:
    """The host that a word names, without `*.`; an empty text where it names any, None where it matches no URL."""
    host = HOST.fullmatch(word)
    if host is None:
        return "" if SCHEME.fullmatch(word) or word.lower() == "'self'" else None
    name = host.group(2).lower()
    return "" if name == "*" or name in SCHEMES else name.removeprefix("*.")


def nonces(words: list[str]) -> list[str]:
    """Those that are none by the grammar match nothing."""
    return [word[7:-1] for word in words if NONCE.fullmatch(word)]


def hashes(words: list[str]) -> list[str]:
    return [word[1:7].lower() + word[7:-1] for word in words
            if word[1:4].lower() == "sha" and re.fullmatch(f"'{HASH}'", word, re.I)]


def digests(integrity: str) -> list[str]:
    """The valid tokens of an integrity text."""
    return [token for token in (word.partition("?")[0] for word in integrity.split()) if re.fullmatch(HASH, token)]


def matches(word: str, asked: Asked) -> bool:
    """Whether a word matches the URL ("does url match expression in origin with redirect count")."""
    url, page = parts_of(asked.url), parts_of(asked.page)
    scheme, host = SCHEME.fullmatch(word), HOST.fullmatch(word)
    if word == "*":
        return url.scheme in PORTS
    if scheme:
        return matches_scheme(scheme.group(1), url.scheme)
    if word.lower() == "'self'":
        return url.scheme in PORTS and matches_self(url, page)
    return host is not None and url.scheme in PORTS and matches_host(host.groups(), url, page, asked.redirected)


@functools.lru_cache(1024)
def parts_of(text: str) -> SplitResult:
    """The parts of a URL; empty ones of a text that is none. That of a WebSocket is asked for over http or https
    (Fetch, "establish a WebSocket connection")."""
    try:
        url = urlsplit(re.sub("^ws(s?):", r"http\1:", text.strip(), flags=re.I))
        _ = url.port  # which may be no number
    except ValueError:
        return urlsplit("")
    return url


def matches_scheme(word: str, scheme: str) -> bool:
    return scheme == word.lower() or scheme in WIDER.get(word.lower(), ())


def port_of(url: SplitResult) -> int | None:
    """The port that a URL names, where it is not that of its scheme."""
    return None if url.port == PORTS.get(url.scheme) else url.port


def matches_self(url: SplitResult, page: SplitResult) -> bool:
    if url.hostname != page.hostname or not (url.scheme == page.scheme or url.scheme == "https"):
        return False
    return (url.port or PORTS[url.scheme]) == (page.port or PORTS[page.scheme]) or port_of(url) == port_of(page) is None


def matches_host(parts: Sequence[str | None], url: SplitResult, page: SplitResult, redirected: bool) -> bool:
    scheme, host, port, path = parts
    if not matches_scheme(scheme or page.scheme, url.scheme) or not url.hostname:
        return False
    host, name = there(host).lower(), url.hostname.lower()
    if is_address(name):  # no word with a host matches one
        return False
    if not (host in ("*", name) or (host.startswith("*.") and name.endswith(host[1:]))):
        return False
    if port != "*" and (port_of(url) is not None if port is None else port != str(url.port or PORTS[url.scheme])):
        return False
    return path is None or redirected or matches_path(path, url.path or "/")


def matches_path(path: str, own: str) -> bool:
    pieces, found = ([unquote_to_bytes(piece) for piece in text.split("/")] for text in (path, own))
    if path.endswith("/"):
        return len(pieces) <= len(found) and pieces[:-1] == found[:len(pieces) - 1]
    return pieces == found


# ---- words that come near

def unquoted(words: list[str]) -> list[tuple[str, str]]:
    """Words that lack their quotes, or have others, each with how it is written."""
    return unquoted_of(tuple(words))


@functools.lru_cache(64)
def unquoted_of(words: tuple[str, ...]) -> list[tuple[str, str]]:
    return [(word, f"'{bare}'") for word, bare in ((word, word.strip("'\"`")) for word in words)
            if QUOTED.fullmatch(bare) and not re.fullmatch("'[^'\"`]*'", word)]


def near(words: list[str], asked: Asked) -> Near | None:
    """The first word that would match, were it written otherwise, by the likelier mistake; None where there is none."""
    words, url = of_host(words, asked.url), parts_of(asked.url)
    for fault, rewritten in REWRITTEN:
        for word in words:
            parts = HOST.fullmatch(word)
            written = rewritten(*parts.groups(), url) if parts else None
            if written is not None and matches(written, asked):
                return Near(fault, word, written)
    return None


def source(scheme: str | None, host: str, port: str | None, path: str | None) -> str:
    """The word of these parts."""
    return "".join([scheme + "://" if scheme else "", host, ":" + port if port else "", path or ""])


def with_colon(scheme: str | None, host: str, port: str | None, path: str | None, url: SplitResult) -> str | None:
    """The name of a scheme without its colon is a host."""
    return host + ":" if host.lower() in SCHEMES and not (scheme or port or path) else None


def without_star(scheme: str | None, host: str, port: str | None, path: str | None, url: SplitResult) -> str | None:
    """`/*` is no wildcard: a path that ends in a slash matches all below it."""
    return source(scheme, host, port, path.rstrip("*")) if path and path.endswith("*") else None


def with_other_slash(scheme: str | None, host: str, port: str | None, path: str | None, url: SplitResult) -> str | None:
    """A path matches itself, or what is below it where it ends in a slash."""
    if not path or path == "/":
        return None
    return source(scheme, host, port, path[:-1] if path.endswith("/") else path + "/")


def with_folder(scheme: str | None, host: str, port: str | None, path: str | None, url: SplitResult) -> str | None:
    """Another path, as of an older version, or in another case: all of the URL's folder."""
    folder = url.path[:url.path.rfind("/") + 1]
    return source(scheme, host, port, folder) if path and path != "/" and folder not in ("", "/") else None


def with_port(scheme: str | None, host: str, port: str | None, path: str | None, url: SplitResult) -> str | None:
    return source(scheme, host, str(url.port) if port_of(url) else None, path)


def with_scheme(scheme: str | None, host: str, port: str | None, path: str | None, url: SplitResult) -> str | None:
    return source(url.scheme, host, port, path)


def with_host(scheme: str | None, host: str, port: str | None, path: str | None, url: SplitResult) -> str | None:
    """`*.` in front matches the names below a domain, and not the domain itself."""
    name = (url.hostname or "").lower()
    bare = host.lower()[2:] if host.startswith("*.") else host.lower()
    if name == re.sub(r"^www\.", "", bare):
        return source(scheme, name, port, path)
    return source(scheme, "*." + bare, port, path) if name.endswith("." + bare) and "." in bare else None


# The likelier mistakes first.
REWRITTEN: tuple[tuple[str, Callable[..., str | None]], ...] = (
    ("colon", with_colon), ("path-star", without_star), ("path-slash", with_other_slash), ("path", with_folder),
    ("port", with_port), ("scheme", with_scheme), ("host", with_host))
