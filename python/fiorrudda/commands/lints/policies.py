"""Policies as lints look at them: with their directives and words."""
from __future__ import annotations

import functools
import re
from typing import TYPE_CHECKING, NamedTuple

from fiorrudda.commands import csp
from fiorrudda.commands.lints import grammar
from fiorrudda.commands.lints.entry import DOCUMENT
from fiorrudda.commands.lints.reading import REPORT_ONLY, hostname
from fiorrudda.commands.there import there

if TYPE_CHECKING:
    from collections.abc import Iterator, Sequence

    from fiorrudda.commands.lints.reading import Field

# A policy in quotes; and one that begins with the name of its header, or with HTML.
QUOTED = re.compile("[\"'`\u201c\u2018]\\s*([A-Za-z-]+)")
PASTED = re.compile(r"(?:x-)?content-security-policy(?:-report-only)?\s*:|<meta\b", re.I)
# What HTML and shells write for a quote, and headers do not.
HTML_ESCAPE = re.compile(r"&(?:quot|apos|amp|#\d+|#x[0-9a-f]+);", re.I)
BACKSLASH = re.compile(r"\\(?=[\"'`])")

# A scheme with its slashes, and no host.
SCHEME_ALONE = re.compile(r"([a-z][a-z0-9+.-]*:)/+", re.I)

# What decides in the place of a directive before default-src does (CSP 3, section 6.8.3).
BEFORE_DEFAULT = {
    **{f"{kind}-src-{part}": (f"{kind}-src",) for kind in ("script", "style") for part in ("elem", "attr")},
    "frame-src": ("child-src",), "worker-src": ("child-src", "script-src"),
    "fenced-frame-src": ("frame-src", "child-src")}


class Piece(NamedTuple):
    """A word, its place in the header's value, and what stands right before it, without a blank; or an empty text."""

    text: str
    start: int
    source: str


class Policy:
    """One policy of a header, whose text begins at `start` in that. `effective` has the first directive of each name,
    as docs/rules/csp.md says."""

    kinds, topics = ("a policy",), ("csp",)

    def __init__(self, field: Field, number: int, text: str, start: int = 0) -> None:
        self.headers, self.field = field.headers, field
        self.start = start + len(text) - len(text.lstrip())
        self.own_text = text.strip()
        self.where, self.at, self.header = field.where, field.at, field.header
        self.number = number
        self.is_report_only = field.name == REPORT_ONLY
        quoted = QUOTED.match(field.value)
        self.is_quoted = quoted is not None and quoted.group(1).lower() in grammar.DIRECTIVES
        # What no other lint than that of its header has a word for.
        self.is_pasted = self.is_quoted or is_escaped(field.value) or PASTED.match(field.value) is not None
        self.directives: list[Directive] = []
        self.effective: dict[str, Directive] = {}
        for part in text.split(";"):
            if part.split():
                self.add(Directive(self, part, not self.directives, start))
            start += len(part) + 1

    def add(self, directive: Directive) -> None:
        directive.is_again = directive.name in self.effective
        self.directives.append(directive)
        if directive.text.isascii() and not directive.is_again:
            self.effective[directive.name] = directive

    def things(self) -> Iterator[Word | Directive]:
        for directive in self.directives:
            yield directive
            if directive.is_known and directive.text.isascii() and not directive.is_again:
                yield from directive.words

    @property
    def whole_value(self) -> str:
        return str(self.field.value)

    @property
    def first_name(self) -> str:
        return self.directives[0].written if self.directives else ""

    def decides(self, effective: str) -> str:
        """The name of the directive that decides for an effective one."""
        return csp.decider_of(self.effective, effective)


def is_escaped(value: str) -> bool:
    """Whether its quotes are written as HTML or a shell has them, so that no other lint has a word for it."""
    return HTML_ESCAPE.search(value) is not None or BACKSLASH.search(value) is not None


def continued(policies: list[Policy]) -> dict[int, str]:
    """By the numbers of those behind a comma that surely stands for a semicolon the name of a directive that would
    widen default-src then. It goes on with what the policy before does not have, and one of both has default-src. So
    do all of three or more of which no two have the same directive."""
    return by_commas_alone(policies) or one_by_one(policies)


def by_commas_alone(policies: Sequence[Policy]) -> dict[int, str]:
    if not policies:
        return {}
    base, *others = policies
    names = [name for policy in policies for name in policy.effective]
    is_list = len(others) > 1 and len(names) == len(set(names)) and all(map(begins_known, policies))
    if not is_list or "default-src" not in base.effective:
        return {}
    wider = {policy.number: widening(base.effective, policy.effective) for policy in others}
    first = next(filter(None, wider.values()), None)
    return {number: name or first for number, name in wider.items()} if first else {}


def begins_known(policy: Policy) -> bool:
    return bool(policy.directives) and policy.directives[0].is_known


def one_by_one(policies: Sequence[Policy]) -> dict[int, str]:
    found: dict[int, str] = {}
    whole: dict[str, Directive] = {}
    for policy in policies:
        first = policy.directives[0] if policy.directives else None
        is_source = first is not None and first.follows_comma and not first.is_known
        name = widening(whole, policy.effective) if first is not None and first.is_known else None
        if name:
            found[policy.number] = name
        whole = {**policy.effective, **whole} if name or is_source else dict(policy.effective)
    return found


def widening(one: dict[str, Directive], other: dict[str, Directive]) -> str | None:
    """The first directive of two policies that would widen the default-src of the other; None where both have a
    directive, or where none has default-src."""
    if one.keys() & other.keys() or "default-src" not in {**one, **other}:
        return None
    base, others = (one, other) if "default-src" in one else (other, one)
    return next((name for name, directive in others.items()
                 if name in grammar.FETCH and not base.keys() & set(BEFORE_DEFAULT.get(name, ()))
                 and is_wider(directive, base["default-src"])), None)


def is_wider(directive: Directive, default: Directive) -> bool:
    """Whether it would let more through than a default-src. A nonce or a hash narrows, where that lets some through."""
    is_closed = default.texts in ([], ["'none'"])
    is_narrower = directive.has_proof and not is_closed
    return not is_narrower and any(not is_covered(word, default.texts) for word in directive.words)


def is_covered(word: Word, texts: list[str]) -> bool:
    """Whether the words of a default-src let through what a word does, or the word nothing."""
    if word.is_directive or word.lower in ("'none'", *texts) or (word.inner or "").lower() in grammar.REPORTS:
        return True
    is_web = word.lower in ("'self'", "http:", "https:") or word.host is not None
    is_plain = word.text in ("*", "http:") or word.lower.startswith("http://")
    is_secure = word.policy.headers.scheme == "https" and not is_plain
    return is_web and ("*" in texts or "https:" in texts and is_secure)


class Directive:
    kinds, topics = ("a directive",), ("csp",)

    def __init__(self, policy: Policy, text: str, is_first: bool, start: int) -> None:
        self.policy = policy
        self.where, self.at, self.header = policy.where, policy.at, policy.header
        self.text = text.strip()
        first, *self.pieces = pieces(text, start)
        self.written, self.start = first.text, first.start
        self.rest = [piece.text for piece in self.pieces]
        self.name = self.written.lower()
        self.is_known = self.name in grammar.DIRECTIVES
        self.has_sources = self.name in grammar.SOURCES
        # The first one behind a comma, where that begins another policy.
        self.follows_comma = is_first and policy.number > 0
        self.is_again = False

    @property
    def whole_value(self) -> str:
        return self.policy.whole_value

    @functools.cached_property
    def words(self) -> list[Word]:
        """Up to one that is the name of another directive, behind a semicolon that is missing."""
        words, seen = [], set()
        for piece in self.pieces:
            words.append(Word(self, piece, piece.text in seen))
            seen.add(piece.text)
            if words[-1].is_directive:
                break
        return words

    @functools.cached_property
    def asks(self) -> dict[str, list[str]]:
        """The URLs that the page asks for where this directive decides, by their hosts and by those above them, which
        stand behind `*.`."""
        found: dict[str, list[str]] = {}
        for ask in self.policy.headers.asks if self.where == DOCUMENT else []:
            if self.policy.decides(csp.EFFECTIVE[ask.kind]) == self.name:
                for place in places_of(hostname(ask.url)):
                    found.setdefault(place, []).append(ask.url)
        return found

    @functools.cached_property
    def split_urls(self) -> dict[int, str]:
        """By the place of a scheme with its slashes that a blank parts from the host behind it the URL that is
        meant."""
        found = {}
        for word, host in zip(self.words, self.words[1:]):
            scheme = SCHEME_ALONE.fullmatch(word.text)
            is_host = host.host is not None and host.host.group("scheme") is None and not host.is_directive
            if scheme and is_host:
                found[word.start] = f"{scheme.group(1)}//{host.text}"
        return found

    @functools.cached_property
    def texts(self) -> list[str]:
        return [word.lower for word in self.words]

    @functools.cached_property
    def inner(self) -> list[str]:
        """The keywords without their quotes."""
        return [word.inner.lower() for word in self.words if word.inner is not None]

    @functools.cached_property
    def has_proof(self) -> bool:
        """Whether there is a nonce or a hash."""
        return any(word.is_proof for word in self.words)


def places_of(host: str) -> list[str]:
    """The hosts of words that match a host."""
    labels = host.split(".")[:csp.MOST_LABELS]
    return [host, *("*." + ".".join(labels[at:]) for at in range(1, len(labels)))]


def pieces(text: str, start: int = 0) -> Iterator[Piece]:
    """The words of a directive's text, with their places. One that goes on with the name of another is two."""
    is_free = takes_names((text.split() or [""])[0].lower())
    for found in re.finditer(r"\S+", text):
        at, source = start + found.start(), "" if is_free else grammar.before_name(found.group())
        if source:
            yield Piece(source, at, "")
        yield Piece(found.group()[len(source):], at + len(source), source)


def takes_names(name: str) -> bool:
    """Whether the words of the directive of this name are names of all kinds."""
    return name in ("report-to", "trusted-types")


def is_swallowed(text: str, name: str) -> bool:
    """Whether a word of the directive of this name is another directive's, whose semicolon is missing."""
    return "-" in text and text.lower() in grammar.DIRECTIVES and not takes_names(name)


class Word:
    """A word of a directive; `inner` is what its quotes hold, or None, and `source` what stands right before it,
    without a blank."""

    topics = ("csp", "csp_words")

    def __init__(self, directive: Directive, piece: Piece, is_again: bool) -> None:
        text, self.start, self.source = piece
        self.directive = directive
        self.policy = directive.policy
        self.where, self.at, self.header = directive.where, directive.at, directive.header
        self.text = text
        self.lower = text.lower()
        self.is_again = is_again
        self.inner = text[1:-1] if re.fullmatch("'[^']*'", text) else None
        self.kinds = ("a word", "a source") if directive.has_sources else ("a word",)
        self.host = grammar.HOST.fullmatch(text)
        self.is_directive = is_swallowed(text, directive.name)

    @property
    def whole_value(self) -> str:
        return self.policy.whole_value

    @property
    def written(self) -> str:
        """With what stands right before it."""
        return self.source + self.text

    @property
    def is_proof(self) -> bool:
        found = grammar.NONCE.fullmatch(self.inner or "") or grammar.HASH.fullmatch(self.inner or "")
        return found is not None

    @property
    def place(self) -> str:
        """The host of a word that may be a URL, in lower case."""
        return there(re.match(r"(?:(?:[^/:]*:)?//)?(\[[^\]]*\]|[^/:?#]*)", self.lower)).group(1)

    def asks(self) -> list[str]:
        """The URLs of this host that the page asks for, or of those below it, where this directive decides."""
        return self.directive.asks.get(self.place, [])
