"""Policies as they are surely meant: each slip that a lint tells of, and whose right text is known, is mended. What is
advised is built on these texts, so that a warning and a change never contradict each other."""
from __future__ import annotations

import base64
import functools
import re
from typing import TYPE_CHECKING, NamedTuple

from fiorrudda.commands import csp
from fiorrudda.commands.lints import grammar, lints_of
from fiorrudda.commands.lints.csp import comma, is_web_host, meant_directive, misspelt_header, obsolete_header
from fiorrudda.commands.lints.csp_words import is_at, with_star_in_front
from fiorrudda.commands.lints.entry import DOCUMENT
from fiorrudda.commands.lints.policies import BACKSLASH, HTML_ESCAPE, PASTED, Policy, is_swallowed, pieces
from fiorrudda.commands.lints.reading import Field, Headers, topics_of
from fiorrudda.commands.there import there

if TYPE_CHECKING:
    from collections.abc import Callable, Container, Iterator, Mapping
    from typing import Any

    from fiorrudda.commands.lints.entry import Lint
    from fiorrudda.commands.lints.policies import Directive, Word
    from fiorrudda.commands.lints.reading import Ask, Budget
    from fiorrudda.commands.shapes import Headed

LONGEST = 8192  # characters: a header that is longer stays as it is
MOST_ROUNDS = 12
STRAIGHT = str.maketrans("\u2018\u2019\u201a\u201b\u201c\u201d", "''''''")


class Mended(NamedTuple):
    """A policy as it is meant: its text, how many slips were mended, whether no fault is left, and how many of those
    behind it belong to it."""

    text: str
    slips: int
    is_right: bool
    joined: int


class Unread(NamedTuple):
    """The only policy of a header whose name is misspelt: the header's number, its right name, and the policy."""

    at: int
    name: str
    mended: Mended


# ---- single words: the words that stand in the place of one; None where what is meant is not known

def as_meant(word: Word, meant: Any) -> list[str]:
    return [meant]


def as_written(word: Word | Directive, meant: Any) -> list[str] | None:
    """As a sentence of a lint says it."""
    found = re.fullmatch("write `(.*)`", meant)
    return [found.group(1)] if found else [] if meant == "take it out" else None


def out(word: Word, meant: Any) -> list[str]:
    return []


def with_slash(word: Word, meant: Any) -> list[str]:
    """The folder; and the path itself, where the page asks for that too."""
    path = there(word.host).group("path")
    return ([word.text] if any(is_at(url, path) for url in word.asks()) else []) + [word.text + "/"]


def in_base64(word: Word, meant: Any) -> list[str]:
    algorithm, digits = there(grammar.HASH.fullmatch(word.inner or "")).groups()
    value = base64.b64encode(bytes.fromhex(digits)).decode("ascii")
    return [f"'{algorithm}-{value}'"]


def with_wildcard_in_front(word: Word, meant: Any) -> list[str] | None:
    found = with_star_in_front(word.text)
    return [found] if found else None


def of_webrtc(word: Word, meant: Any) -> list[str] | None:
    inner = word.text.strip("'\"`").lower()
    return [f"'{inner}'"] if inner in ("allow", "block") else None


def of_scripts(word: Word, meant: Any) -> list[str] | None:
    """A word of default-src is left: its directive is mended."""
    return None if word.directive.name == "default-src" else []


WORDS = {
    **dict.fromkeys(["csp/" + name for name in (
        "keyword-unquoted", "nonce-unquoted", "hash-unquoted", "other-quotes", "quoted-with-more", "host-quoted",
        "scheme-without-colon", "http-on-https", "query-or-fragment", "wildcard-scheme", "wildcard-path",
        "scheme-alone", "star-behind-scheme", "one-slash", "localhost-without-scheme", "ancestor-path",
        "report-over-http")], as_meant),
    **dict.fromkeys(["csp/" + name for name in ("quote-missing", "unknown-keyword", "sandbox-word", "trusted-word",
                                              "more-behind-scheme", "no-word")],
                    as_written),
    **dict.fromkeys(["csp/" + name for name in (
        "unsafe-allow-redirects", "nonce-elsewhere", "unsafe-elsewhere", "strict-dynamic-elsewhere", "source-twice",
        "source-as-endpoint")],
                    out),
    "csp/trusted-sink": lambda word, meant: ["'script'"], "csp/webrtc-word": of_webrtc, "csp/hash-hex": in_base64,
    "csp/folder-without-slash": with_slash, "csp/wildcard-inside": with_wildcard_in_front,
    "csp/data-in-scripts": of_scripts,
}


# ---- directives: those that stand in the place of one, each as its name and its words

def renamed(directive: Directive, meant: Any) -> list[list[str]]:
    return [[*meant.split(), *directive.rest]]


def without_sign(directive: Directive, meant: Any) -> list[list[str]]:
    return [[directive.written, *directive.rest[1:]]]


def as_named(directive: Directive, meant: Any) -> list[list[str]]:
    found = as_written(directive, meant)
    return [[*found, *directive.rest]] if found else []


def taken_out(directive: Directive, meant: Any) -> list[list[str]]:
    return []


def alone(directive: Directive, meant: Any) -> list[list[str]]:
    return [[directive.written]]


def in_ascii(directive: Directive, meant: Any) -> list[list[str]] | None:
    text = directive.text.translate(STRAIGHT)
    return [text.split()] if text.isascii() else None


def with_none(directive: Directive, meant: Any) -> list[list[str]]:
    return [[directive.written, "'none'"]] if directive.has_sources else []


def without(*words: str) -> Callable[[Directive, Any], list[list[str]]]:
    """The directive without these words."""
    return lambda directive, meant: [[directive.written, *(one for one in directive.rest if one.lower() not in words)]]


def star_alone(directive: Directive, meant: Any) -> list[list[str]]:
    """Without the sources that `*` has already."""
    kept = [word.text for word in directive.words
            if word.lower not in ("'self'", "http:", "https:") and not is_web_host(word)]
    return [[directive.written, *kept]]


def first_word(directive: Directive, meant: Any) -> list[list[str]]:
    """One word, and behind it the directive whose semicolon is missing."""
    index = next((index for index, word in enumerate(directive.rest) if word.lower() in grammar.DIRECTIVES), None)
    return [directive.text.split()[:2]] + ([directive.rest[index:]] if index else [])


def to_urls(directive: Directive, meant: Any) -> list[list[str]]:
    urls = [word for word in directive.rest if "/" in word]
    names = [word for word in directive.rest if "/" not in word]
    return [["report-uri", *urls]] + ([["report-to", *names]] if names else [])


def to_group(directive: Directive, meant: Any) -> list[list[str]]:
    urls = [word for word in directive.rest if word != meant]
    return [["report-to", meant]] + ([["report-uri", *urls]] if urls else [])


def urls_joined(directive: Directive, meant: Any) -> list[list[str]]:
    """Each URL that a blank parts is one word."""
    words, is_host = [], False
    for word in directive.words:
        url = directive.split_urls.get(word.start)
        words += [] if is_host else [url or word.text]
        is_host = url is not None
    return [[directive.written, *words, *directive.rest[len(directive.words):]]]


def no_plugins(directive: Directive, meant: Any) -> list[list[str]]:
    return [] if "object-src" in directive.policy.effective else [["object-src", "'none'"]]


DIRECTIVES = {
    "csp/directive-with-sign": renamed, "csp/sign-alone": without_sign, "csp/not-ascii": in_ascii,
    "csp/blank-in-url": urls_joined,
    "csp/unknown-directive": as_named,
    "csp/no-words": with_none, "csp/needless-words": alone, "csp/none-beside-others": without("'none'"),
    "csp/star-beside-others": star_alone, "csp/unsafe-inline-ignored": without("'unsafe-inline'"),
    "csp/unsafe-hashes-alone": without("'unsafe-hashes'"), "csp/report-only-ignores": taken_out,
    "csp/one-word-alone": first_word, "csp/url-in-report-to": to_urls, "csp/name-in-report-uri": to_group,
    **{"csp/obsolete-" + name: taken_out for name in grammar.OBSOLETE}, "csp/obsolete-plugin-types": no_plugins,
}


# ---- policies

def of_document(headers: Headed, url: str, asks: list[Ask], budget: Budget) -> list[Mended]:
    """All policies of a document's headers, numbered as csp.texts does. `asks` are what its scripts ask for. Those that
    are too long for the budget stay as they are."""
    known = Headers(DOCUMENT, headers, url, asks)
    found: list[Mended] = []
    for at, (name, value) in enumerate(headers):
        if name.lower() in csp.HEADERS:
            is_short = len(value) <= LONGEST and budget.takes(name, value)
            found += of_header(Field(known, at, name, value)) if is_short else as_they_are(value)
    return found


def as_they_are(value: str) -> list[Mended]:
    """The policies of a header, unmended."""
    return [Mended(text.strip(), 0, False, 0) for text in value.split(",") if csp.directives(text)]


def unread(headers: Headed, url: str, asks: list[Ask], budget: Budget) -> Iterator[Unread]:
    """The policies that no browser reads yet."""
    known = Headers(DOCUMENT, headers, url, asks)
    for at, (header, value) in enumerate(headers):
        name = right_name(Field(known, at, header, value)) if "csp" in topics_of(header.lower()) else None
        if name and len(value) <= LONGEST and budget.takes(name, value):
            texts = [policy.own_text for policy in Field(known, at, name, value).policies]
            own = mended(known, at, name, 0, texts[0]) if len(texts) == 1 else None
            if own and csp.directives(own.text):
                yield Unread(at, name, own._replace(slips=own.slips + (name != header)))


def right_name(field: Field) -> Any:
    """That of a header that no browser reads a policy of; its own where no directive is read, as none is in ASCII."""
    is_idle = field.is_policy and field.value != "" and not any(map(csp.directives, field.value.split(",")))
    return field.header if is_idle else misspelt_header(field) or obsolete_header(field)


def of_header(field: Field) -> Iterator[Mended]:
    """Its policies. One behind a comma that is none belongs to the one before, and has no text then."""
    groups: list[tuple[int, str, int]] = []
    for number, policy in enumerate(field.policies):
        if csp.directives(policy.own_text):
            is_split = number in field.continued
            if groups and (is_split or comma(policy)):
                text = groups[-1][1].rstrip(" ;") + joint(policy, is_split) + policy.own_text
                groups[-1] = groups[-1][0], text, groups[-1][2] + 1
            else:
                groups.append((number, policy.own_text, 0))
    for number, text, joined in groups:
        own = mended(field.headers, field.at, field.header, number, text)
        yield own._replace(slips=own.slips + joined, joined=joined)
        yield from [Mended("", joined, True, 0)] * joined


def joint(policy: Policy, is_split: bool) -> str:
    """What is meant by the comma before a policy."""
    return "; " if is_split or meant_directive(policy.directives[0].name, ()) else " "


def mended(headers: Headers, at: int, name: str, number: int, text: str) -> Mended:
    """One of them, by rounds: what is mended may show another slip."""
    text, slips = text.strip(), 0
    for _ in range(MOST_ROUNDS):
        policy = Policy(Field(headers, at, name, text), number, text)
        count, parts = mended_once(policy, text)
        if count == 0:
            return Mended(text, slips, not has_fault(policy), 0)
        text, slips = parts, slips + count
    return Mended(text, slips, False, 0)


def has_fault(policy: Policy) -> bool:
    things = [policy, *policy.things()]
    return any(lint.sentence(it) for it in things for lint in looking(it) if not lint.is_note)


def mended_once(policy: Policy, text: str) -> tuple[int, str]:
    """The number of slips that can be mended at once, and the text then."""
    if policy.is_pasted:
        alone, escapes = unpasted(text), HTML_ESCAPE.findall(text) or BACKSLASH.findall(text)
        return len(escapes) or int(alone != text), alone
    parts: list[list[str]] = []
    slips = 0
    for directive in policy.directives:
        count, own = of_directive(directive, parts)
        parts += own
        slips += count
    return (slips, "; ".join(map(" ".join, parts))) if parts else (0, text)


def unpasted(text: str) -> str:
    """The policy without escapes, its header's name, its quotes or the element around it."""
    if HTML_ESCAPE.search(text):
        import html  # where there is one
        return html.unescape(text)
    if BACKSLASH.search(text):
        return BACKSLASH.sub("", text)
    content = re.match(r"<meta\b.*?\bcontent\s*=\s*([\"'])(.*)\1", text, re.I)
    if content:
        return content.group(2)
    if text[0] in "\"'`\u201c\u2018":
        return re.sub(f"[{re.escape(text[0])}\u201d\u2019]$", "", text[1:]).strip()
    return PASTED.sub("", text).strip()


def is_joined(directive: Directive) -> bool:
    """Whether it is a source behind a semicolon that stands too much."""
    return any(lint.name == "csp/source-as-directive" and lint.sentence(directive) for lint in looking(directive))


def of_directive(directive: Directive, before: list[list[str]]) -> tuple[int, list[list[str]]]:
    """How many slips were mended, and the directives that stand in its place; or `before`, those in front of it, have
    its words."""
    whole = [directive.written, *directive.rest]
    first = next((part for part in before if part[0].lower() == directive.name), None)
    if directive.is_again and first is not None:
        first += directive.rest
        return 1, []
    if before and is_joined(directive):
        before[-1] += whole
        return 1, []
    parts = split(whole) if directive.is_known else []
    if len(parts) > 1:
        return len(parts) - 1, parts
    own = first_mend(directive, DIRECTIVES)
    if own is not None:
        return 1, own
    is_looked_into = directive.is_known and directive.text.isascii() and not directive.is_again
    return of_words(directive) if is_looked_into else (0, [whole])


def split(words: list[str]) -> list[list[str]]:
    """The directives of a text that lacks semicolons, where each begins with its name."""
    parts: list[list[str]] = []
    for word in words:
        if not parts or is_swallowed(word, parts[-1][0].lower()):
            parts.append([])
        parts[-1].append(word)
    return parts


@functools.lru_cache(256)
def standing(text: str, name: str, is_known: bool) -> tuple[list[str], str | None]:
    """How a policy's text has a directive: the names of all that stand in one part of it, since semicolons are missing,
    and that part, where it begins with no directive as it is written; or None."""
    there = {part.split()[0].lower() for part in text.split(";") if part.split()}
    for part in filter(str.split, text.split(";")):
        first, *others = [one[0].lower() for one in split([piece.text for piece in pieces(part)])]
        meant = meant_name(first, part, there)
        names = [meant or first, *others]
        if name in names and (others or meant and not is_known):
            return names, part.strip() if meant else None
    return [name], None


def meant_name(name: str, part: str, there: Container[str]) -> str | None:
    """The name of the directive that is meant by one that is none, or is not ASCII. `there` are those of the policy."""
    if name in grammar.DIRECTIVES:
        return None if part.isascii() else name
    found = grammar.WITH_SIGN.fullmatch(name)
    return found.group(1) if found and found.group(1) in grammar.DIRECTIVES else meant_directive(name, there)


def of_words(directive: Directive) -> tuple[int, list[list[str]]]:
    """The same of its words."""
    mends = [first_mend(word, WORDS) for word in directive.words]
    count = sum(mend is not None for mend in mends)
    if count == 0 and has_data(directive):
        return 1, without_data(directive)
    words = [one for word, mend in zip(directive.words, mends) for one in ([word.text] if mend is None else mend)]
    return count, [[directive.written, *words]]


def has_data(directive: Directive) -> bool:
    return any(lint.name == "csp/data-in-scripts" and lint.sentence(word)
               for word in directive.words for lint in looking(word))


def without_data(directive: Directive) -> list[list[str]]:
    """A default-src, and a script-src beside it that lets no `data:` pass."""
    others = [word for word in directive.rest if word.lower() != "data:"] or ["'none'"]
    return [[directive.written, *directive.rest], ["script-src", *others]]


def looking(it: Word | Policy | Directive) -> list[Lint]:
    """The lints that look at a thing; the last ones at the end."""
    return sorted(lints_of(it.topics, it.kinds, it.where), key=lambda lint: lint.is_last)


def first_mend(it: Word | Directive, mends: Mapping[str, Callable[[Any, Any], Any]]) -> Any:
    """What the first lint of a thing that can be mended makes of it; None where there is none."""
    for lint in looking(it):
        meant = lint.find(it) if lint.name in mends else None
        if meant is not None and meant is not False:
            found = mends[lint.name](it, meant)
            if found is not None:
                return found
    return None
