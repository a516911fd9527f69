"""Lints of integrity texts."""
from __future__ import annotations

import functools
import re
from typing import TYPE_CHECKING

from fiorrudda.commands.lints import grammar
from fiorrudda.commands.lints.entry import COMMAND, Lint

if TYPE_CHECKING:
    from fiorrudda.commands.lints.reading import Options
    from fiorrudda.commands.shapes import Found, Pairs

TEXT = "an integrity text"
QUOTES = "\"'`"
VALUE = r"[A-Za-z0-9+/_=-]+"


def token(options: Options, form: str) -> re.Match[str] | None:
    """The first token that fits a form, with what it found."""
    found = (re.fullmatch(form, one.partition("?")[0]) for one in options.tokens)
    return next(filter(None, found), None)


def known(options: Options) -> Pairs:
    """Pairs of an algorithm and a value, of the tokens that have the form of one."""
    found = (re.fullmatch(r"(sha256|sha384|sha512)-(.*)", one.partition("?")[0]) for one in options.tokens)
    return [(one.group(1), one.group(2)) for one in found if one]


# ---- what is found

def in_quotes(options: Options) -> Found:
    found = next((one for one in options.tokens if one[0] in QUOTES or one[-1] in QUOTES), None)
    return found and (found.strip(QUOTES) or "sha384-..")


def with_comma(options: Options) -> bool:
    return any(one.strip(",") and re.search(",(?:$|sha)", one) for one in options.tokens)


def other_algorithm(options: Options) -> Found:
    found = token(options, r"(md5|sha-?1|sha-?224|sha3-\d+|sha512/\d+|crc32)[-:=].*")
    return found and found.group(1)


def other_spelling(options: Options) -> Found:
    """A known algorithm in other letters."""
    found = token(options, r"(?i)(sha)[-_]?(256|384|512)[-](.+)")
    return found and found.group(0)[:7] not in ("sha256-", "sha384-", "sha512-") and "sha" + found.group(2)


def without_dash(options: Options) -> Found:
    found = token(options, rf"(sha256|sha384|sha512)([:=_ ]?)(?!-)({VALUE})")
    return found and found.group(1) + "-"


def in_hex(options: Options) -> Found:
    return next((name for name, value in known(options) if grammar.is_hex(name, value)), None)


def unpadded(options: Options) -> Found:
    return next((name for name, value in known(options) if "=" not in value and grammar.DIGESTS[name] % 3
                 and grammar.is_digest(name, value + "=" * (-grammar.DIGESTS[name] % 3))), None)


def wrong_length(options: Options) -> Found:
    for name, value in known(options):
        whole = value.rstrip("=") + "=" * (-grammar.DIGESTS[name] % 3)
        is_right = grammar.is_digest(name, whole) or grammar.is_hex(name, value)
        if grammar.BASE64.fullmatch(value) and not is_right:
            return name
    return None


def no_base64(options: Options) -> Found:
    other = (name for name, value in known(options) if "," not in value and not grammar.BASE64.fullmatch(value))
    return next(other, None)


def nothing_fits(options: Options) -> bool:
    return bool(options.tokens) and not any(grammar.BASE64.fullmatch(value) for _, value in known(options))


def is_opaque(options: Options) -> bool:
    return options.is_opaque and any(grammar.BASE64.fullmatch(value) for _, value in known(options))


def no_attribute(options: Options) -> bool:
    return options.is_load and options.kind not in ("script", "style") and bool(options.tokens)


OfCommand = functools.partial(Lint, among=(COMMAND,))
TABLE = [
    OfCommand("integrity/quotes", TEXT, in_quotes, "a token of the integrity text is in quotes, and is skipped",
              "write `{meant}`"),
    OfCommand("integrity/comma", TEXT, with_comma, "a comma stands between tokens of the integrity text",
              "write a blank"),
    OfCommand("integrity/algorithm", TEXT, other_algorithm,
              "`{meant}` is no algorithm of integrity texts, and its token is skipped",
              "write a digest by sha384, as `sha384-..`"),
    OfCommand("integrity/algorithm-spelling", TEXT, other_spelling,
              "a token is skipped, since its algorithm is spelt otherwise", "write `{meant}-` before its digest"),
    OfCommand("integrity/dash-missing", TEXT, without_dash,
              "a token is skipped, since no dash stands behind its algorithm", "write `{meant}` before its digest"),
    OfCommand("integrity/hex", TEXT, in_hex, "the digest by {meant} is in hexadecimal digits, and matches no body",
              "write it in base64"),
    OfCommand("integrity/padding", TEXT, unpadded,
              "the digest by {meant} has lost the `=` at its end, and matches no body", "write it whole"),
    OfCommand("integrity/length", TEXT, wrong_length,
              "the digest by {meant} is too short or too long, and matches no body",
              "make it anew, and write all of it"),
    OfCommand("integrity/no-base64", TEXT, no_base64,
              "the digest by {meant} has other signs than base64, and is skipped", "make it anew, in base64"),
    OfCommand("integrity/nothing-fits", TEXT, nothing_fits,
              "nothing in the integrity text is a token, so every body passes",
              "write `sha384-` and the digest in base64"),
    OfCommand("integrity/opaque", TEXT, is_opaque,
              "the answer is of another origin and opaque, and no body of such matches",
              "add `crossorigin` to a load; or ask in mode cors"),
    OfCommand("integrity/no-attribute", TEXT, no_attribute,
              "what loads {it.kind} in a browser has no integrity text, and takes every body",
              "take it out; or load it by a fetch"),
]
