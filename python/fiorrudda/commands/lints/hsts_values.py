"""What a value of Strict-Transport-Security says (docs/rules/hsts.md), and what was meant by one that is ignored."""
from __future__ import annotations

import functools
import math
import re
from collections import namedtuple
from typing import TYPE_CHECKING

from fiorrudda.commands.lints.entry import nearest
from fiorrudda.commands.there import there

if TYPE_CHECKING:
    from collections.abc import Callable

KNOWN = ("max-age", "includesubdomains", "preload")
SPELT = {"max-age": "max-age", "includesubdomains": "includeSubDomains", "preload": "preload"}
YEAR, MONTH, MOST = 31536000, 2592000, 4294967295
TOKEN = r"[!#$%&'*+\-.^_`|~0-9A-Za-z]+"
PART = rf"[ \t]*(?:{TOKEN}[ \t]*(?:=[ \t]*(?:{TOKEN}|\"(?:[^\"\\]|\\.)*\")[ \t]*)?)?"
FIELD = re.compile(PART + "(?:;" + PART + ")*")
QUOTED = re.compile(r'"(?:[^"\\]|\\.)*"')
CLOSED = re.compile(r'(?:[^"]+|"(?:[^"\\]|\\.)*")*')  # up to a quote that does not close, behind which none does
QUOTES = "\"'`\u2018\u2019\u201a\u201c\u201d\u201e\u00ab\u00bb"
UNITS = {
    **dict.fromkeys(["ms", "msec", "milliseconds"], 0.001),
    **dict.fromkeys(["s", "sec", "secs", "second", "seconds"], 1),
    **dict.fromkeys(["m", "min", "mins", "minute", "minutes"], 60),
    **dict.fromkeys(["h", "hr", "hrs", "hour", "hours"], 3600),
    **dict.fromkeys(["d", "day", "days"], 86400), **dict.fromkeys(["w", "week", "weeks"], 604800),
    **dict.fromkeys(["mo", "mon", "month", "months"], MONTH),
    **dict.fromkeys(["y", "yr", "yrs", "year", "years"], YEAR),
}
# A number as people write it: a product, hexadecimal, with signs between its thousands, or with a fraction.
AMOUNT = re.compile(
    r"\+?\s*(\d+(?:\s*\*\s*\d+)+|0x[0-9a-f]+|\d{1,3}(?:[,_']\d{3})+(?!\d)|\d{1,3}(?:\.\d{3}){2,}(?!\d)"
    r"|\d+(?:\.\d+)?(?:e\d{1,2}(?!\d))?)(?:\s*([a-z]+)(?![\w=-]))?", re.I)
AGE = re.compile(rf"max[-_ ]?age[{QUOTES}]*\s*[=:]?[\s{QUOTES}]*", re.I)
LONGEST = 15  # digits of a number that is converted
# What was meant by a max-age: its text, its seconds as a text, those of months where `m` may be that, or None, and
# whether it has a unit.
Amount = namedtuple("Amount", "text seconds months has_unit")


# ---- what it says

def changed_quoted(value: str, change: Callable[[str], str]) -> str:
    """The text with `change(quoted)` in the place of each quoted string. A quote that does not close is a sign."""
    end = there(CLOSED.match(value)).end()
    return QUOTED.sub(lambda found: change(found.group()), value[:end]) + value[end:]


@functools.lru_cache(64)
def parts(value: str) -> list[tuple[str, str | None]]:
    """The directives as pairs of a name in lower case and a value, or None where there is no equals sign."""
    found = []
    for text in filter(str.strip, changed_quoted(value, lambda text: text.replace(";", "\0")).split(";")):
        name, sign, own = text.replace("\0", ";").partition("=")
        found.append((name.strip().lower(), own.strip() if sign else None))
    return found


def names(value: str) -> list[str]:
    return [name for name, _ in parts(value)]


def has(value: str, name: str) -> bool:
    return name in names(value)


def raw_age(value: str) -> str | None:
    """The text of max-age; None where there is none."""
    return next((own for name, own in parts(value) if name == "max-age"), None)


def age_of(value: str) -> str | None:
    """The same, without quotes that fit."""
    found = re.fullmatch(r'"((?:[^"\\]|\\.)*)"', raw_age(value) or "")
    return re.sub(r"\\(.)", r"\1", found.group(1)) if found else raw_age(value)


def seconds(value: str) -> int | None:
    text = age_of(value)
    return int(text.lstrip("0")[:LONGEST] or 0) if text and re.fullmatch("[0-9]+", text) else None


def is_ignored(value: str) -> bool:
    own = names(value)
    has_value = any(name == "includesubdomains" and text is not None for name, text in parts(value))
    return FIELD.fullmatch(value) is None or len(set(own)) < len(own) or seconds(value) is None or has_value


# ---- what was meant

def as_unicode(value: str) -> str:
    """The text, where it came as the bytes of UTF-8."""
    try:
        return value.encode("latin-1").decode("utf-8")
    except UnicodeError:
        return value


@functools.lru_cache(64)
def readable(value: str) -> str:
    """The text, without HTML escapes and backslashes."""
    value = as_unicode(value)
    if "&" in value:
        import html  # where there is one
        value = html.unescape(value)
    return value.replace("\\", "")


def number_of(text: str) -> float | int:
    text = re.sub(r"[,_'\s]", "", text)
    if "*" in text:
        return math.prod(map(int, text.split("*")))
    if text[:2].lower() == "0x":
        return int(text, 16)
    return int(text.replace(".", "")) if text.count(".") > 1 or text.isdecimal() else float(text)


def in_seconds(number: str, factor: float) -> str:
    return str(min(math.ceil(number_of(number) * factor), MOST))


def amount_in(text: str) -> Amount | None:
    """The amount at the beginning of a text, or None."""
    found = AMOUNT.match(text)
    if not found:
        return None
    number, unit = found.group(1), (found.group(2) or "").lower()
    factor = UNITS.get(unit)
    shown = found.group().strip() if factor else found.group(1)
    if number.isdecimal() and (len(number) > LONGEST or not factor):
        return Amount(shown, number, None, bool(factor))
    if len(number) > 2 * LONGEST:
        return None
    months = in_seconds(number, MONTH) if unit == "m" else None
    return Amount(shown, in_seconds(number, factor or 1), months, bool(factor))


@functools.lru_cache(64)
def amount_of(value: str) -> Amount | None:
    """That of max-age, or of what is nearly its name; None where there is none."""
    text = readable(value)
    found = AGE.search(text)
    amount = amount_in(text[found.end():]) if found else None
    near = (own for name, own in parts(text)[:64] if own and nearest(name.strip(QUOTES), KNOWN) == "max-age")
    return amount or next(filter(None, (amount_in(own.strip(QUOTES)) for own in near)), None)


def known_name(word: str) -> str | None:
    """The name of a directive that is meant by a word, or None."""
    return "includesubdomains" if word == "subdomains" else nearest(word, KNOWN)


@functools.lru_cache(64)
def more_of(value: str) -> list[str]:
    """The other directives that were meant."""
    words = [word.lower() for word in re.findall(r"[A-Za-z_-]+", readable(value))[:64]]
    meant = set(map(known_name, words))
    return [SPELT[name] for name in KNOWN[1:] if name in meant or any(name in word for word in words)]


def whole(value: str, age: str | None = None) -> str:
    """The whole value as it was meant: with its own max-age, where it has one and none is given, and with the other
    directives that stand in it, which do not count beside max-age=0."""
    amount = amount_of(value)
    text = str(age if age is not None else amount.seconds if amount else YEAR)
    return "; ".join(["max-age=" + text, *(more_of(value) if text.strip("0") else [])])
