"""Lints of Strict-Transport-Security."""
from __future__ import annotations

import functools
import json
import re
from collections import namedtuple
from typing import TYPE_CHECKING

from fiorrudda.commands.lints.entry import ANSWER, DOCUMENT, Lint, nearest
from fiorrudda.commands.lints.hsts_values import (FIELD, KNOWN, MONTH, QUOTED, QUOTES, SPELT, YEAR, age_of, amount_in,
                                                  amount_of, as_unicode, changed_quoted, has, is_ignored, known_name,
                                                  names, parts, raw_age, seconds, whole)
from fiorrudda.commands.lints.reading import is_address

if TYPE_CHECKING:
    from collections.abc import Callable

    from fiorrudda.commands.lints.reading import Field
    from fiorrudda.commands.shapes import Found

HEADER = "Strict-Transport-Security"
LATE = 9999999999  # a second of the year 2286
TYPOGRAPHIC = "[" + QUOTES.strip("\"'`") + "]"
# The text of a value, and the whole value as it was meant; and what else is said of some.
Meant = namedtuple("Meant", "text whole other", defaults=[""])


# ---- why a value is ignored

def html_escape(value: str) -> Found:
    found = re.search(r"&(?:quot|apos|amp|#\w+);?", value, re.I)
    return found and Meant(found.group(), whole(value))


def in_quotes(value: str) -> Found:
    text = as_unicode(value)
    inner = text[1:-1]
    is_quoted = len(text) > 1 and text[0] in QUOTES and text[-1] in QUOTES and not re.search(f"[{QUOTES}]", inner)
    return is_quoted and whole(value)


def typographic_quotes(value: str) -> Found:
    return re.search(TYPOGRAPHIC, as_unicode(value)) and whole(value)


def backslashes(value: str) -> Found:
    return FIELD.fullmatch(value) is None and re.search(r"\\[\"'`]", value) and whole(value)


def with_colon(value: str) -> Found:
    return re.search(r"max-age\s*:", value, re.I) and whole(value)


def with_comma(value: str) -> Found:
    return "," in changed_quoted(value, lambda text: "") and whole(value)


def age_misspelt(value: str) -> Found:
    """A directive that is nearly max-age, or max-age without its equals sign."""
    near = [] if has(value, "max-age") else [name for name in names(value)[:64] if nearest(name, KNOWN) == "max-age"]
    is_other = bool(near) and not re.search(f"[{QUOTES}]", near[0])
    return is_other and Meant(near[0], whole(value))


def no_age(value: str) -> Found:
    return FIELD.fullmatch(value) is not None and not has(value, "max-age") and whole(value)


def twice(value: str) -> Found:
    """A name that stands twice; of max-age with different numbers both are named."""
    own = names(value) if FIELD.fullmatch(value) else []
    name = next((name for index, name in enumerate(own[:64]) if name in own[:index]), None)
    if name is None:
        return None
    ages = [amount_in((text or "").strip(QUOTES)) for one, text in parts(value)[:64] if one == "max-age"]
    different = dict.fromkeys(age.seconds for age in ages if age)
    wholes = [whole(value, age) for age in different] or [whole(value)]
    return Meant(SPELT.get(name, name), wholes[0], f", or `{wholes[1]}`, as it is meant" if len(wholes) > 1 else "")


def empty_age(value: str) -> Found:
    return has(value, "max-age") and not (age_of(value) or "").strip(QUOTES) and whole(value)


def negative_age(value: str) -> bool:
    return re.fullmatch(r"-\d+", age_of(value) or "") is not None


def with_unit(value: str) -> Found:
    amount = amount_of(value)
    if not (amount and amount.has_unit and has(value, "max-age")):
        return None
    other = f" for minutes, or `{whole(value, amount.months)}` for months of {MONTH // 86400} days"
    return Meant(amount.text, whole(value), other if amount.months else "")


def blank_between(value: str) -> Found:
    """What stands behind max-age with blanks between, or a known name that stands at once behind its quotes."""
    found = re.match(r'"?[0-9]+"?([ \t]*)([A-Za-z].*)', raw_age(value) or "")
    text = found and found.group(2).strip(QUOTES)
    is_other = found and (found.group(1) or (found.group()[0] == '"' and nearest(text, KNOWN)))
    return is_other and Meant(text, whole(value))


def quoted_age(value: str) -> Found:
    """Quotes that are none of the grammar, around the name or the number."""
    text = raw_age(value)
    around = text is not None and not QUOTED.fullmatch(text) and re.search(f"[{QUOTES}]", text)
    return (around or re.search(r"[\"'`]max-age|max-age[\"'`]", value, re.I)) and whole(value)


def subdomains_value(value: str) -> Found:
    return any(name == "includesubdomains" and text is not None for name, text in parts(value)) and whole(value)


def no_number(value: str) -> Found:
    return has(value, "max-age") and seconds(value) is None and Meant(age_of(value), whole(value))


# The name of the lint, what is found, why the header is ignored, and what to write: the first that holds is said.
WRITE = "write `{meant}`"
Reason = namedtuple("Reason", "name find wrong fix", defaults=[WRITE])
REASONS = [
    Reason("hsts/html-escape", html_escape, "`{meant.text}` in it is an escape of HTML, which headers have not",
           "write `{meant.whole}`"),
    Reason("hsts/value-in-quotes", in_quotes, "its whole value is in quotes"),
    Reason("hsts/typographic-quotes", typographic_quotes, "typographic quotes stand in it"),
    Reason("hsts/backslashes", backslashes, "backslashes stand before its quotes"),
    Reason("hsts/colon", with_colon, "a colon stands behind max-age"),
    Reason("hsts/comma", with_comma, "a comma stands in it",
           "write semicolons between directives and digits alone, as `{meant}`"),
    Reason("hsts/max-age-misspelt", age_misspelt, "`{meant.text}` is no max-age", "write `{meant.whole}`"),
    Reason("hsts/max-age-missing", no_age, "it has no max-age"),
    Reason("hsts/directive-twice", twice, "`{meant.text}` stands twice in it, and so nothing of it counts",
           "write `{meant.whole}`{meant.other}"),
    Reason("hsts/max-age-empty", empty_age, "its max-age has no value"),
    Reason("hsts/max-age-negative", negative_age, "its max-age is negative",
           "write `max-age=0`, by which the host is forgotten"),
    Reason("hsts/max-age-unit", with_unit, "`{meant.text}` has a unit, and max-age is a number of seconds without one",
           "write `{meant.whole}`{meant.other}"),
    Reason("hsts/semicolon-missing", blank_between, "no semicolon stands before `{meant.text}`",
           "write `{meant.whole}`"),
    Reason("hsts/max-age-quotes", quoted_age, "the quotes of max-age are none that fit"),
    Reason("hsts/subdomains-value", subdomains_value, "includeSubDomains has a value"),
    Reason("hsts/max-age-no-number", no_number, "`{meant.text}` is no number of seconds",
           "write digits alone, as `{meant.whole}`"),
    Reason("hsts/no-field", whole, "`{it.value}` does not fit its grammar"),
]


@functools.lru_cache(64)
def reason_of(value: str) -> tuple[str, Found] | None:
    """The name of a reason why browsers ignore a value, and what it found; None where they do not."""
    found = ((one.name, one.find(value)) for one in REASONS) if is_ignored(value) else ()
    return next((one for one in found if one[1]), None)


def said_as(name: str) -> Callable[[Field], Found]:
    """What is found of the first field, where this is the reason why it is ignored."""
    def find(field: Field) -> Found:
        own = reason_of(field.value) if field.is_first else None
        return own[1] if own and own[0] == name else None
    return find


# ---- what else is found

def counts(field: Field) -> bool:
    """Whether it is the field that browsers look at, and they do not ignore its value."""
    return field.is_first and not is_ignored(field.value)


def sent_twice(field: Field) -> Found:
    """The values as they are meant, each once: which of them is to stay is not known, where they differ."""
    if field.count == 1 or not field.is_last:
        return None
    first, *others = dict.fromkeys(whole(value.strip(" \t")) for value in field.headers.values(field.name)[:64])
    return Meant("", first, f", or `{'` or `'.join(others[:2])}`, as it is meant" if others else "")


def is_local(host: str) -> bool:
    """Whether it is a name of localhost, none of which is upgraded (Fetch, "main fetch")."""
    return host.rstrip(".") == "localhost" or host.rstrip(".").endswith(".localhost")


def over_http(field: Field) -> bool:
    host = field.headers.host
    return field.is_first and field.headers.scheme == "http" and not is_address(host) and not is_local(host)


def of_address(field: Field) -> Found:
    return field.is_first and is_address(field.headers.host) and field.headers.host


def of_localhost(field: Field) -> Found:
    return field.is_first and is_local(field.headers.host) and field.headers.host


def unknown_part(field: Field) -> Found:
    """A directive that is nearly a known one, which is not there."""
    own = names(field.value)
    for name in own[:64] if counts(field) and seconds(field.value) else []:
        meant = known_name(name) if name not in KNOWN and re.fullmatch("[a-z_-]+", name) else None
        if meant and meant not in own:
            return Meant(SPELT[meant], whole(field.value))
    return None


def preloaded(age: str | int) -> str:
    """The whole value as the list of preloaded hosts takes it."""
    return f"max-age={age}; includeSubDomains; preload"


def to_preload(field: Field) -> str:
    """The value as it is meant, where it is to be preloaded; else an empty text."""
    value = whole(field.value) if is_ignored(field.value) else field.value
    return value if field.is_first and has(value, "preload") else ""


def preload_alone(field: Field) -> Found:
    value = to_preload(field)
    is_alone = value and (seconds(value) or 0) >= YEAR and not has(value, "includesubdomains")
    return preloaded(age_of(value) or "") if is_alone else None


def preload_short(field: Field) -> Found:
    value = to_preload(field)
    other = "" if has(value, "includesubdomains") else ", nor without includeSubDomains"
    return Meant("", preloaded(YEAR), other) if value and 0 < (seconds(value) or 0) < YEAR else None


def zero_with_more(field: Field) -> bool:
    is_more = has(field.value, "preload") or has(field.value, "includesubdomains")
    return counts(field) and seconds(field.value) == 0 and is_more


def misspelt(field: Field) -> bool:
    is_other = field.name != HEADER.lower()
    return is_other and (field.name == "hsts" or nearest(field.name, (HEADER,)) is not None)


def on_page(field: Field) -> Found:
    """The host as a scenario names one that is known, where a browser notes it by this field, and the scenario does
    not name it yet."""
    host, is_wide = field.headers.host, has(field.value, "includesubdomains")
    is_noted = field.name == HEADER.lower() and counts(field) and (seconds(field.value) or 0) > 0
    if not is_noted or field.headers.scheme != "https" or is_address(host) or is_local(host):
        return None
    if any(known == host and wide >= is_wide for known, wide in field.headers.known):
        return None
    return json.dumps({"host": host, "subdomains": is_wide, "until": LATE})


IGNORED = "the header is ignored: "
# In the order in which one does what they say: first https itself, then max-age, includeSubDomains, and last preload.
TABLE = [
    Lint("hsts/over-http", HEADER, over_http, "the header is ignored over http",
         "send it with answers over https, where http redirects to"),
    Lint("hsts/on-an-address", HEADER, of_address,
         IGNORED + "{meant} is an IP address, and none is ever a known host", "ask by a domain; or leave it out"),
    Lint("hsts/on-localhost", HEADER, of_localhost,
         IGNORED + "{meant} is this machine, and no name of localhost is ever a known host",
         "ask by another domain; or leave it out", is_note=True),
    *(Lint(one.name, HEADER, said_as(one.name), IGNORED + one.wrong, one.fix) for one in REASONS),
    Lint("hsts/sent-twice", HEADER, sent_twice, "the header stands twice, and the first one alone counts",
         "send one: `{meant.whole}`{meant.other}"),
    Lint("hsts/zero-with-more", HEADER, zero_with_more,
         "with max-age=0 a browser forgets the host, and nothing else in the header counts",
         "write `max-age=0` alone; or a longer time"),
    Lint("hsts/unknown-directive", HEADER, unknown_part, "a directive is skipped, which is nearly `{meant.text}`",
         "write `{meant.whole}`"),
    Lint("hsts/preload-without-subdomains", HEADER, preload_alone,
         "the list of preloaded hosts takes none without includeSubDomains",
         "take `preload` out until all below the host is served over https; then write `{meant}`"),
    Lint("hsts/preload-short", HEADER, preload_short,
         "the list of preloaded hosts takes none with a max-age under a year{meant.other}",
         "take `preload` out: first all below the host is served over https, then comes includeSubDomains, then a "
         "longer max-age, and last write `{meant.whole}`, or a longer time"),
    Lint("hsts/header-misspelt", "a header's name", misspelt, "`{it.header}` is no header that a browser reads",
         "write `Strict-Transport-Security`", (ANSWER,)),
    Lint("hsts/on-the-page", "a header's name", on_page, "a play does not read `{it.header}` of a page",
         "name its host in the scenario's `hsts`, which holds for all documents from the beginning: `{meant}`",
         (DOCUMENT,), is_note=True),
]
