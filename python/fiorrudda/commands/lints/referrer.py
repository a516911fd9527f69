"""Lints of Referrer-Policy."""
from __future__ import annotations

import re
from typing import TYPE_CHECKING

from fiorrudda import names
from fiorrudda.commands.lints.entry import Lint, nearest, write

if TYPE_CHECKING:
    from fiorrudda.commands.lints.reading import Field
    from fiorrudda.commands.shapes import Found

HEADER = "Referrer-Policy"
FIRST = ("no-referrer", "no-referrer-when-downgrade", "origin", "origin-when-cross-origin", "unsafe-url")
# Words that came later: an older word before them serves browsers that do not know them.
LATER = tuple(name for name in names.REFERRER_POLICIES if name and name not in FIRST)
KNOWN = FIRST + LATER
OLD = {"never": "no-referrer", "always": "unsafe-url", "default": "no-referrer-when-downgrade",
       "origin-when-crossorigin": "origin-when-cross-origin"}
QUOTES = "\"'`\u2018\u2019\u201c\u201d"


def words(field: Field) -> list[str]:
    return [item.lower() for item in field.items]


def is_heard(field: Field) -> bool:
    """Whether a word of the header is known."""
    return any(word in KNOWN for word in words(field))


def in_quotes(field: Field) -> Found:
    found = next((item for item in field.items if item[0] in QUOTES or item[-1] in QUOTES), None)
    return found and (found.strip(QUOTES) or "no-referrer")


def old_word(field: Field) -> Found:
    return next((OLD[word] for word in words(field) if word in OLD), None)


def other_sign(field: Field) -> Found:
    """Several words with other signs than commas between them."""
    found = next((item for item in words(field) if re.search(r"[\s;|]", item.strip(QUOTES))), None)
    parts = re.split(r"[\s;|]+", found.strip("; ")) if found else []
    return found and not is_spaced(found) and ", ".join(parts)


def is_spaced(word: str) -> bool:
    """Whether it is a policy with blanks in the place of its dashes."""
    return " " in word and "-".join(word.split()) in KNOWN


def unknown_word(field: Field) -> Found:
    """A word that is none; of a list in which others are known one that is surely meant for another."""
    for word in words(field):
        if word not in KNOWN and word not in OLD and (re.fullmatch("[a-z_-]+", word) or is_spaced(word)):
            meant = nearest(word, KNOWN)
            if meant or not is_heard(field):
                return write(meant, "write one of the eight policies, such as `strict-origin-when-cross-origin`")
    return None


def nothing_known(field: Field) -> bool:
    return not is_heard(field)


def last_decides(field: Field) -> Found:
    """The last word of a list, where the words before it serve no browser that does not know it."""
    known = list(dict.fromkeys(word for word in words(field) if word in KNOWN))
    is_fallback = known and known[-1] in LATER and all(word in FIRST for word in known[:-1])
    return len(known) > 1 and not is_fallback and known[-1]


def misspelt(field: Field) -> bool:
    """`Referer-Policy` above all: the header of requests is spelt so."""
    return field.name != HEADER.lower() and nearest(field.name, (HEADER,)) is not None


TABLE = [
    Lint("referrer/quotes", HEADER, in_quotes, "the policy is in quotes, and no browser knows it so",
         "write `{meant}`"),
    Lint("referrer/without-commas", HEADER, other_sign,
         "`{it.value}` is no policy: commas stand between the words of a list", "write `{meant}`, or one of them"),
    Lint("referrer/old-word", HEADER, old_word, "`{it.value}` has a word of a draft, which browsers do not know here",
         "write `{meant}`"),
    Lint("referrer/unknown-word", HEADER, unknown_word, "`{it.value}` has a word that is no policy, and is skipped",
         "{meant}"),
    Lint("referrer/nothing-known", HEADER, nothing_known, "`{it.value}` has no policy in it, so the default counts",
         "write one, such as `strict-origin-when-cross-origin`", is_last=True),
    Lint("referrer/last-decides", HEADER, last_decides,
         "of `{it.value}` the last known word counts, which is `{meant}`",
         "write that alone; or the one that is meant last"),
    Lint("referrer/header-misspelt", "a header's name", misspelt, "`{it.header}` is no header that a browser reads",
         "write `Referrer-Policy`"),
]
