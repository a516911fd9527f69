"""The results as a test names them."""
from __future__ import annotations

import re
from typing import TYPE_CHECKING

from fiorrudda import names

if TYPE_CHECKING:
    from fiorrudda.commands.play_text import Result

NETWORK_ERRORS = list(names.NETWORK_ERRORS)  # by their numbers, from 1
FAULTS = list(names.REQUEST_FAULTS)
TYPES = names.RESPONSE_TYPES + ["loaded", "failed", "type-error"]
ALONE = ("read", "cut", "two-lengths", "refused", "no-verdict")  # what a test says in one word
WORDS = [*ALONE] + TYPES + NETWORK_ERRORS + FAULTS


def negated(wanted: str) -> tuple[bool, str]:
    """Whether a wanted result is any but the one that follows, and that one."""
    words = wanted.split()
    is_negated = words[:1] == ["not"] and len(words) > 1
    return is_negated, " ".join(words[is_negated:])


def is_met(wanted: str, result: Result) -> bool:
    """Whether a result is what a test wants of it."""
    if wanted in ("read", "cut", "two-lengths"):
        return is_let_in(result) and wanted == how_read(result)
    if wanted == "refused":
        return result.is_refused() and not has_no_verdict(result)
    if wanted == "no-verdict":
        return has_no_verdict(result)
    got = result.short().split()
    if result.is_refused() and result.type == "failed":
        got = ["failed"] + got
    words = wanted.split()
    return any(got[start:start + len(words)] == words for start in range(len(got) - len(words) + 1))


def is_let_in(result: Result) -> bool:
    """Whether nothing keeps the answer from the page, be it whole or not."""
    return result.type in ("basic", "cors", "loaded")


def how_read(result: Result) -> str:
    """How a page reads an answer that is let in, in a browser: one whose lengths differ is a network error there, and
    so is a body that is cut where it ends. One that is longer than is read here is read."""
    if getattr(result, "verdict", None) == "refused":  # for nothing else, where it is let in
        return "two-lengths"
    return "cut" if result.ending in ("cut", "fault") else "read"


def has_no_verdict(result: Result) -> bool:
    """Whether a browser would go on where this engine ends: told.py says so of the result."""
    return getattr(result, "verdict", None) == "none"


def unknown_word(wanted: str) -> str | None:
    """The first word of a result that no result has, or None."""
    words = wanted.split()
    free = len(words) > 1 and words[-2] in ("PreflightHeader", "BadHeader")
    for word in words[:-1] if free else words:
        if word not in WORDS and not re.fullmatch(r"\d{1,3}", word):
            return word
    return None
