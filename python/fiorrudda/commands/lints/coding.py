"""Lints of the coding of a body."""
from __future__ import annotations

from typing import TYPE_CHECKING

from fiorrudda.commands.codings import BROWSERS
from fiorrudda.commands.lints.entry import ANSWER, Lint
from fiorrudda.commands.needs import KEPT_METHODS, merged

if TYPE_CHECKING:
    from fiorrudda.commands.lints.reading import Field
    from fiorrudda.commands.shapes import Found

CODING, ASKED = "Content-Encoding", "Accept-Encoding"
UNSHARED = {"no-store", "private"}  # of Cache-Control: what no shared cache keeps


def vary_missing(field: Field) -> Found:
    """The Vary by which caches keep a coded answer for requests that name its coding (RFC 9110, section 12.5.5)."""
    headers = field.headers
    is_coded = any(coding in BROWSERS for coding in headers.listed(CODING))
    is_kept = any(ask.method in KEPT_METHODS for ask in headers.asks) and not UNSHARED & set(
        headers.listed("Cache-Control"))
    varies = {ASKED.lower(), "*"} & set(headers.listed("Vary"))
    return field.is_first and is_coded and is_kept and not varies and merged(headers.get("Vary"), [ASKED], True)


TABLE = [
    Lint("coding/vary-missing", CODING, vary_missing,
         "Vary does not have Accept-Encoding, so a cache gives this coded answer also to those who ask for none",
         "send `Vary: {meant}` with every answer of this URL, unless all of them are coded", (ANSWER,)),
]
