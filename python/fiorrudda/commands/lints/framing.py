"""Lints of what says where a body ends."""
from __future__ import annotations

from typing import TYPE_CHECKING

from fiorrudda.commands.lints.entry import ANSWER, Lint

if TYPE_CHECKING:
    from fiorrudda.commands.lints.reading import Field
    from fiorrudda.commands.shapes import Found

LENGTH, CODING = "Content-Length", "Transfer-Encoding"


def beside_chunks(field: Field) -> bool:
    """A length beside Transfer-Encoding."""
    return field.is_first and bool(field.headers.values(CODING))


def lengths(field: Field) -> Found:
    """Lengths that differ, where they say where the body ends."""
    words = [word.strip() for word in (field.headers.get(LENGTH) or "").split(",")]
    differ = len(dict.fromkeys(words)) > 1 and not field.headers.values(CODING)
    return field.is_first and differ and " and ".join(dict.fromkeys(words))


TABLE = [
    Lint("framing/length-beside-chunks", LENGTH, beside_chunks,
         "it stands beside Transfer-Encoding: browsers and this engine go by the chunks, and a proxy that goes by the "
         "length reads what is behind it as another answer (request smuggling, RFC 9112, section 6.3)",
         "take it out, where the body comes in chunks", (ANSWER,)),
    Lint("framing/lengths-differ", LENGTH, lengths,
         "there are several, {meant}, and both browsers make that a network error (RFC 9112, section 6.3)",
         "send the right one alone", (ANSWER,)),
]
