"""Lints of the status of an answer."""
from __future__ import annotations

from typing import TYPE_CHECKING

from fiorrudda.commands.lints.entry import ANSWER, Lint
from fiorrudda.commands.lints.reading import NOT_MODIFIED

if TYPE_CHECKING:
    from fiorrudda.commands.lints.reading import Status
    from fiorrudda.commands.shapes import Found

CONDITIONS = {"if-none-match", "if-modified-since"}


def unasked(status: Status) -> Found:
    """A 304 to a request that has no copy (RFC 9110, section 15.4.5)."""
    plain = [ask.method for ask in status.asks if not CONDITIONS & set(ask.names)]
    return status.value == NOT_MODIFIED and bool(plain) and plain[0]


TABLE = [
    Lint("status/not-modified-unasked", "a status", unasked,
         "304 answers a request with If-None-Match or If-Modified-Since, and this {meant} has neither: the page has no "
         "copy of the answer, and gets a 304 with an empty body", "send the whole answer with 200", (ANSWER,)),
]
