"""Recordings of what browsers asked for: `read` makes one of a HAR's bytes, and `judge` says what came of its
requests, and what changes would change. `judge` is a pure function: it may be mapped over many, in any order and on
any machine. `line_of` is both in short, of a name and bytes, and has what is wrong with these in what it returns."""
from fiorrudda.recorded.har import read
from fiorrudda.recorded.judging import judge
from fiorrudda.recorded.lines import line_of

__all__ = ["judge", "line_of", "read"]
