"""The recordings that `--many` names: the files of a list, those of a folder, or the lines of a file."""
from __future__ import annotations

import itertools
import os
import zlib
from dataclasses import dataclass
from typing import Any, Iterator, Optional

from fiorrudda.commands import streams
from fiorrudda.recorded import har

ENDINGS = (".har", ".har.gz", ".flow")
LINES = (".jsonl", ".jsonl.gz")
CUT = "the gzip file is cut: copy it again"
BROKEN = "the gzip file is broken here: copy it again"
LONG = "the line has more than 1 GiB"


class NoList(Exception):
    """Why a file or folder names no recordings, in a sentence."""


class NoBytes(Exception):
    """Why a recording has no bytes, in a sentence."""


@dataclass
class Listed:
    """One of many recordings: its name, and where its bytes are: in a file, or in a line of one, which is read
    already. `problem` says why that line could not be."""

    name: str
    path: str = ""
    data: Optional[bytes] = None
    problem: str = ""

    def read(self) -> bytes:
        """Its bytes; raises NoBytes."""
        if self.problem:
            raise NoBytes(self.problem)
        if self.data is not None:
            return self.data
        try:
            with open(self.path, "rb") as file:
                return file.read()
        except (OSError, ValueError) as error:  # such as a name with a zero byte
            raise NoBytes(getattr(error, "strerror", None) or str(error)) from None


def all_of(path: str) -> Iterator[Listed]:
    """The recordings that a word names, in their order; raises NoList and OSError."""
    if path.endswith(LINES):
        return lines_of(path)
    if os.path.isdir(path):
        names = sorted(name for name in os.listdir(path) if name.endswith(ENDINGS))
        paths = [os.path.join(path, name) for name in names]
        wrong = "has no file whose name ends with .har, .har.gz or .flow"
    elif path.endswith(ENDINGS):
        raise NoList("is the name of a recording, and a list or a folder belongs there: leave --many out")
    else:
        paths = [os.fsdecode(line.rstrip(b"\r")) for line in streams.read(path).split(b"\n") if line.strip()]
        wrong = "names no recording"
    if not paths:
        raise NoList(wrong)
    return (Listed(named(one), one) for one in paths)


def named(path: str) -> str:
    """A path as JSON can have it."""
    return streams.HALF.sub("\ufffd", path)


def lines_of(path: str) -> Iterator[Listed]:
    """Each line of a file that is not blank, packed or not."""
    from gzip import GzipFile  # most calls do without
    file = open(path, "rb")
    return listed_lines(path, GzipFile(fileobj=file) if file.peek(2).startswith(har.GZIP) else file)


def listed_lines(path: str, file: Any) -> Iterator[Listed]:
    for number in itertools.count(1):
        name = f"{named(path)}:{number}"
        try:
            line = file.readline(har.LARGEST)
            is_long = len(line) == har.LARGEST and not line.endswith(b"\n")
            while is_long and not (left := file.readline(har.SMALL)).endswith(b"\n") and left:
                pass
        except (EOFError, OSError, zlib.error) as error:
            cause = CUT if isinstance(error, EOFError) else getattr(error, "strerror", None) or BROKEN
            yield Listed(name, problem=cause)
            return
        if not line:
            return
        if line.strip():
            yield Listed(name, problem=LONG) if is_long else Listed(name, data=line)
