"""The file of `--out`: its first line says by which words it was made, and each other one is that of a recording. A
run that was stopped goes on behind its whole lines."""
from __future__ import annotations

import errno
import fcntl
import json
import os
import stat
from typing import Any, BinaryIO, Iterator

from fiorrudda.recorded.listed import Listed

MARK = "bin/har --many"
ANOTHERS = "is there, and --out did not write it: name another file, or remove it"
BUSY = "another run writes it"
LINK = "is a symbolic link: name the file itself"
LONGEST = 1 << 24  # bytes of a first line


class NotKept(Exception):
    """Why a file cannot be gone on with, in a sentence."""


def first_line(changes: list[str]) -> bytes:
    return (json.dumps({"made_by": MARK, "changes": changes}) + "\n").encode("ascii")


def opened(path: str, changes: list[str]) -> BinaryIO:
    """The file, behind its first line, which is written where it is not there; raises NotKept and OSError."""
    try:
        number = os.open(path, os.O_RDWR | os.O_CREAT | os.O_NOFOLLOW | os.O_CLOEXEC, 0o600)
    except OSError as error:
        raise NotKept(LINK if error.errno == errno.ELOOP else error.strerror) from None
    file = os.fdopen(number, "r+b")
    if not stat.S_ISREG(os.fstat(number).st_mode):
        raise NotKept(ANOTHERS)
    try:
        fcntl.lockf(number, fcntl.LOCK_EX | fcntl.LOCK_NB)
    except OSError:
        raise NotKept(BUSY) from None
    wanted, there = first_line(changes), file.readline(LONGEST)
    if not there.endswith(b"\n") and wanted.startswith(there):  # it is new, or was stopped at once
        file.seek(0)
        file.write(wanted)
        file.flush()
    elif there != wanted:
        raise NotKept(of_another(there, changes))
    return file


def of_another(line: bytes, changes: list[str]) -> str:
    """Why a file with this first line is not gone on with."""
    made = read(line)
    if made.get("made_by") != MARK:
        return ANOTHERS
    return f"it was made with {words(made.get('changes'))}, and here are {words(changes)}: name another file"


def words(changes: Any) -> str:
    return ", ".join(map(str, changes)) if isinstance(changes, list) and changes else "no changes"


def read(line: bytes) -> dict[str, Any]:
    """A line as data; an empty object of one that is none."""
    try:
        data = json.loads(line)
    except (ValueError, RecursionError):
        return {}
    return data if isinstance(data, dict) else {}


def kept(file: BinaryIO, things: Iterator[Listed]) -> Iterator[dict[str, Any]]:
    """The whole lines of a file as data. They are those of the first things that are listed, which are taken; what
    stands behind the last whole line goes. Raises NotKept."""
    end = file.tell()
    for number, line in enumerate(file, 2):
        if not line.endswith(b"\n"):
            break
        data, thing = read(line), next(things, None)
        if "status" not in data:
            raise NotKept(f"its line {number} is none of a recording: cut the file before it, or name another file")
        if thing is None or data.get("name") != thing.name:
            listed = f"{thing.name} is" if thing else "no more are"
            raise NotKept(f"its line {number} is of {data.get('name')}, where {listed} named: name another file")
        end += len(line)
        yield data
    file.seek(end)
    file.truncate()


def write(file: BinaryIO, line: bytes) -> None:
    file.write(line)
    file.flush()
