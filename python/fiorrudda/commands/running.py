"""Runs fetchplay: the play of a scenario, or the place where it is refused."""
from __future__ import annotations

import os
import re
import subprocess
import sys
import threading
from typing import TYPE_CHECKING

from fiorrudda.names import STATUSES
from fiorrudda.places import ROOT

if TYPE_CHECKING:
    from typing import IO

REFUSED = re.compile(r"^fetchplay: scenario refused at (.*)$", re.M)
# What bin/proved says before it proves and builds, and where that failed.
BUILDS = b": proving and building the program, "
UNBUILT = re.compile(r"^bin/fetchplay: the program was not built; the end of (.*):$", re.M)


class Failed(Exception):
    """Why there is no play, in a sentence."""


class Refused(Exception):
    """The place at which the program refuses the scenario."""

    def __init__(self, place: str) -> None:
        super().__init__(place)
        self.place = place


def program() -> str:
    return os.environ.get("FETCHPLAY", os.path.join(ROOT, "bin", "fetchplay"))


def played(scenario: bytes, word: str = "play") -> str:
    """The text of the play of a scenario's bytes, a character for each byte."""
    try:
        status, text, complaints = ran(scenario, word)
    except OSError as error:
        raise Failed(f"{program()}: {error.strerror}") from error
    complaint = complaints.decode("utf-8", "replace")
    refused = REFUSED.search(complaint)
    if status == STATUSES["Refused"] and refused:
        raise Refused(refused.group(1))
    unbuilt = UNBUILT.search(complaint)
    if status == 125 and unbuilt:
        raise Failed(f"{program()} was not built, as the end of {unbuilt.group(1)} tells; FETCHPLAY names another "
                     "program, such as bin/try")
    if status != STATUSES["Ok"]:
        last = (complaint.strip().splitlines() or ["it said nothing"])[-1]
        raise Failed(f"{program()} ended with the status {status}: {last}")
    return text.decode("latin-1")


def ran(scenario: bytes, word: str) -> tuple[int, bytes, bytes]:
    """The program's status, what it printed, and its complaints. That it builds first, for minutes, is told at once."""
    pipe = subprocess.PIPE
    with subprocess.Popen([program(), word], stdin=pipe, stdout=pipe, stderr=pipe) as process:
        heard: list[bytes] = []
        complaints, process.stderr = process.stderr, None
        listener = threading.Thread(target=listen, args=(complaints, heard))
        listener.start()
        text, _ = process.communicate(scenario)
        listener.join()
        return process.returncode, text, b"".join(heard)


def listen(complaints: IO[bytes], heard: list[bytes]) -> None:
    with complaints:
        for line in complaints:
            heard.append(line)
            if BUILDS in line:
                tell(line)


def tell(line: bytes) -> None:
    try:
        sys.stderr.buffer.write(line)
        sys.stderr.flush()
    except OSError:
        pass
