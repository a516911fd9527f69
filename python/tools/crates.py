"""The crates, as bin/crates reads them of crates.txt."""
from __future__ import annotations

import os
import subprocess
from typing import Iterable, NamedTuple

from fiorrudda.places import ROOT


class Crate(NamedTuple):
    """A crate with its line in crates.txt, its floor, what it is (`crate` or `staticlib`), and what it stands on."""

    line: int
    floor: str
    name: str
    kind: str
    below: list[str]


def said(*words: str) -> str:
    listing = [os.path.join(ROOT, "bin", "crates"), *words]
    return subprocess.run(listing, check=True, stdout=subprocess.PIPE, text=True).stdout


def known() -> list[Crate]:
    """All of them, in the order of the file."""
    rows = [row.split() for row in said().splitlines()]
    return [Crate(int(line), floor, name, kind, lower) for line, floor, name, kind, *lower in rows]


def below(crates: Iterable[str]) -> str:
    """The lines of crates and of all that they stand on, lowest first."""
    return said("below", *crates)


def names(lines: str) -> list[str]:
    """The names of the crates of such lines."""
    return [line.partition(":")[0].split()[0] for line in lines.splitlines()]
