"""The versions that docs/CHANGES.md tells of, and debian/changelog, which tells the same."""
from __future__ import annotations

import pathlib
import re
import sys
import textwrap
import time

from fiorrudda.places import ROOT

TOP = pathlib.Path(ROOT)
CHANGELOG = TOP / "debian/changelog"
MAINTAINER = "Fiorrudda maintainers <maintainers@users.noreply.fiorrudda.example>"
ENTRY = re.compile(r"## (\d+\.\d+\.\d+) \((\d{4}-\d\d-\d\d)\)\n(.*?)(?=^## |\Z)", re.M | re.S)


class Refusal(Exception):
    """Why there is no package, in a sentence."""


def entries() -> list[tuple[str, str, str]]:
    """The versions, the newest first, which VERSION names: each with its day and its text."""
    version = (TOP / "VERSION").read_text("ascii").strip()
    found = ENTRY.findall((TOP / "docs/CHANGES.md").read_text("utf-8"))
    if not found or found[0][0] != version:
        raise Refusal(f"docs/CHANGES.md must begin with what is new in {version}, which VERSION names")
    return found


def point(text: str) -> str:
    """One thing that is new, in lines as Debian has them."""
    return textwrap.fill(" ".join(text.split()), 79, initial_indent="  * ", subsequent_indent="    ",
                         break_on_hyphens=False)


def changelog() -> str:
    """The changes as Debian's changelog has them: of one day, each an hour after the one before it."""
    told, listed = [], entries()
    for place, (version, day, text) in enumerate(listed):
        hour = sum(earlier == day for _, earlier, _ in listed[place + 1:])
        points = "\n".join(map(point, re.split(r"^- ", text, flags=re.M)[1:]))
        date = time.strftime("%a, %d %b %Y %H:00:00 +0000", time.strptime(f"{day} {hour}", "%Y-%m-%d %H"))
        told.append(f"fiorrudda ({version}) unstable; urgency=medium\n\n{points}\n\n -- {MAINTAINER}  {date}\n")
    return "\n".join(told)


def main() -> None:
    """Writes debian/changelog, as bin/package does in its copy."""
    try:
        CHANGELOG.write_text(changelog(), "utf-8")
    except Refusal as refusal:
        sys.exit(f"package/changelog: {refusal}")
