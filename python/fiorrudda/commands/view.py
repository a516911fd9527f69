"""Plays a scenario, and writes one HTML page that draws the play.

    bin/view [SCENARIO] [-o FILE] [--open]     plays it by `bin/fetchplay play`, or by the program that FETCHPLAY names
    bin/view --text PLAY [-o FILE] [--open]    draws a text that was printed before, by fetchplay or by bin/why

Without a SCENARIO it is read from standard input. The page is play.html where no FILE is named. Where the scenario is
refused, the complaint and the status are those of fetchplay, and nothing is written.

The page has the parts of view/ in it, and asks for nothing more. Its policy lets only these run, each by its hash. The
play is in a block of data, as JSON in which `<`, `>` and `&` are escaped, so nothing in it ends the block."""
from __future__ import annotations

import argparse
import os
import subprocess
import sys
import urllib.parse
import webbrowser

from fiorrudda.places import ROOT, called
from fiorrudda.view import page as pages, telling

SELF = called("view")


def told(error: OSError) -> str:
    return f"{SELF}: {error.filename}: {error.strerror}"


def play(scenario: str | None) -> str:
    """The text of the play, and what bin/why says of it; ends with the status of the program where that is not 0."""
    program = os.environ.get("FETCHPLAY", os.path.join(ROOT, "bin", "fetchplay"))
    try:
        with open(scenario, "rb") if scenario else sys.stdin.buffer as given:
            data = given.read()
        ran = subprocess.run([program, "play"], input=data, stdout=subprocess.PIPE)
    except OSError as error:
        sys.exit(told(error))
    if ran.returncode != 0:
        sys.exit(ran.returncode)
    return telling.told_text(data, ran.stdout.decode("latin-1"))


def printed(path: str) -> bytes:
    try:
        with open(path, "rb") as file:
            return file.read()
    except OSError as error:
        sys.exit(told(error))


def docs_from(page: str) -> str:
    """docs/ as seen from the folder of the page."""
    path = os.path.relpath(os.path.join(ROOT, "docs"), os.path.dirname(os.path.realpath(page)))
    return f"./{urllib.parse.quote(path)}/"


def main() -> None:
    words = argparse.ArgumentParser(prog=SELF, description="draws a play as a sequence diagram, in one HTML page")
    words.add_argument("scenario", nargs="?", metavar="SCENARIO", help="standard input where it is left out")
    words.add_argument("--text", metavar="PLAY", help="a play that was printed before")
    words.add_argument("-o", dest="page", metavar="FILE", default="play.html", help="the page (play.html)")
    words.add_argument("--open", action="store_true", help="open the page in a browser")
    given = words.parse_args()
    if given.scenario and given.text:
        words.error("SCENARIO and --text exclude each other")
    # Each byte becomes one character, so that the page refuses what is no play at the right line.
    text = printed(given.text).decode("latin-1") if given.text else play(given.scenario)
    try:
        with open(given.page, "w", encoding="ascii", newline="") as file:
            file.write(pages.drawing(text, docs_from(given.page)))
    except OSError as error:
        sys.exit(told(error))
    print(given.page)
    if given.open and not webbrowser.open("file://" + urllib.parse.quote(os.path.realpath(given.page))):
        sys.exit(f"{SELF}: no browser was found to open it")
