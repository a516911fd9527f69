"""Serves a page in which a scenario is edited, played and drawn, on this machine alone, until it is stopped by Ctrl-C.

    bin/playground [PORT] [--open] [--seconds N]
    bin/playground --page FILE.html [--seconds N]

PORT is 8643 where it is left out; 0 takes a free one. The page plays by the module that bin/wasm has built into out/js/
(or into the folder that FIORRUDDA_JS names), and stops a play after N seconds (5). --page writes the page as one file
that needs no server. docs/playground.md tells the rest."""
from __future__ import annotations

import argparse
import os
import sys
import webbrowser

from fiorrudda.places import ROOT, called
from fiorrudda.playground import page
from fiorrudda.playground.serve import Server

SELF = called("playground")


def port(word: str) -> int:
    if not (word.isascii() and word.isdigit()) or int(word) > 65535:
        raise argparse.ArgumentTypeError("a port is a number from 0 to 65535")
    return int(word)


def seconds(word: str) -> float:
    number = float(word)
    if not 0 < number <= 3600:
        raise argparse.ArgumentTypeError("a play takes more than 0 and at most 3600 seconds")
    return number


def words() -> argparse.Namespace:
    given = argparse.ArgumentParser(prog=SELF, description="edits, plays and draws scenarios, in a browser")
    given.add_argument("port", nargs="?", metavar="PORT", type=port, default=8643, help="where it listens (8643)")
    given.add_argument("--page", metavar="FILE.html", help="write the page as one file, and serve nothing")
    given.add_argument("--open", action="store_true", help="open the page in a browser")
    given.add_argument("--seconds", metavar="N", type=seconds, default=5, help="the time limit of a play (5)")
    return given.parse_args()


def made_page(given: argparse.Namespace) -> bytes:
    built = os.environ.get("FIORRUDDA_JS", os.path.join(ROOT, "out", "js"))
    try:
        return page.made(ROOT, built, given.seconds, given.page is None)
    except OSError as error:
        hint = "; bin/wasm builds it" if str(error.filename).startswith(built) else ""
        sys.exit(f"{SELF}: {error.filename}: {error.strerror}{hint}")


def write(name: str, made: bytes) -> None:
    try:
        with open(name, "wb") as file:
            file.write(made)
    except OSError as error:
        sys.exit(f"{SELF}: {name}: {error.strerror}")
    print(f"{name}: {len(made)} bytes, which need no server")


def serve(given: argparse.Namespace, made: bytes) -> None:
    try:
        server = Server(given.port, made)
    except OSError as error:
        sys.exit(f"{SELF}: 127.0.0.1:{given.port}: {error.strerror}; name another port")
    address = f"http://{server.own}/"
    print(f"{address} (Ctrl-C ends it)", flush=True)
    if given.open:
        webbrowser.open(address)
    try:
        server.serve_forever()
    except KeyboardInterrupt:
        pass
    finally:
        server.server_close()


def main() -> None:
    given = words()
    made = made_page(given)
    if given.page is None:
        serve(given, made)
    else:
        write(given.page, made)
