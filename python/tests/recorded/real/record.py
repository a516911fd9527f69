"""Records real applications (applications.py) as two browsers and a proxy see them, while steps.py is done:

    recorded/real/record FOLDER [APPLICATION..]

APPLICATION.chromium.har.gz has what Chromium's DevTools events tell, APPLICATION.firefox.har.gz what Firefox's network
panel exports, and APPLICATION.flow.gz what mitmdump wrote, with Chromium before it. Bodies of HTML alone are kept.
It needs dokuwiki, mediawiki, phpmyadmin with mariadb-server, php-cli, chromium, firefox-esr and mitmproxy, of which
what is not installed is left out and told."""
from __future__ import annotations

import gzip
import json
import os
import shutil
import sys
import tempfile
from typing import Callable, Union

from tests.recorded.real import applications, proxy, steps
from tests.recorded.real.chromium import Chromium
from tests.recorded.real.firefox import Firefox

Browser = Union[Chromium, Firefox]


def write(path: str, data: bytes) -> None:
    with open(path, "wb") as file:
        file.write(gzip.compress(data, mtime=0))
    print(f"{path}: {os.path.getsize(path):,} bytes")


def har_of(application: applications.Application, browser: Browser) -> bytes:
    try:
        steps.do(browser, application)
        return json.dumps(browser.har(), separators=(",", ":")).encode()
    finally:
        browser.close()


def flows_of(application: applications.Application, room: str) -> bytes:
    path = os.path.join(room, "flows")
    with proxy.proxy(room, "-w", path) as port:
        har_of(application, Chromium(port))
    return proxy.shrunk(path)


def record(application: applications.Application, folder: str) -> None:
    """All recordings of an application, each of a fresh one."""
    makers: list[tuple[str, str, Callable[[str], bytes]]] = [
        ("chromium", "chromium.har.gz", lambda room: har_of(application, Chromium())),
        ("firefox-esr", "firefox.har.gz", lambda room: har_of(application, Firefox())),
        ("mitmdump", "flow.gz", lambda room: flows_of(application, room))]
    for program, ending, make in makers:
        if not shutil.which(program):
            print(f"{application.name}.{ending}: {program} is not installed")
            continue
        with tempfile.TemporaryDirectory() as room, applications.served(application, room):
            write(os.path.join(folder, f"{application.name}.{ending}"), make(room))


def main() -> None:
    folder, *names = sys.argv[1:]
    for name in names or applications.ALL:
        try:
            record(applications.ALL[name], folder)
        except applications.NotThere as error:
            print(f"{name}: {error}")
