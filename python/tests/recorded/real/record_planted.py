"""Records pages with failures made on purpose (planted.py) as two browsers see them:

    recorded/real/record_planted FOLDER [chromium|firefox-esr]

planted.chromium.har.gz has what Chromium's DevTools events tell of all pages, planted.firefox.har.gz what Firefox's
network panel exports. It needs chromium, firefox-esr and openssl; a browser that is not installed is left out and
told."""
from __future__ import annotations

import json
import os
import shutil
import sys
import tempfile
from typing import Any, Callable

from tests.recorded.real import planted
from tests.recorded.real.chromium import Chromium
from tests.recorded.real.firefox import Firefox
from tests.recorded.real.record import Browser, write

BROWSERS: list[tuple[str, Callable[[int], Browser], list[str]]] = [
    ("chromium", Chromium, ["Document", "Script", "Stylesheet"]), ("firefox-esr", Firefox, ["html", "script", "css"])]


def recorded(browser: Browser, proxy: planted.Proxy) -> dict[str, Any]:
    """The recording of all pages, one after the other."""
    for page in planted.pages():
        proxy.show(page)
        browser.visit(page.url)
        for script in page.scripts():
            browser.run(script)
    return browser.har()


def main() -> None:
    folder, *names = sys.argv[1:]
    with tempfile.TemporaryDirectory() as room:
        proxy = planted.Proxy(room)
        for program, make, kept in BROWSERS:
            if names and program not in names:
                continue
            if not shutil.which(program):
                print(f"{program} is not installed")
                continue
            browser = make(proxy.port)
            browser.kept = kept
            try:
                data = json.dumps(recorded(browser, proxy), separators=(",", ":")).encode()
            finally:
                browser.close()
            write(os.path.join(folder, f"planted.{browser.name}.har.gz"), data)
