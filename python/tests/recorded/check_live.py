"""Checks python/addon.py in Debian's mitmdump, by requests to a site on the loopback: what the changes do to pages,
other answers and requests; that a report of a violation is told and written; and that wrong changes end mitmdump.

It needs mitmproxy, and does nothing without it. No browser is asked: recorded/real/try_changes does that."""
from __future__ import annotations

import contextlib
import gzip
import http.client
import http.server
import json
import os
import shutil
import signal
import socket
import subprocess
import sys
import tempfile
import threading
import time
import unittest
from typing import Any, Iterator, Optional

from fiorrudda.places import ROOT
from tests import base

ADDON = os.path.join(ROOT, "python", "addon.py")
REPORTS = "/.well-known/fiorrudda-csp-reports"
PATIENCE = 300
HTML = b"<!doctype html>\n<meta http-equiv=content-security-policy content=\"img-src 'none'\"><p>\xc3\xa4\xff</p>"
LEFT = HTML.replace(b"<meta http-equiv=content-security-policy content=\"img-src 'none'\">", b"")
CHANGES = ["csp default-src 'self'", "referrer-policy no-referrer", "hsts known.test,subdomains", "upgrade",
           "set http://site.test/api* Access-Control-Allow-Origin: https://shop.test",
           "unset http://site.test/* Server",
           "origin http://localhost:%d=http://moved.test"]
REPORT = {"csp-report": {"document-uri": "http://site.test/", "effective-directive": "script-src-elem",
                         "blocked-uri": "https://cdn.test/a.js", "disposition": "enforce"}}


class Site(http.server.BaseHTTPRequestHandler):
    """Answers with a page, packed, or with JSON."""

    seen: list[tuple[str, str, Optional[str]]] = []

    def do_GET(self) -> None:
        self.seen.append((self.headers["Host"], self.path, self.headers["If-None-Match"]))
        is_page = self.path == "/"
        body = gzip.compress(HTML) if is_page else b"{}"
        self.send_response(200)
        self.send_header("Content-Type", "text/html" if is_page else "application/json")
        self.send_header("Content-Security-Policy", "img-src *")
        if is_page:
            self.send_header("Content-Encoding", "gzip")
        self.send_header("Content-Length", str(len(body)))
        self.end_headers()
        self.wfile.write(body)

    def log_message(self, *_: Any) -> None:
        pass


def free_port() -> int:
    with socket.socket() as one:
        one.bind(("127.0.0.1", 0))
        port: int = one.getsockname()[1]
        return port


def is_open(port: int) -> bool:
    with socket.socket() as one:
        return one.connect_ex(("127.0.0.1", port)) == 0


def words_of(port: int, room: str, changes: list[str]) -> list[str]:
    more = [word for change in changes for word in ("--set", "change=" + change)]
    return ["mitmdump", "--listen-host", "127.0.0.1", "-p", str(port), "--set", f"confdir={room}", "--set",
            f"violations={room}/violations", "-s", ADDON, *more]


@contextlib.contextmanager
def mitmdump(room: str, changes: list[str]) -> Iterator[tuple[int, str]]:
    """Its port, and the file of what it prints."""
    port, path = free_port(), os.path.join(room, "log")
    with open(path, "wb") as log:
        process = subprocess.Popen(words_of(port, room, changes), stdout=log, stderr=log)
    try:
        end = time.monotonic() + PATIENCE
        while not is_open(port):
            if time.monotonic() > end or process.poll() is not None:
                with open(path, encoding="utf-8") as told:
                    sys.exit("recorded/check_live: mitmdump did not come up: " + told.read())
            time.sleep(0.1)
        yield port, path
    finally:
        process.send_signal(signal.SIGINT)
        try:
            process.wait(PATIENCE)
        except subprocess.TimeoutExpired:
            process.kill()
            process.wait()


def asked(proxy: int, site: int, host: str, path: str, method: str = "GET", body: Optional[str] = None,
          **headers: str) -> tuple[int, http.client.HTTPMessage, bytes]:
    """The status, the headers and the body of an answer, by the proxy: it is told an address, and the site the name."""
    link = http.client.HTTPConnection("127.0.0.1", proxy, timeout=PATIENCE)
    link.request(method, f"http://127.0.0.1:{site}{path}", body, {"Host": host, **headers})
    answer = link.getresponse()
    found = answer.status, answer.headers, answer.read()
    link.close()
    return found


@unittest.skipUnless(shutil.which("mitmdump"), "nothing tried: mitmproxy is not installed")
class Checks(base.Checks):
    def test_live(self) -> None:
        server = http.server.ThreadingHTTPServer(("127.0.0.1", 0), Site)
        threading.Thread(target=server.serve_forever, daemon=True).start()
        with tempfile.TemporaryDirectory() as room:
            changes = [change % server.server_port if "%d" in change else change for change in CHANGES]
            with mitmdump(room, changes) as (proxy, log):
                self.check_page(proxy, server.server_port)
                self.check_others(proxy, server.server_port)
                self.send_reports(proxy, server.server_port)
            self.check_reports(log, room)
            self.check_wrong(room)
        self.counted(f"{len(CHANGES)} changes in mitmdump: pages, other answers, requests, reports")

    def check_page(self, proxy: int, site: int) -> None:
        """A page has the tried policy in the place of its own, and is whole for the rest."""
        status, headers, body = asked(proxy, site, "site.test", "/", **{"If-None-Match": '"a"'})
        self.compare("a page", (status, gzip.decompress(body)), (200, LEFT))
        self.compare("its policies", headers.get_all("Content-Security-Policy"),
                     [f"default-src 'self'; report-uri {REPORTS}", "upgrade-insecure-requests"])
        self.compare("its referrer policy", headers.get_all("Referrer-Policy"), ["no-referrer"])
        self.compare("it is not kept", headers.get_all("Cache-Control"), ["no-store"])
        self.compare("a header that goes", headers.get_all("Server"), None)
        self.compare("it is asked for whole", Site.seen[-1], ("site.test", "/", None))

    def check_others(self, proxy: int, site: int) -> None:
        """Other answers have the headers that are set; a known host is asked over https; a site is at its new place."""
        _, headers, body = asked(proxy, site, "site.test", "/api/x")
        self.compare("an answer", (headers["Access-Control-Allow-Origin"], headers["Content-Security-Policy"], body),
                     ("https://shop.test", "img-src *", b"{}"))
        _, headers, _ = asked(proxy, site, "site.test", "/other")
        self.compare("one that is not named", headers["Access-Control-Allow-Origin"], None)
        status, headers, _ = asked(proxy, site, "a.known.test", "/x?y", Origin="https://shop.test")
        self.compare("a known host", (status, headers["Location"], headers["Access-Control-Allow-Origin"]),
                     (307, "https://a.known.test/x?y", "https://shop.test"))
        self.compare("it is not asked", Site.seen[-1][1], "/other")
        status, _, _ = asked(proxy, site, "moved.test", "/there?x")
        self.compare("a site at its new place", (status, Site.seen[-1]), (200, (f"localhost:{site}", "/there?x", None)))

    def send_reports(self, proxy: int, site: int) -> None:
        for body in (json.dumps(REPORT), json.dumps(REPORT), "{", "[]"):
            self.compare(f"a report {body}", asked(proxy, site, "site.test", REPORTS, "POST", body)[0], 204)

    def check_reports(self, log: str, room: str) -> None:
        """A violation is told once, and written each time; what is no report is left out. All is written at the end."""
        told = "http://site.test/: https://cdn.test/a.js refused by script-src-elem"
        with open(log, encoding="utf-8") as file:
            self.compare("it is told once", sum(line.rstrip() == told for line in file), 1)
        with open(os.path.join(room, "violations"), encoding="utf-8") as file:
            self.compare("it is written", [json.loads(line)["directive"] for line in file], ["script-src-elem"] * 2)

    def check_wrong(self, room: str) -> None:
        """Wrong changes are told, and mitmdump does not begin."""
        for change, part in (("cps x", "change:1: cps is none of csp"), ("hsts localhost", "a known host is a domain"),
                             ("set x", "write it as")):
            ran = subprocess.run(words_of(free_port(), room, [change]), stdout=subprocess.PIPE,
                                 stderr=subprocess.STDOUT, text=True, timeout=PATIENCE)
            self.compare(f"{change}: {ran.stdout}", (ran.returncode != 0, part in ran.stdout), (True, True))


def main() -> int:
    return base.main("recorded/check_live", __name__)
