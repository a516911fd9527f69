"""Makes recorded/proxied/shop.flow anew: mitmdump writes down what curl asks of a server on the loopback, as a page of
http://shop.test with a script, an image, a request that CORS refuses, a preflight with its request, and a host that is
down. It needs mitmproxy and curl.

    recorded/record_flows OUT"""
from __future__ import annotations

import gzip
import http.server
import os
import signal
import socket
import subprocess
import sys
import threading
import time
from typing import Any

PAGE = b'<!doctype html><title>shop</title><script src="/a.js"></script><img src="/\xc3\xa4.png">'
SHOP, ACCEPT = ["Referer: http://shop.test/"], "Accept: */*"
ORIGIN = [*SHOP, "Origin: http://shop.test", ACCEPT]
ASKED = [
    ("GET", "shop.test", "/", ["Accept: text/html,application/xhtml+xml,*/*;q=0.8", "Upgrade-Insecure-Requests: 1"]),
    ("GET", "shop.test", "/a.js", [*SHOP, ACCEPT]),
    ("GET", "shop.test", "/%C3%A4.png", [*SHOP, "Accept: image/avif,image/webp,*/*;q=0.8", "Cookie: sid=topsecret"]),
    ("GET", "api.test", "/me", ORIGIN),
    ("OPTIONS", "api.test", "/items", [*ORIGIN, "Access-Control-Request-Method: PUT"]),
    ("PUT", "api.test", "/items", ORIGIN),
    ("GET", "down.test", "/x.png", [*SHOP, "Accept: image/avif,image/webp,*/*;q=0.8"])]
ALLOW = {"Access-Control-Allow-Origin": "http://shop.test", "Access-Control-Allow-Methods": "PUT"}
ANSWERS = {"/": ({"Content-Type": "text/html; charset=utf-8", "Content-Encoding": "gzip"}, gzip.compress(PAGE)),
           "/a.js": ({"Content-Type": "text/javascript"}, b"fetch('http://api.test/me')"),
           "/%C3%A4.png": ({"Content-Type": "image/png", "Set-Cookie": "sid=hunter2"}, b"\x89PNG"),
           "/me": ({"Content-Type": "application/json"}, b"{}"), "/items": (ALLOW, b"")}
AGENT = "User-Agent: Mozilla/5.0 (X11; Linux x86_64; rv:153.0) Gecko/20100101 Firefox/153.0"


class Handler(http.server.BaseHTTPRequestHandler):
    """Answers each path in its way."""

    def do_GET(self) -> None:
        headers, body = ANSWERS[self.path]
        self.send_response(200)
        for name, value in {**headers, "Content-Length": str(len(body))}.items():
            self.send_header(name, value)
        self.end_headers()
        self.wfile.write(body)

    do_OPTIONS = do_PUT = do_GET

    def log_message(self, *_: Any) -> None:
        pass


def free_port() -> int:
    with socket.socket() as one:
        one.bind(("127.0.0.1", 0))
        port: int = one.getsockname()[1]
        return port


def wait_for(port: int) -> None:
    for _ in range(300):
        with socket.socket() as one:
            if one.connect_ex(("127.0.0.1", port)) == 0:
                return
        time.sleep(0.1)
    sys.exit("mitmdump did not come up")


def ask(proxy: int, port: int, method: str, host: str, path: str, headers: list[str]) -> None:
    """By curl through the proxy; the proxy is told an address, and the server the name."""
    words = [word for one in (f"Host: {host}", AGENT, *headers) for word in ("-H", one)]
    subprocess.run(["curl", "-s", "-o", os.devnull, "-x", f"http://127.0.0.1:{proxy}", "-X", method, *words,
                    f"http://127.0.0.1:{port}{path}"], check=True)


def main() -> None:
    out, = sys.argv[1:]
    server = http.server.ThreadingHTTPServer(("127.0.0.1", 0), Handler)
    threading.Thread(target=server.serve_forever, daemon=True).start()
    proxy, closed = free_port(), free_port()
    recorder = subprocess.Popen(["mitmdump", "-q", "--listen-host", "127.0.0.1", "-p", str(proxy), "-w", out])
    try:
        wait_for(proxy)
        for method, host, path, headers in ASKED:
            ask(proxy, closed if host == "down.test" else server.server_port, method, host, path, headers)
    finally:
        recorder.send_signal(signal.SIGINT)
        recorder.wait()
