"""Plays scenario.json with `bin/fetchplay net` against servers on the loopback: python3's own HTTP server, and peers
that close early, stop, send byte by byte or without end, or reset the connection. What is printed is compared with
play.txt, in which the time of a call is T. With the word `show` it prints what came instead."""
from __future__ import annotations

import http.server
import os
import re
import socket
import struct
import subprocess
import sys
import threading
import time
from typing import Callable

from fiorrudda.places import ROOT
from tests import sockets

HERE = os.path.join(ROOT, "net")
ALLOWED = [("Access-Control-Allow-Origin", "*")]
Handler = Callable[[socket.socket], None]


class Api(http.server.BaseHTTPRequestHandler):
    protocol_version = "HTTP/1.1"

    def answer(self, status: int, headers: list[tuple[str, str]], body: bytes = b"") -> None:
        self.send_response_only(status)
        for name, value in headers + [("Content-Length", str(len(body)))]:
            self.send_header(name, value)
        self.end_headers()
        self.wfile.write(body)

    def do_GET(self) -> None:
        text = [("Content-Type", "text/plain")]
        if self.path == "/read":
            self.answer(200, ALLOWED + text, b"read")
        elif self.path == "/moved":
            self.answer(302, ALLOWED + [("Location", "/read")])
        else:
            self.answer(200, text, b"secret")

    def do_OPTIONS(self) -> None:
        more = [("Access-Control-Allow-Methods", "PUT"), ("Access-Control-Max-Age", "600")]
        self.send_response_only(204)
        for name, value in ALLOWED + more:
            self.send_header(name, value)
        self.end_headers()

    def do_PUT(self) -> None:
        self.rfile.read(int(self.headers.get("Content-Length", "0")))
        self.answer(200, ALLOWED, b"kept")

    def log_message(self, format: str, *words: object) -> None:
        pass


def head(lines: str) -> bytes:
    return f"HTTP/1.1 200 OK\r\nAccess-Control-Allow-Origin: *\r\n{lines}\r\n".encode()


def path_of(peer: socket.socket) -> str:
    """Reads a request without a body, and gives its path."""
    text = b""
    while b"\r\n\r\n" not in text:
        piece = peer.recv(4096)
        if not piece:
            return ""
        text += piece
    return text.split(b" ")[1].decode()


def close_early(peer: socket.socket) -> None:
    path_of(peer)


def stop(peer: socket.socket) -> None:
    path_of(peer)
    peer.sendall(head("Content-Length: 10\r\n") + b"12345")
    time.sleep(1)


def send_slowly(peer: socket.socket) -> None:
    path_of(peer)
    for byte in head("Content-Length: 4\r\n") + b"slow":
        peer.sendall(bytes([byte]))
        time.sleep(0.002)


def send_much(peer: socket.socket) -> None:
    """Ten megabytes, of a body or of a head, and no end before the other side hangs up."""
    first = head("") if path_of(peer) == "/body" else b"HTTP/1.1 200 OK\r\nX-Long: "
    try:
        peer.sendall(first)
        for _ in range(160):
            peer.sendall(b"a" * 65536)
    except OSError:
        pass


def reset(peer: socket.socket) -> None:
    path = path_of(peer)
    peer.sendall(b"HTTP/1.1 200" if path == "/head" else head("Content-Length: 10\r\n") + b"12345")
    sockets.until_read(peer)
    peer.setsockopt(socket.SOL_SOCKET, socket.SO_LINGER, struct.pack("ii", 1, 0))


def serve(handle: Handler) -> str:
    """Starts a server that handles each connection by itself, and gives its address."""
    listener = socket.create_server(("127.0.0.1", 0))

    def one(peer: socket.socket) -> None:
        with peer:
            handle(peer)

    def run() -> None:
        while True:
            peer, _ = listener.accept()
            threading.Thread(target=one, args=(peer,), daemon=True).start()

    threading.Thread(target=run, daemon=True).start()
    return f"127.0.0.1:{listener.getsockname()[1]}"


def serve_api() -> str:
    server = http.server.ThreadingHTTPServer(("127.0.0.1", 0), Api)
    threading.Thread(target=server.serve_forever, daemon=True).start()
    return f"127.0.0.1:{server.server_address[1]}"


def text_of(name: str) -> str:
    with open(os.path.join(HERE, name), encoding="utf-8") as file:
        return file.read()


def played(closed: int) -> subprocess.CompletedProcess[bytes]:
    """What a run over the servers prints; nobody listens at the port `closed`."""
    scenario = text_of("scenario.json")
    addresses = {
        "API": serve_api(),
        "EARLY": serve(close_early),
        "STOPS": serve(stop),
        "CLOSED": f"127.0.0.1:{closed}",
        "SLOW": serve(send_slowly),
        "ENDLESS": serve(send_much),
        "RESETS": serve(reset),
    }
    for name, address in addresses.items():
        scenario = scenario.replace(f'"{name}"', f'"{address}"')
    program = os.environ.get("FETCHPLAY", os.path.join(ROOT, "bin", "fetchplay"))
    return subprocess.run([program, "net"], input=scenario.encode(), capture_output=True, timeout=600)


def main() -> None:
    with sockets.closed_port() as closed:
        ran = played(closed)
    said = re.sub(r" at [0-9]+: ", " at T: ", ran.stdout.decode())
    if sys.argv[1:] == ["show"] and ran.returncode == 0:
        sys.stdout.write(said)
        return
    if ran.returncode != 0 or ran.stderr or said != text_of("play.txt"):
        sys.exit(f"net/check: another play: status {ran.returncode}\n{ran.stderr.decode()}{said}")
    print("net/check: as it should be")
