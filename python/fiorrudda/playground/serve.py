"""Serves the playground on the loopback: its page, and what bin/why says of a play that the page has made.

    GET /         the page
    POST /told    JSON, the texts of a `scenario` and of its `play`; the answer is the play with what is said of it"""
from __future__ import annotations

import contextlib
import http.server
import json
import os
import resource
import signal
import socket
from typing import TYPE_CHECKING

from fiorrudda.view import telling

if TYPE_CHECKING:
    from typing import Any, NoReturn

PATIENCE = 10  # seconds in all for a request, and for what is said of a play
LINGER = 2  # seconds
MOST_PEERS = 32
MOST_BODY = 4194304  # bytes
MOST_MEMORY = 1 << 30  # bytes of addresses
ALWAYS = {
    "Cache-Control": "no-store",
    "Cross-Origin-Opener-Policy": "same-origin",
    "Cross-Origin-Resource-Policy": "same-origin",
    "Referrer-Policy": "no-referrer",
    "X-Content-Type-Options": "nosniff",
    "X-Frame-Options": "DENY",
}


class Server(http.server.HTTPServer):
    """Serves one page. Each connection has a process of its own, which the system ends when its time is over, whatever
    it does then. Where there are too many the oldest makes room: slow peers keep nobody out."""

    request_queue_size = 128

    def __init__(self, port: int, page: bytes) -> None:
        super().__init__(("127.0.0.1", port), Handler)
        self.own = f"127.0.0.1:{self.server_port}"
        self.files = {"/": ("text/html; charset=utf-8", page),
                      "/favicon.ico": ("image/x-icon", b"")}  # browsers ask for it by themselves
        self.peers: list[int] = []  # processes, in the order of their beginnings

    def process_request(self, request: Any, client_address: Any) -> None:
        self.service_actions()
        if len(self.peers) >= MOST_PEERS:
            self.end(self.peers.pop(0))
        peer = os.fork()
        if peer == 0:
            self.answer_in_time(request, client_address)
        self.peers.append(peer)
        self.close_request(request)

    def answer_in_time(self, request: Any, client_address: Any) -> NoReturn:
        """What the process of a connection does."""
        try:
            signal.alarm(PATIENCE)
            self.socket.close()
            with contextlib.suppress(ValueError, OSError):  # where the system has no such limit
                resource.setrlimit(resource.RLIMIT_AS, (MOST_MEMORY, MOST_MEMORY))
            self.finish_request(request, client_address)
            self.shutdown_request(request)
        finally:
            os._exit(0)

    def service_actions(self) -> None:
        """What serve_forever does again and again."""
        self.peers = [peer for peer in self.peers if os.waitpid(peer, os.WNOHANG) == (0, 0)]

    @staticmethod
    def end(peer: int) -> None:
        os.kill(peer, signal.SIGKILL)
        os.waitpid(peer, 0)

    def server_close(self) -> None:
        super().server_close()
        while self.peers:
            self.end(self.peers.pop())

    def handle_error(self, request: Any, client_address: Any) -> None:
        """A peer that is gone is no error of the server."""


class Handler(http.server.BaseHTTPRequestHandler):
    """Answers one request. Any page of any browser on the machine may send some: each must name the playground's own
    address in its Host (a name that was rebound to 127.0.0.1 does not), and come from no other origin."""

    server: Server

    def do_GET(self) -> None:
        if self.is_refused():
            return
        if self.path in self.server.files:
            self.answer(200, *self.server.files[self.path])
        else:
            self.tell(404, "There is nothing here.")

    def do_POST(self) -> None:
        if self.is_refused():
            return
        length = self.headers.get("Content-Length", "")
        if self.path != "/told":
            self.tell(404, "There is nothing here.")
        elif not (length.isascii() and length.isdigit()) or "Transfer-Encoding" in self.headers:
            self.tell(411, "The length of the question must be told.")
        elif len(length) > 9 or int(length) > MOST_BODY:
            self.tell(413, f"the scenario and the play have more than {MOST_BODY} bytes")
        else:
            asked = self.rfile.read(int(length))
            signal.alarm(PATIENCE)
            self.say(asked)

    def say(self, asked: bytes) -> None:
        try:
            question = json.loads(asked)
            scenario, play = (str(question[name]) for name in ("scenario", "play"))
        except (ValueError, LookupError, TypeError, RecursionError):
            self.tell(400, "This is no question.")
            return
        told = telling.told_text(scenario.encode("utf-8", "replace"), play)
        self.answer(200, "text/plain; charset=utf-8", told.encode("utf-8", "replace"))

    def is_refused(self) -> bool:
        refusal = self.refusal()
        if refusal is not None:
            self.tell(*refusal)
        return refusal is not None

    def refusal(self) -> tuple[int, str] | None:
        """None where the request is let in, else the status and a sentence."""
        own = "http://" + self.server.own
        origins: list[str] = self.headers.get_all("Origin", [])
        if self.headers.get_all("Host", []) != [self.server.own]:
            return 421, f"This is the playground of {own}/ alone."
        if any(origin != own for origin in origins):
            return 403, "Pages of other origins get no answer."
        if self.command == "POST" and not origins:
            return 403, "A request without an Origin gets no answer."
        return None

    def tell(self, status: int, sentence: str) -> None:
        self.answer(status, "text/plain; charset=utf-8", (sentence + "\n").encode("utf-8"))
        self.hang_up()

    def answer(self, status: int, kind: str, body: bytes) -> None:
        self.send_response_only(status)
        for name, value in {**ALWAYS, "Content-Type": kind, "Content-Length": str(len(body))}.items():
            self.send_header(name, value)
        if kind.startswith("text/html"):
            self.send_header("Content-Security-Policy", "frame-ancestors 'none'")
        self.end_headers()
        self.wfile.write(body)

    def hang_up(self) -> None:
        """What a refused peer still sends is read for a moment: else it would not see the answer."""
        with contextlib.suppress(OSError):
            self.connection.shutdown(socket.SHUT_WR)
            self.connection.settimeout(LINGER)
            while self.connection.recv(65536):
                pass

    def send_error(self, code: int, message: str | None = None, explain: str | None = None) -> None:
        """What is no request, or has a method that is not answered."""
        self.tell(code, message or "This is no request.")

    def log_message(self, format: str, *words: Any) -> None:
        """Nothing is logged."""
