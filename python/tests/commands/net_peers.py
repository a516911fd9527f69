"""Servers on the loopback that do what the check of bin/why --net wants: one answer, or none, in one of many ways."""
from __future__ import annotations

import contextlib
import socket
import struct
import threading
from typing import Optional, Union

from tests import sockets
from tests.commands import cases

WORDS = ("closed", "full", "hang", "reset", "broken", "stalled")
# Seconds for those that never answer, or not to the end; the others have long.
SILENT, LONG = {"full": 1, "hang": 1, "stalled": 5}, 60
Kind = Union[bytes, str, None]


def patience_for(kind: Kind) -> int:
    return SILENT.get(kind, LONG) if isinstance(kind, str) else LONG


class Peer:
    """`kind` is what it answers (bytes), a word for what else it does, an address that is none, or None for no
    route."""

    def __init__(self, kind: Kind):
        self.kind = kind
        self.listener: Optional[socket.socket] = None
        self.open: list[socket.socket] = []
        self.stack = contextlib.ExitStack()
        self.address = kind if isinstance(kind, str) else None

    def __enter__(self) -> Peer:
        if self.kind is None or (isinstance(self.kind, str) and self.kind not in WORDS):
            return self
        if self.kind == "closed":
            self.address = f"127.0.0.1:{self.stack.enter_context(sockets.closed_port())}"
            return self
        self.listener = socket.create_server(("127.0.0.1", 0), backlog=0 if self.kind == "full" else None)
        self.open.append(self.listener)
        self.address = f"127.0.0.1:{self.listener.getsockname()[1]}"
        if self.kind == "full":
            self.fill()
        else:
            threading.Thread(target=self.serve, daemon=True).start()
        return self

    def __exit__(self, *error: object) -> None:
        self.stack.close()
        for one in self.open:
            one.close()

    def fill(self) -> None:
        """Connects until no more are taken."""
        for _ in range(16):
            self.open.append(socket.socket())
            self.open[-1].settimeout(1)
            try:
                self.open[-1].connect(self.listener.getsockname())
            except socket.timeout:
                return

    def serve(self) -> None:
        peer, _ = self.listener.accept()
        text = b""
        while b"\r\n\r\n" not in text:
            piece = peer.recv(4096)
            if not piece:  # who asked is gone
                peer.close()
                return
            text += piece
        if self.kind == "hang":
            self.open.append(peer)
            return
        peer.sendall(self.said())
        if self.kind == "stalled":
            self.open.append(peer)
        elif self.kind in ("reset", "broken"):
            peer.setsockopt(socket.SOL_SOCKET, socket.SO_LINGER, struct.pack("ii", 1, 0))
            sockets.until_read(peer)
            peer.close()
        else:
            peer.close()

    def said(self) -> bytes:
        if self.kind in ("broken", "stalled"):
            return b"HTTP/1.1 200 OK\r\nAccess-Control-Allow-Origin: *\r\nContent-Length: 9\r\n\r\nhi"
        return self.kind if isinstance(self.kind, bytes) else b""

    def scenario(self) -> cases.Data:
        origin = cases.API if self.kind != b"" else "https://api.test:8443"
        routes = [] if self.address is None else [[origin, self.address]]
        return cases.scenario(cases.fetch(origin + "/x"), routes=routes)
