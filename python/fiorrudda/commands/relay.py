"""Passes the connections of a play on to the real servers, and keeps what each of them answered.

For each address of the scenario's routes it listens at a port of the loopback, and the play is led there. How a
connection ended is passed on: closed is closed, and what failed is reset. A server that is silent for too long is given
up."""
from __future__ import annotations

import re
import selectors
import socket
import struct
import threading
import time
from typing import TYPE_CHECKING

from fiorrudda.commands.answers import Answer, Pieces

if TYPE_CHECKING:
    from collections.abc import Callable, Iterable
    from typing import Any

PIECE = 65536
CONNECT = 10  # seconds
SOON = 0.5  # seconds for what is still to come of a body that the program does not read
MOST_UNREAD = 1048576


class Connection:
    """One request and its answer, as bytes; `link` says how it went: done, refused, unreached, unknown-name, hang,
    reset. `is_ended` says that the server sent all that it had to send."""

    def __init__(self, address: str) -> None:
        self.address = address
        self.asked = Pieces()
        self.answered = Pieces()
        self.link = "done"
        self.is_ended = False

    @property
    def request(self) -> bytes:
        return self.asked.joined()

    @property
    def answer(self) -> bytes:
        return self.answered.joined()


class Relay:
    """Use it as a context; `own` are the addresses to play with, by those of the routes."""

    def __init__(self, addresses: Iterable[str], patience: float) -> None:
        self.patience = patience
        self.connections: list[Connection] = []
        self.own = {}
        self.listeners = []
        self.threads: list[threading.Thread] = []
        for address in addresses:
            if split(address) is not None:
                listener = socket.create_server(("127.0.0.1", 0), backlog=128)
                self.own[address] = f"127.0.0.1:{listener.getsockname()[1]}"
                self.listeners.append((listener, address))

    def __enter__(self) -> Relay:
        for listener, address in self.listeners:
            self.start(self.listen, listener, address)
        return self

    def __exit__(self, *error: object) -> None:
        for listener, _ in self.listeners:
            listener.shutdown(socket.SHUT_RDWR)
            listener.close()
        for thread in list(self.threads):
            thread.join()

    def start(self, work: Callable[..., None], *given: Any) -> None:
        thread = threading.Thread(target=work, args=given, daemon=True)
        self.threads.append(thread)
        thread.start()

    def listen(self, listener: socket.socket, address: str) -> None:
        while True:
            try:
                peer, _ = listener.accept()
            except OSError:  # closed
                return
            connection = Connection(address)
            self.connections.append(connection)
            self.start(self.carry, peer, connection)

    def carry(self, peer: socket.socket, connection: Connection) -> None:
        server = None
        try:
            server = connect(connection, min(CONNECT, self.patience))
            if server is None:
                peer.settimeout(self.patience)
                connection.asked.add(peer.recv(PIECE))
            else:
                carrier = Carrier(peer, server, connection, self.patience)
                connection.link = carrier.run()
                if connection.link == "done":
                    carrier.take_rest()
        except OSError:
            connection.link = "reset"
        if connection.link != "done":
            reset(peer)
        for one in filter(None, (peer, server)):
            one.close()


def split(address: str) -> tuple[str, int] | None:
    """The host and the port of an address; None where it is none."""
    found = re.fullmatch(r"(\[[0-9A-Fa-f:.]+\]|[^\[\]:\s]+):(\d{1,5})", address)
    if found is None or int(found.group(2)) > 65535:
        return None
    return found.group(1).strip("[]"), int(found.group(2))


def connect(connection: Connection, patience: float) -> socket.socket | None:
    try:
        return socket.create_connection(split(connection.address), patience)  # type: ignore[arg-type]  # see `listen`
    except (socket.gaierror, UnicodeError):  # of a name that is too long, too
        connection.link = "unknown-name"
    except (TimeoutError, socket.timeout):
        connection.link = "unreached"
    except OSError:
        connection.link = "refused"
    return None


def reset(peer: socket.socket) -> None:
    """Closes it so that the other end sees a failure, and not an end."""
    peer.setsockopt(socket.SOL_SOCKET, socket.SO_LINGER, struct.pack("ii", 1, 0))


class Carrier:
    """Carries bytes both ways until the program hangs up, which it does when it has what it needs."""

    def __init__(self, peer: socket.socket, server: socket.socket, connection: Connection, patience: float) -> None:
        self.peer, self.server = peer, server
        self.connection = connection
        self.patience = patience
        self.has_ended = False  # the server
        self.selector = selectors.DefaultSelector()
        self.selector.register(peer, selectors.EVENT_READ)
        self.selector.register(server, selectors.EVENT_READ)

    def run(self) -> str:
        """A word for how it went."""
        with self.selector:
            while True:
                ready = [key.fileobj for key, _ in self.selector.select(self.patience)]
                if not ready:
                    return "done" if self.has_ended else "hang"
                if self.server in ready and not self.take_answer():
                    return "done"
                if self.peer in ready and not self.take_request():
                    return "done"

    def take_request(self) -> bool:
        try:
            data = self.peer.recv(PIECE)
        except OSError:  # hung up with something unread
            return False
        self.connection.asked.add(data)
        if data and not self.has_ended:
            self.server.sendall(data)
        return bool(data)

    def take_answer(self) -> bool:
        data = self.server.recv(PIECE)
        self.connection.answered.add(data)
        self.has_ended = self.connection.is_ended = not data
        if self.has_ended:
            self.selector.unregister(self.server)
        try:
            self.peer.sendall(data) if data else self.peer.shutdown(socket.SHUT_WR)
        except OSError:  # hung up
            return False
        return True

    def take_rest(self) -> None:
        """Takes what comes soon of a coded body, which the program does not read, for what is to be said of it."""
        until, kept = time.monotonic() + SOON, self.connection.answered
        if self.has_ended or not is_coded(kept.joined()):
            return
        while len(kept.data) < MOST_UNREAD and time.monotonic() < until:
            self.server.settimeout(max(until - time.monotonic(), 0.001))
            try:
                data = self.server.recv(PIECE)
            except OSError:  # it comes later, or breaks: nothing is said of that
                return
            kept.add(data)
            if not data:
                self.connection.is_ended = True
                return


def is_coded(answer: bytes) -> bool:
    head = Answer(answer).head
    return head is not None and head.get("Content-Encoding") is not None
