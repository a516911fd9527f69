"""What checks ask of connections on the loopback."""
from __future__ import annotations

import contextlib
import os
import socket
import sys
import time
from typing import Iterator

CONNECTIONS = "/proc/net/tcp"  # of Linux, with the bytes that wait at each of them
PATIENCE = 60  # seconds
ELSEWHERE = 0.5  # seconds to wait where the system does not say it


@contextlib.contextmanager
def closed_port() -> Iterator[int]:
    """A port at which nobody listens. It is taken, so that nobody else gets it."""
    with socket.socket() as taken:
        taken.bind(("127.0.0.1", 0))
        yield taken.getsockname()[1]


def until_read(peer: socket.socket) -> None:
    """Waits until the other end has read all that was sent: a reset takes back what it has not."""
    if not os.path.exists(CONNECTIONS):
        time.sleep(ELSEWHERE)
        return
    own, other = peer.getsockname(), peer.getpeername()
    end = time.monotonic() + PATIENCE
    while (waiting(own, other)[0] or waiting(other, own)[1]) and time.monotonic() < end:
        time.sleep(0.01)


def waiting(own: tuple[str, int], other: tuple[str, int]) -> tuple[int, int]:
    """How many bytes one end of a connection has to send, and how many it has not read; none where it is gone."""
    with open(CONNECTIONS, encoding="ascii") as file:
        rows = [line.split() for line in file]
    queues = next((row[4] for row in rows if row[1:3] == [named(own), named(other)]), "0:0")
    sent, received = queues.split(":")
    return int(sent, 16), int(received, 16)


def named(address: tuple[str, int]) -> str:
    """An address as the system lists it."""
    host, port = address
    return f"{int.from_bytes(socket.inet_aton(host), sys.byteorder):08X}:{port:04X}"
