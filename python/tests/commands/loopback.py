"""Servers on the loopback for checks, over TCP and TLS, with certificates that are made for them."""
from __future__ import annotations

import os
import socket
import ssl
import struct
import subprocess
import threading
from typing import Callable, Optional, Tuple, Union

from tests import sockets

PATIENCE = 60  # seconds
Said = Union[bytes, str, Tuple[bytes, str]]  # bytes, a word (hang, reset), or bytes and then a word


def certificate(folder: str, name: str, hosts: list[str]) -> tuple[str, str]:
    """The files of a certificate for hosts, by itself, and of its key."""
    key, file = os.path.join(folder, f"{name}.key"), os.path.join(folder, f"{name}.pem")
    names = ",".join(f"DNS:{host}" for host in hosts)
    subprocess.run(["openssl", "req", "-x509", "-newkey", "rsa:2048", "-nodes", "-days", "2", "-subj", f"/CN={name}",
                    "-addext", f"subjectAltName={names}", "-keyout", key, "-out", file], check=True,
                   stderr=subprocess.DEVNULL)
    return file, key


class Request:
    """The head of a request, as the answers of a scenario look at it."""

    def __init__(self, data: bytes, is_secure: bool) -> None:
        lines = data.decode("latin-1").split("\r\n")
        self.data = data
        self.method, self.target, _ = lines[0].split(" ")
        host = next(line.partition(":")[2].strip() for line in lines if line.lower().startswith("host:"))
        self.origin = f"{'https' if is_secure else 'http'}://{host}"


class Servers:
    """One listener for all origins: what it answers is `answer(request)`."""

    def __init__(self, answer: Callable[[Request], Said], pair: Optional[tuple[str, str]] = None) -> None:
        self.answer = answer
        self.context: ssl.SSLContext | None = None
        if pair:
            self.context = ssl.SSLContext(ssl.PROTOCOL_TLS_SERVER)
            self.context.load_cert_chain(*pair)
        self.listener = socket.create_server(("127.0.0.1", 0))
        self.port = self.listener.getsockname()[1]
        self.open: list[socket.socket] = []

    def __enter__(self) -> Servers:
        threading.Thread(target=self.listen, daemon=True).start()
        return self

    def __exit__(self, *error: object) -> None:
        self.listener.close()
        for one in self.open:
            one.close()

    def listen(self) -> None:
        while True:
            try:
                peer, _ = self.listener.accept()
            except OSError:
                return
            threading.Thread(target=self.serve, args=(peer,), daemon=True).start()

    def serve(self, peer: socket.socket) -> None:
        try:
            is_tls = peer.recv(1, socket.MSG_PEEK) == b"\x16"
            if is_tls and self.context is None:
                self.say(peer, b"HTTP/1.1 400 Bad Request\r\n\r\n")
                return
            peer = self.context.wrap_socket(peer, server_side=True) if self.context and is_tls else peer
            data = b""
            while b"\r\n\r\n" not in data:
                piece = peer.recv(4096)
                if not piece:
                    return
                data += piece
            self.say(peer, self.answer(Request(data, is_tls)))
        except OSError:
            peer.close()

    def say(self, peer: socket.socket, said: Said) -> None:
        if isinstance(said, tuple):
            peer.sendall(said[0])
            sockets.until_read(peer)  # else a reset takes back what came
            said = said[1]
        if said == "hang":
            self.open.append(peer)
            return
        if isinstance(said, str):  # "reset"
            peer.setsockopt(socket.SOL_SOCKET, socket.SO_LINGER, struct.pack("ii", 1, 0))
        else:
            peer.sendall(said)
            peer.settimeout(PATIENCE)
            peer = peer.unwrap() if isinstance(peer, ssl.SSLSocket) else peer
            peer.shutdown(socket.SHUT_WR)
            while peer.recv(4096):  # what is left of the request
                pass
        peer.close()
