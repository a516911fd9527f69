"""Checks examples/embed/client against servers on the loopback, over TCP and TLS with a certificate that is made here:

    embed/clients WORDS..

where the words run the client, as its path alone, or valgrind and its path."""
from __future__ import annotations

import os
import subprocess
import sys
import tempfile

from tests import base, sockets
from tests.commands import loopback

HEAD = "HTTP/1.1 200 OK\r\nX-Shown: 1\r\n"
ALL = "Access-Control-Allow-Origin: *\r\nAccess-Control-Expose-Headers: X-Shown\r\n"
WORDS: list[str] = []  # that run the client


class Server(loopback.Servers):
    """Answers by what is said of a path, at an origin of its own."""

    def __init__(self, said: dict[str, str], pair: tuple[str, str] | None = None) -> None:
        super().__init__(lambda request: said[request.target].encode(), pair)
        self.origin = f"{'https' if pair else 'http'}://localhost:{self.port}"
        self.__enter__()


class Clients(base.Checks):
    def test_fetches(self) -> None:
        with tempfile.TemporaryDirectory() as folder, sockets.closed_port() as port:
            trusted, other = (loopback.certificate(folder, name, ["localhost"]) for name in ("trusted", "other"))
            length = "Content-Length: 2\r\n\r\nhi"
            plain = Server({"/": f"{HEAD}{ALL}{length}", "/kept": f"{HEAD}{length}",
                            "/cut": f"{HEAD}{ALL}Content-Length: 9\r\n\r\nhi", "/none": ""})
            secure = Server({"/": f"{HEAD}{ALL}{length}", "/long": f"{HEAD}{ALL}\r\n{'x' * 100000}",
                             "/on": f"HTTP/1.1 302 Found\r\n{ALL}Location: {plain.origin}/\r\n\r\n"}, trusted)
            strange = Server({"/": f"{HEAD}{ALL}{length}"}, other)
            head = "200\nX-Shown: 1\n"
            shown, fault, page = f"{head}Content-Length: 2\n\nhi", "refused: LinkFault\n", "http://a.example"
            rows = [
                (f"{plain.origin}/", plain.origin, 0, f"{head}Access-Control-Allow-Origin: *\n"
                 "Access-Control-Expose-Headers: X-Shown\nContent-Length: 2\n\nhi"),
                (f"{plain.origin}/", secure.origin.replace("https", "http"), 0, shown),
                (f"{plain.origin}/kept", page, 1, "refused: CorsCheck\n"),
                (f"{plain.origin}/cut", page, 0, f"{head}Content-Length: 9\n\n"),
                (f"{plain.origin}/none", page, 1, "refused: BadHead\n"),
                (f"{secure.origin}/", page, 0, shown),
                (f"{secure.origin}/long", page, 0, f"{head}\n{'x' * 100000}"),
                (f"{secure.origin}/on", page, 0, shown),
                (f"{secure.origin}/", page, 0, shown),
                (f"{strange.origin}/", page, 1, fault),
                (f"{plain.origin.replace('http:', 'https:')}/", page, 1, fault),
                (f"http://localhost:{port}/", page, 1, fault),
                ("http://no-such-name.invalid/", page, 1, fault),
                ("http://[", page, 2, "client: no such fetch can be made\n"),
            ]
            own = {**os.environ, "SSL_CERT_FILE": trusted[0]}
            for url, page, status, text in rows:
                done = subprocess.run([*WORDS, url, f"{page}/"], capture_output=True, env=own, timeout=600)
                got = (done.returncode, done.stdout.decode())
                self.compare(f"{url}: {done.stderr.decode()[:300]}", got, (status, text))
        self.counted(f"{len(rows)} fetches")


def main() -> int:
    WORDS[:] = sys.argv[1:]
    return base.main("embed/clients", __name__, [])
