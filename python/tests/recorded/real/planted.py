"""Pages with a failure made on purpose: each way of a refusal that a recording tells (tests.recorded.made) has one,
with hosts of its own, so that no page changes what a browser knows of another's. A proxy on the loopback serves them:
its answers are those of the way's scenario."""
from __future__ import annotations

import html
import json
import os
import re
import socket
import ssl
import subprocess
import threading
from contextlib import suppress
from dataclasses import dataclass
from typing import Any, Iterator, Optional

from fiorrudda.commands import answers
from fiorrudda.commands.case import Request
from fiorrudda.commands.scenario import Scenario, origin_of
from tests.recorded import made

HOST = re.compile(r"\b([a-z][a-z0-9-]*)\.test\b")
HEAD_END = b"\r\n\r\n"
MOST_HEAD = 65536
PATIENCE = 20
NOT_FOUND = b"HTTP/1.1 404 Not Found\r\nContent-Length: 0\r\nConnection: close\r\n\r\n"
ASK = """(() => {
  const { url, headers, upload, ...init } = %s;
  if (/^wss?:/.test(url)) {
    new WebSocket(url);
    return;
  }
  fetch(url, { ...init, ...(headers ? { headers } : {}) }).then((answer) => answer.text()).catch(() => 0);
})()"""
MARK = "planted"  # of the page's own path
# What Chromium's recording tells of the other pages than their ways. It has no entry of a fetch or a WebSocket that a
# policy or mixed content refuses, and it does not send a script's User-Agent.
UNRECORDED = ("mixed/websocket", "policy/quotes", "policy/nothing-allowed", "policy/colon", "policy/path-star",
              "policy/path-slash", "policy/port", "policy/scheme", "policy/path", "policy/host", "policy/no-word",
              "preflight/user-agent")
TOLD_OTHERWISE = {
    **{way: "" for way in UNRECORDED}, "redirect/two-locations": "its answer has several Location headers",
    "redirect/no-url": "it is redirected to what is no URL", "redirect/many": "its redirects do not end",
    "redirect/long-location": "its redirects come back to a URL that is answered otherwise then",
    "redirect/loop": "its redirects come back to a URL that is answered otherwise then",
    "preflight/method-star-with-credentials": "cors/absent, supposed"}  # the preflight's events came too late


@dataclass
class Planted:
    """A page: the way that is to be named, and its scenario."""

    number: int
    way: str
    data: dict[str, Any]

    @property
    def document(self) -> dict[str, Any]:
        found: dict[str, Any] = self.data["documents"][0]
        return found

    @property
    def url(self) -> str:
        return f"{self.document['url']}{MARK}"

    def scripts(self) -> Iterator[str]:
        """What its fetches are in JavaScript."""
        for command in self.document["script"]:
            if "fetch" in command:
                yield ASK % json.dumps(command["fetch"])

    def answer(self) -> bytes:
        """The page itself."""
        lines = ["HTTP/1.1 200 OK", "Content-Type: text/html; charset=utf-8", "Connection: close"]
        lines += [f"{name}: {value}" for name, value in self.document["headers"]]
        tags = "".join(map(made.tag_of, self.document["script"]))
        return ("\r\n".join(lines) + f"\r\n\r\n<!doctype html><title>{html.escape(self.way)}</title><p>{tags}").encode()


def pages() -> list[Planted]:
    return [Planted(number, way, own_hosts(data, number)) for number, (way, data) in enumerate(made.told_ways())]


def own_hosts(data: dict[str, Any], number: int) -> dict[str, Any]:
    found: dict[str, Any] = json.loads(HOST.sub(rf"\g<1>{number}.test", json.dumps(data)))
    return found


def certificate(room: str) -> ssl.SSLContext:
    """One that is made for the run, which browsers are told to take."""
    path = os.path.join(room, "certificate.pem")
    subprocess.run(["openssl", "req", "-x509", "-newkey", "ec", "-pkeyopt", "ec_paramgen_curve:prime256v1", "-nodes",
                    "-keyout", path, "-out", path, "-days", "2", "-subj", "/CN=planted.test"], check=True,
                   stdout=subprocess.DEVNULL, stderr=subprocess.DEVNULL)
    context = ssl.SSLContext(ssl.PROTOCOL_TLS_SERVER)
    context.load_cert_chain(path)
    return context


class Proxy:
    """The proxy that serves a page at a time: `current`."""

    def __init__(self, room: str):
        self.context = certificate(room)
        self.current: Optional[Planted] = None
        self.scenario: Optional[Scenario] = None
        self.listener = socket.create_server(("127.0.0.1", 0), backlog=64)
        self.port = self.listener.getsockname()[1]
        threading.Thread(target=self.accept, daemon=True).start()

    def show(self, page: Planted) -> None:
        self.current, self.scenario = page, Scenario(None, page.data)

    def accept(self) -> None:
        while True:
            link, _ = self.listener.accept()
            link.settimeout(PATIENCE)
            threading.Thread(target=self.serve, args=(link,), daemon=True).start()

    def serve(self, link: socket.socket) -> None:
        with suppress(OSError, ValueError), link:
            method, target = first_line(link)
            if method == "CONNECT":
                link.sendall(b"HTTP/1.1 200 OK\r\n\r\n")
                with self.context.wrap_socket(link, server_side=True) as inner:
                    method, path = first_line(inner)
                    host, _, port = target.rpartition(":")
                    inner.sendall(self.answer(method, f"https://{host}{'' if port == '443' else ':' + port}{path}"))
                    inner.unwrap()
            else:
                link.sendall(self.answer(method, target))

    def answer(self, method: str, url: str) -> bytes:
        page, scenario = self.current, self.scenario
        if page is None or scenario is None or url.endswith("/favicon.ico"):
            return NOT_FOUND
        if url == page.url:
            return page.answer()
        request = Request(url, method)
        request.origin = origin_of(url) or ""
        return answers.scripted(scenario, request).data or NOT_FOUND


def first_line(link: socket.socket) -> tuple[str, str]:
    """The method and the target of the next request, whose head is read; raises ValueError."""
    data = b""
    while HEAD_END not in data and len(data) < MOST_HEAD:
        piece = link.recv(65536)
        if not piece:
            raise ValueError("no request came")
        data += piece
    method, target, _ = data.decode("latin-1").split(" ", 2)
    return method, target
