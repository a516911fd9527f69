"""Checks bin/ask against servers on the loopback, over TCP and TLS with a certificate that is made for the check.

- Each way of the table that words can ask for: the scenario that is meant for it is asked of a real server that answers
  by its rules, over TLS where its origin says https. The lines are those of the scenario's play, and the way is the
  same.
- What is no connection: a closed port, an unknown name, a hang, a reset, each also behind a head, a handshake that does
  not come, a certificate that nobody trusts, a port that speaks no TLS; and a TLS port that is asked in plain, as
  several servers answer it.
- Bodies that come as gzip, deflate and br all the same, whole, cut and as a bomb; the time limit, whatever Python does.
- --twice, --book, --export (the scenario plays the same, without secrets, and over no other file), --json, --brief,
  --hsts, several URLs, a body of a file, the statuses, what is said of cookies, words that are wrong, --help and a
  closed pipe.
- Commands that browsers copied as cURL, as a shell reads them.

It needs python3 (3.9 or later), the openssl command, bin/fetchplay, and the library that FIORRUDDA_LIBRARY names or
bin/lib has left in out/."""
from __future__ import annotations

import argparse
import base64
import contextlib
import hashlib
import itertools
import json
import os
import re
import socket
import stat
import subprocess
import sys
import tempfile
import time
import zlib
from typing import Any, Callable, Iterator, Optional, Union
from unittest import mock

import _ctypes

from fiorrudda.commands import (answers, ask_words, asked, codings, json_text, live, node_brotli, replies, running,
                                told as telling)
from fiorrudda.commands.scenario import Scenario
from fiorrudda.commands.shapes import Places
from fiorrudda.places import ROOT
from tests import base, sockets
from tests.commands import cases, loopback, pipes
from tests.commands.cases import Data
from tests.commands.loopback import Said

Pair = tuple[str, str]  # the files of a certificate and of its key
Answering = Callable[[loopback.Request], Said]
HOSTS = ["api.test", "cdn.test", "shop.test", "img.shop.test", "h.test"]
# what only a scripted server does, or no words ask for: a User-Agent is left out, as it comes with copied words
NOT_ASKED = {"cors/no-rule", "seen/no-rule", "head/no-server", "head/host-as-path", "head/tls", "preflight/user-agent"}
KEYS = {"method", "headers", "body", "mode", "credentials", "redirect", "integrity", "url"}


def places(servers: loopback.Servers) -> Places:
    """Each host is at these servers, at its ports."""
    return {(host, port): ("127.0.0.1", servers.port) for host in HOSTS for port in (80, 443, 8443)}


def given(url: str, data: Optional[str] = None, **more: Any) -> argparse.Namespace:
    """The words of bin/ask."""
    plain = ask_words.read("bin/ask", [url, "--timeout", "60"])
    if data is not None:
        plain.bodies = [("data-raw", data)]
        plain.body = ask_words.body_of(plain.bodies)
    vars(plain).update(more)
    return plain


def asked_of(url: str, **more: Any) -> asked.Answered:
    return asked.answered(given(url, **more), url)


def words_of(data: Data) -> Optional[dict[str, Any]]:
    """The words that ask for what a scenario fetches; None where none do."""
    document = data["documents"][0]
    script = document["script"]
    if len(script) != 1 or "top" in document or "body_limit" in data or "wait" in script[0]:
        return None
    kind, options = next(iter(script[0].items()))
    hosts = [(one["host"], one["subdomains"]) for one in data.get("hsts", [])]
    page, policies = document["url"], [value for name, value in document["headers"] if name == cases.POLICY]
    if kind == "load":
        if set(options) - {"kind", "url", "crossorigin", "integrity"}:
            return None
        return dict(url=options["url"], page=page, load=options["kind"], crossorigin=options.get("crossorigin"),
                    integrity=options.get("integrity"), policy=policies, hsts=hosts)
    if kind != "fetch" or set(options) - KEYS or len(policies) != len(document["headers"]):
        return None
    return dict(url=options["url"], page=page, method=options.get("method", "GET"), data=options.get("body"),
                header=[tuple(pair) for pair in options.get("headers", [])], policy=policies, hsts=hosts,
                **{key: options.get(key) for key in ("mode", "credentials", "redirect", "integrity")})


def way_of(answered: asked.Answered) -> str:
    case = answered.told.cases[-1]
    return case.explanation.way if case.explanation else case.result.short()


def plain(request: loopback.Request) -> bytes:
    return b"HTTP/1.1 200 OK\r\nAccess-Control-Allow-Origin: *\r\nContent-Length: 2\r\n\r\nhi"


# An answer whose body does not come whole, and what ports that speak TLS answer to a request in plain.
BEGUN = b"HTTP/1.1 200 OK\r\nAccess-Control-Allow-Origin: *\r\nContent-Length: 9\r\n\r\nhi"
TLS_PORTS = {
    "nginx": b"HTTP/1.1 400 Bad Request\r\nServer: nginx\r\n\r\n<center>The plain HTTP request was sent to HTTPS "
             b"port</center>",
    "Apache": b"HTTP/1.1 400 Bad Request\r\n\r\nReason: You're speaking plain HTTP to an SSL-enabled server port.<br "
              b"/>\n",
    "Go": b"HTTP/1.0 400 Bad Request\r\n\r\nClient sent an HTTP request to an HTTPS server.\n",
    "Tomcat": b"HTTP/1.1 400 \r\n\r\nBad Request\r\nThis combination of host and port requires TLS.\r\n",
    "an alert": b"\x15\x03\x01\x00\x02\x02\x46",
}


def answered_by(answer: Answering, pair: Pair, url: str, is_endless: bool = False, **more: Any) -> asked.Answered:
    """What comes of a fetch of servers that answer so. For an answer that never ends few seconds are enough, and more
    where they were over before it came."""
    for limit in (2, 30) if is_endless else (60,):
        with loopback.Servers(answer, pair) as servers:
            answered = asked_of(url, **{"connect_to": places(servers), "timeout": limit, **more})
        if servers.open:  # those at which an answer goes on
            break
    return answered


def is_endless(said: Said) -> bool:
    return "hang" in (said if isinstance(said, tuple) else [said])


# How a verdict begins that is not read in one word.
VERDICTS = {
    "plain bytes": "the page would not read it", "a cut coding": "the page would not read all of it",
    "the length of the text": "the page would not read it before the connection closes",
    "another length": "the page would not read all of it", "two lengths": "the page would not read it",
}
STRAY = [
    ("-H authorization: Bearer eyJ.e30.abc",
     "`Bearer` is no URL; are the quotes of the header `authorization:` missing?"),
    ("-H authorization: eyJ.e30.abc", "what stands behind the header `authorization:` is no URL; are the quotes"),
    ("-Hauthorization: eyJ.e30.abc", "what stands behind the header `authorization:` is no URL; are the quotes"),
    ("--header=authorization: eyJ.e30.abc", "what stands behind the header `authorization:` is no URL; are the quotes"),
    ("-H x-note: /eyJ", "behind the header `x-note:` is no URL"),
    ('-H "sec-ch-ua: "A B";v="1""', "behind the header `sec-ch-ua:` is no URL"),
    ("-H referer: https://eyJ.example/",
     "a URL stands behind the header `referer:`: are the quotes of the header missing?"),
    ("-d {a: eyJ}", "what stands behind the value of -d is no URL; are the quotes"),
    ("-k api.test/x", "`api.test/x` is no URL: write it whole"),
    ("/x", "the header `origin:` is no URL; are the quotes of the header missing? If it is meant as a URL, write it "
           "whole"),
    ("-k localhost:8080/x", "`localhost:8080/x` is no URL: write it whole"),
    ('-H "authorization: "Bearer eyJ/abc=""',
     "what stands behind the header `authorization:` is no URL; are the quotes"),
    ("''", "the word of a URL is empty"),
    ("\\ ", "take the blank behind the \\ at a line's end away"),
    ("^", "copied for cmd: copy as cURL (bash)"),
    ("-H \u2018authorization: Bearer eyJ\u2019", "\u2018 and \u2019 are no quotes of a shell: write '"),
    ("\u201chttps://api.test/\u201d", '\u201c and \u201d are no quotes of a shell: write "'),
    ("-H '\"authorization: Bearer eyJ\"'",
     'the header `"authorization` has a quote in its name: take the inner quotes away'),
    ("-H \"'origin: https://eyJ.test'\"", "the header `'origin` has a quote in its name: take the inner quotes away"),
    ("-H 'authorization Bearer eyJ'", "the header `authorization` has no colon: write it as 'authorization: value'"),
    ("-H eyJ.e30.abc", "a header has no colon: write it as 'Name: value'"),
    ("--bearer eyJ", "`--bearer` is no word here: --help lists them"),
    ("--oauth2-bearer=eyJ", "`--oauth2-bearer` is no word here: write -H 'Authorization: Bearer ..'"),
    ("--headers 'authorization: eyJ'", "`--headers` is no word here: write --header"),
    ("--proxy http://eyJ.test/", "`--proxy` is no word here: no proxy is asked"),
    ("--json '{}'", "--json prints JSON here, and takes no value: write -H 'Content-Type: application/json' --data"),
    ("--cacert eyJ", "`--cacert` is no word here: name the authority before the command, by SSL_CERT_FILE=FILE"),
    ("-from https://eyJ.test/", "`-from` has one dash: write --from"),
    ("-F https://eyJ.test/", "a part of a form is written as NAME=VALUE; --from names the page that asks"),
    ("-F a=b -d eyJ", "a form is the whole body: leave --data out"),
    ("-F a=@/nowhere", "--form: /nowhere: No such file or directory"),
    ("-4", "`-4` is no word here: leave it out"),
    ("-H https://eyJ.test/y", "a URL stands where a header belongs: let it stand as a word of its own"),
    ("-H HTTPS://eyJ.test/y", "a URL stands where a header belongs: let it stand as a word of its own"),
    ("-H 'accept:'https://eyJ.test/y", "the header `accept` has a URL as its value: is a quote or a blank missing"),
    ("-H 'accept: */*'https://eyJ.test/y", "the header `accept` has a URL as its value: is a quote or a blank missing"),
    ("-H 'content-type: https://eyJ.test/y'", "the header `content-type` has a URL as its value: is a quote or"),
]


# The same without the word curl, and without a header.
FIRST_WORDS = [
    (["PUT", "https://api.test:8443/x"], "`PUT` is no URL: write --method PUT"),
    (["fetch(\"https://api.test:8443/x\", {"], "copied for another program: copy as cURL (bash)"),
    (["Invoke-WebRequest", "-UseBasicParsing", "-Uri", "https://api.test:8443/x"], "copied for another program"),
    (["Invoke-WebRequest", "-Uri", "https://api.test:8443/x", "-Headers", "@{"], "copied for another program"),
    (["=", "New-Object", "Microsoft.PowerShell.Commands.WebRequestSession"], "copied for another program"),
    (["curl", "https://api.test:8443/x", "--data-raw", '{^"a^":1}'], "copied for cmd: copy as cURL (bash)"),
    (["api.test/x", "--from", "https://app.example/"],
     "`api.test` has no scheme: write https://api.test; what is a path"),
    (["\"https://api.test:8443/x\"", "--from", "https://app.example/"],
     "a quote or a bracket stands around https://api."),
    (["https://api.test:8443/x'", "--from", "https://app.example/"], "a quote or a bracket stands around https://api."),
    (["https//api.test/x", "--from", "https://app.example/"], "`https//` is no beginning of a URL: write https://"),
    (["www.api.example", "--from", "https://app.example/"], "`www.api.example` has no scheme: write https://www.api."),
    (["https://api.test:8443/x", "--origin", "https://app.example"], "`--origin` is no word here: write --from PAGE"),
    (["https://api.test:8443/x", "--request-target", "/"], "`--request-target` is no word here: --help lists them"),
]


def ran(*words: str, **more: Any) -> subprocess.CompletedProcess[bytes]:
    return subprocess.run([os.path.join(ROOT, "bin", "ask"), *words], stdout=subprocess.PIPE, stderr=subprocess.PIPE,
                          **more)


def allowed(request: loopback.Request) -> bytes:
    """What lets a PUT of JSON with a cookie pass."""
    both = "Access-Control-Allow-Origin: https://app.example\r\nAccess-Control-Allow-Credentials: true\r\n"
    if request.method == "OPTIONS":
        return (f"HTTP/1.1 204 No Content\r\n{both}Access-Control-Allow-Methods: PUT\r\nAccess-Control-Allow-Headers: "
                "content-type\r\n"
                "\r\n").encode()
    return (f"HTTP/1.1 200 OK\r\n{both}Content-Length: 2\r\n\r\nhi").encode()


# ---- bodies that come coded

TEXT = b'{"rows": [%s]}' % b", ".join(b"%d" % number for number in range(400))


def packed(data: bytes, bits: int, copies: int = 1) -> bytes:
    """By zlib: `bits` are 31 for gzip, 15 for deflate, -15 for deflate without its head."""
    machine = zlib.compressobj(wbits=bits)
    return b"".join(machine.compress(data) for _ in range(copies)) + machine.flush()


def coded(coding: bytes, data: bytes, *more: bytes, framing: Optional[list[bytes]] = None) -> bytes:
    """An answer of this coding; its framing is Content-Length where none is named."""
    lines = [b"HTTP/1.1 200 OK", b"Access-Control-Allow-Origin: *", b"Content-Encoding: " + coding, *more]
    lines += [b"Content-Length: %d" % len(data)] if framing is None else framing
    return b"\r\n".join([*lines, b"", b""]) + data


def in_chunks(data: bytes) -> bytes:
    return b"".join(b"%x\r\n%b\r\n" % (len(data[at:at + 7]), data[at:at + 7]) for at in range(0, len(data), 7)) + b"0\r\n\r\n"


def whole_bodies() -> dict[str, bytes]:
    """Answers whose body is TEXT, by their names."""
    gzip = packed(TEXT, 31)
    rows = {
        "gzip": coded(b"gzip", gzip),
        "x-gzip, in capitals": coded(b"X-GZIP", gzip),
        "gzip, with bytes behind its end": coded(b"gzip", gzip + b"more"),
        "gzip, in chunks": coded(b"gzip", in_chunks(gzip), framing=[b"Transfer-Encoding: chunked"]),
        "gzip, up to the end": coded(b"gzip", gzip, framing=[]),
        "gzip, behind an early head": b"HTTP/1.1 103 Early\r\nLink: </a>\r\n\r\n" + coded(b"gzip", gzip),
        "deflate": coded(b"deflate", packed(TEXT, 15)),
        "deflate without its head": coded(b"deflate", packed(TEXT, -15)),
        "deflate and then gzip": coded(b"deflate, gzip", packed(packed(TEXT, 15), 31)),
    }
    if codings.decoder("br"):
        rows["br"] = coded(b"br", stored(TEXT))
    else:
        print("commands/check_ask: left out, since there is neither node nor python3-brotli: a body that comes as br",
              file=sys.stderr)
    return rows


def stored(data: bytes) -> bytes:
    """A br stream (RFC 7932, section 9.2): a window of 16 bits, a meta-block that is not compressed, and the last,
    empty one."""
    return (len(data) - 1 << 4 | 1 << 20).to_bytes(3, "little") + data + b"\x03"


@contextlib.contextmanager
def without_br() -> Iterator[None]:
    with mock.patch.object(codings, "brotli", None), mock.patch.object(node_brotli, "program", lambda: None):
        yield


def always(said: Said) -> Answering:
    return lambda request: said


def told_of(answer: Union[Said, Answering], **more: Any) -> tuple[int, Any, str, str]:
    """What comes of a fetch of an answer: its status, what the page reads, the way, and all that is said."""
    answered = answered_by(answer if callable(answer) else always(answer), None, "http://api.test/x",
                           page="http://shop.test/", **more)
    case = answered.told.cases[-1]
    lines = case.explanation.lines() if case.explanation else []
    return answered.status(), case.result.body, way_of(answered), "\n".join([answered.verdict[1], *lines,
                                                                             *answered.notes()])


def flipped(data: bytes, at: int) -> bytes:
    """With another byte at a place from the end."""
    return data[:-at] + bytes([data[-at] ^ 255]) + data[len(data) - at + 1:]


def with_type(answer: Said, kind: str) -> Any:
    """The same answer, with a type that a load of this kind takes."""
    if isinstance(answer, tuple):
        return (with_type(answer[0], kind), *answer[1:])
    own = b"\r\nContent-Type: %s\r\n" % {"image": b"image/png", "script": b"text/javascript"}[kind]
    return answer.replace(b"\r\n", own, 1)


# ---- the time limit

LONG = 60  # seconds, where the limit is one


def slow_look_up(*given: Any, **more: Any) -> None:
    time.sleep(LONG)


def endless(*given: Any, **more: Any) -> None:
    while True:
        pass


# ---- commands that browsers copied as cURL

CHROMIUM = r"""curl 'https://api.test:8443/x?a=1' \
  -H 'accept: application/json' \
  -H 'accept-language: en-US,en;q=0.9' \
  -H 'cache-control: no-cache' \
  -H 'cookie: sid=7; theme=dark' \
  -H 'origin: https://app.example' \
  -H 'pragma: no-cache' \
  -H 'priority: u=1, i' \
  -H 'referer: https://app.example/' \
  -H 'sec-ch-ua: "Google Chrome";v="131", "Chromium";v="131", "Not_A Brand";v="24"' \
  -H 'sec-ch-ua-mobile: ?0' \
  -H 'sec-ch-ua-platform: "Linux"' \
  -H 'sec-fetch-dest: empty' \
  -H 'sec-fetch-mode: cors' \
  -H 'sec-fetch-site: cross-site' \
  -H 'user-agent: Mozilla/5.0 (X11; Linux x86_64) AppleWebKit/537.36 (KHTML, like Gecko) Chrome/131.0.0.0 Safari/537.36'"""
FIREFOX = r"""curl 'https://api.test:8443/x' \
  --compressed \
  -H 'User-Agent: Mozilla/5.0 (X11; Linux x86_64; rv:133.0) Gecko/20100101 Firefox/133.0' \
  -H 'Accept: */*' \
  -H 'Accept-Language: en-US,en;q=0.5' \
  -H 'Accept-Encoding: gzip, deflate, br, zstd' \
  -H 'Referer: https://app.example/' \
  -H 'Origin: https://app.example' \
  -H 'Connection: keep-alive' \
  -H 'Sec-Fetch-Dest: empty' \
  -H 'Sec-Fetch-Mode: cors' \
  -H 'Sec-Fetch-Site: cross-site' \
  -H 'Priority: u=4' \
  -H 'TE: trailers'"""
PUT = r"""curl 'https://api.test:8443/x' \
  -X 'PUT' \
  -H 'accept: */*' \
  -H 'content-type: application/json' \
  -b 'sid=7; theme=dark' \
  -H 'origin: https://app.example' \
  -H 'referer: https://app.example/' \
  -H 'sec-fetch-dest: empty' \
  -H 'sec-fetch-mode: cors' \
  -H 'sec-fetch-site: cross-site' \
  -H 'user-agent: Mozilla/5.0 (X11; Linux x86_64) AppleWebKit/537.36 (KHTML, like Gecko) Chrome/131.0.0.0 Safari/537.36' \
  --data-raw $'{"name":"it\'s","n":1}' \
  --insecure"""
FONT = r"""curl 'https://api.test:8443/x' \
  -H 'accept: */*' \
  -H 'origin: https://app.example' \
  -H 'referer: https://app.example/' \
  -H 'sec-fetch-dest: font' \
  -H 'sec-fetch-mode: cors' \
  -H 'sec-fetch-site: cross-site' \
  -H 'user-agent: Mozilla/5.0 (X11; Linux x86_64) AppleWebKit/537.36 (KHTML, like Gecko) Chrome/131.0.0.0 Safari/537.36'"""


# ---- several URLs, known hosts, verdicts

def by_target(request: loopback.Request) -> Said:
    """A server that is slow at /slow, refuses at /no, and answers as `plain` else."""
    if request.target.startswith("/slow"):
        return "hang"
    return b"HTTP/1.1 200 OK\r\nContent-Length: 0\r\n\r\n" if request.target == "/no" else plain(request)


# ---- what is exported

def secretive(request: loopback.Request) -> bytes:
    both = b"Access-Control-Allow-Origin: https://app.example\r\nAccess-Control-Allow-Credentials: true\r\n"
    if request.method == "OPTIONS":
        return b"HTTP/1.1 204 No\r\n" + both + b"Access-Control-Allow-Headers: authorization\r\n\r\n"
    return b"HTTP/1.1 200 OK\r\n" + both + b"Set-Cookie: id=sekret3; Path=/\r\nContent-Length: 2\r\n\r\nhi"


class Checks(base.Checks):
    folder: str
    pair: Pair
    other: Pair

    @classmethod
    def setUpClass(cls) -> None:
        running.played(b'{"format":1,"documents":[]}')
        folder = tempfile.TemporaryDirectory()
        cls.addClassCleanup(folder.cleanup)
        cls.folder = folder.name
        cls.pair, cls.other = (loopback.certificate(cls.folder, name, HOSTS) for name in ("trusted", "other"))
        os.environ["SSL_CERT_FILE"] = cls.pair[0]
        # So that what comes soon does so on a busy machine, too.
        patience = mock.patch.object(live, "SOON", 10)
        patience.start()
        cls.addClassCleanup(patience.stop)

    def test_ways(self) -> None:
        self.counted(f"{self.check_ways(self.pair)} ways asked of real servers, as scripted ones play them")

    def test_links(self) -> None:
        self.counted(f"{self.check_links(self.pair, self.other)} connections that fail or do not")

    def test_statuses(self) -> None:
        self.check_statuses(self.pair)

    def test_cookies(self) -> None:
        self.check_cookies(self.pair)

    def test_in_all(self) -> None:
        self.check_in_all(self.pair)

    def test_brief(self) -> None:
        self.check_brief(self.pair)

    def test_lints(self) -> None:
        self.check_lints(self.pair)

    def test_coded_bodies(self) -> None:
        self.check_coded(self.pair)

    def test_time_limits(self) -> None:
        self.check_limits()

    def test_undecided(self) -> None:
        self.check_undecided(self.pair)

    def test_known_hosts(self) -> None:
        self.check_known_hosts(self.pair)

    def test_books(self) -> None:
        self.check_books(self.pair, self.folder)

    def test_local_networks(self) -> None:
        self.check_local_networks()

    def test_several_urls(self) -> None:
        self.check_many(self.pair, self.folder)

    def test_exports(self) -> None:
        self.check_export(self.pair, self.folder)

    def test_command(self) -> None:
        self.check_command(self.pair, self.folder)

    def check_ways(self, pair: Pair) -> int:
        """What is asked of real servers is what is played by scripted ones."""
        count = 0
        for name, text, which in cases.scripted():
            data = json.loads(text)
            # that is decoded here
            words = None if which or name in NOT_ASKED or "Content-Encoding" in text else words_of(data)
            if words is None:
                continue
            scenario = Scenario(json_text.read(text))
            with loopback.Servers(lambda request: answers.scripted(scenario, request).data, pair) as servers:
                answered = asked_of(**words, connect_to=places(servers))
            self.compare(name + ": the lines", answered.text, running.played(text.encode()))
            self.compare(name + ": the way", way_of(answered), name)
            count += 1
        return count

    def check_links(self, pair: Pair, other: Pair) -> int:
        """What is no connection, or none that brings all."""
        rows = [
            ("link/hang", lambda request: "hang", pair, "https://api.test/x", 3),
            ("link/reset", lambda request: "reset", None, "http://api.test/x", 3),
            ("link/certificate", plain, other, "https://api.test/x", 3),
            ("link/no-tls", plain, None, "https://api.test/x", 3),
            ("seen/body-hang", lambda request: (BEGUN, "hang"), pair, "https://api.test/x", 3),
            ("seen/body-fault", lambda request: (BEGUN, "reset"), None, "http://api.test/x", 3),
            ("cors 200", plain, pair, "https://api.test/x", 0),
        ]
        for name, answer, own, url, status in rows:
            answered = answered_by(answer, own, url, name in ("link/hang", "seen/body-hang"), page="http://shop.test/")
            self.compare(name, (way_of(answered), answered.status()), (name, status))
            self.compare(name + ": no route is spoken of", "route" in json.dumps(answered.told.cases[-1].explanation and
                    answered.told.cases[-1].explanation.data()), False)
        for name, said in TLS_PORTS.items():
            for page in ("http://shop.test/", None):
                answered = answered_by(lambda request: said, None, "http://api.test/x", page=page)
                self.compare(f"a TLS port asked in plain, by {page}, answered as {name} does",
                             (way_of(answered), answered.status()), ("link/tls-port", 3))
        answered = answered_by(lambda request: b"HTTP/1.1 400 No\r\n\r\nno id; see https://api.test/help", None,
                               "http://api.test/x")
        self.compare("a 400 of another kind", (way_of(answered), answered.status()), ("basic 400", 0))
        with socket.create_server(("127.0.0.1", 0)) as listener:  # it takes connections, and says nothing
            mute = {("api.test", 443): listener.getsockname()}
            answered = asked_of("https://api.test/x", connect_to=mute, timeout=2)
            self.compare("a handshake that does not come", (way_of(answered), answered.status()), ("link/unreached", 3))
        with sockets.closed_port() as port:
            self.check_unconnected(port)
        reached = {"link/tls-port", *(name for name, *_ in rows)} | cases.CODED  # which check_coded reaches
        self.compare("the ways of connections of its own", cases.DIRECT - reached, set())
        return len(rows) + 2 * len(TLS_PORTS) + 5

    def check_unconnected(self, port: int) -> None:
        """A port at which nobody listens, by the URL and by --connect-to, and an unknown name."""
        own, closed = {("api.test", 443): ("127.0.0.1", port)}, f"127.0.0.1:{port}"
        for name, url, address in [("link/refused", f"http://{closed}/x", closed),
                                   ("link/refused", "https://api.test/x", closed),
                                   ("link/unknown-name", "http://no-such-name.invalid/x", "no-such-name.invalid:80")]:
            answered = asked_of(url, connect_to=own)
            self.compare(name, (way_of(answered), answered.status()), (name, 3))
            lines = " ".join(answered.told.cases[-1].explanation.lines())
            self.compare(name + ": the address that was tried, and no route: " + lines,
                         (address in lines, "route" in lines), (True, False))

    def check_statuses(self, pair: Pair) -> None:
        """0 is for what the page would read, and for nothing else."""
        jump = b"HTTP/1.1 302 Found\r\nAccess-Control-Allow-Origin: *\r\nLocation: https://cdn.test/y\r\nContent-Length: 0\r\n\r\n"
        long = b"HTTP/1.1 200 OK\r\nAccess-Control-Allow-Origin: *\r\n\r\n" + b"a" * (asked.LIMIT + 1)
        rows = [
            ("an image", plain, dict(load="image"), "loaded", 0),
            ("a redirect to another origin", lambda request: jump if request.target == "/x" else plain(request), {},
             "cors 200", 0),
            ("a body that is longer than is read here", lambda request: long, {}, "seen/body-toobig", 0),
            ("an opaque response", plain, dict(mode="no-cors"), "seen/opaque", 1),
            ("an opaque redirect", lambda request: jump, dict(redirect="manual"), "seen/opaqueredirect", 1),
            ("a body that is cut", lambda request: BEGUN, {}, "seen/body-cut", 1),
        ]
        for name, answer, more, way, status in rows:
            answered = answered_by(answer, pair, "https://api.test/x", page="https://shop.test/", **more)
            self.compare(name, (way_of(answered), answered.status()), (way, status))

    def check_cookies(self, pair: Pair) -> None:
        """Where a cookie is not sent, or a browser would keep it back, that is said."""
        rows: list[tuple[str, dict[str, Any], Optional[str]]] = [
            ("to another origin", dict(page="https://shop.test/"), "--credentials include alone"),
            ("by an element", dict(page="https://shop.test/", load="font"), "--crossorigin use-credentials alone"),
            ("to another site", dict(page="https://shop.test/", credentials="include"),
             "SameSite=None and Secure, and many users block them, but for those with `Partitioned` too"),
            ("to another scheme", dict(page="http://api.test/", credentials="include"), "SameSite=None"),
            ("to the same site", dict(page="https://www.api.test/", credentials="include"), None),
            ("to the page's own origin", dict(page="https://api.test/"), None),
            ("kept back", dict(page="https://api.test/", credentials="omit"), "--credentials omit"),
            ("as Set-Cookie has it", dict(page="https://api.test/", cookie=["a=1; HttpOnly"]),
             "`HttpOnly` is an attribute of"),
            ("with a preflight that fails", dict(page="https://www.api.test/", credentials="include", method="PUT"),
             "no cookie was sent, since only a preflight was sent"),
            ("with one of another site", dict(page="https://shop.test/", credentials="include", method="PUT"),
             "only a preflight was sent; once the preflight passes, the cookies of https://api.test go to another "
             "site"),
            ("with one without credentials", dict(page="https://shop.test/", method="PUT"),
             "--credentials include alone"),
            ("that is not given, to another site", dict(page="https://shop.test/", credentials="include", cookie=[]),
             "a browser sends those that it has of https://api.test, which is of another site: Chromium sends them "
             "only where they were set with SameSite=None and Secure"),
            ("that is not given, by an element",
             dict(page="https://shop.test/", load="font", crossorigin="use-credentials", cookie=[]), "SameSite=None"),
            ("that is not given, to the same site",
             dict(page="https://www.api.test/", credentials="include", cookie=[]), "so SameSite keeps none back"),
            ("that is not given, and not asked for", dict(page="https://shop.test/", cookie=[]), None),
            ("that is not given, to the page's own origin",
             dict(page="https://api.test/", credentials="include", cookie=[]), None),
        ]
        for name, more, part in rows:
            answered = answered_by(plain, pair, "https://api.test/x", **{"cookie": ["a=1"], **more})
            told = [note for note in answered.notes() if "cookie" in note]
            self.compare(f"a cookie {name}: {told}", len(told) == 1 and part in told[0] if part else told == [], True)

    def check_in_all(self, pair: Pair) -> None:
        """What CORS wants of all answers is said at the first try, also where a policy lets nothing be sent."""
        part = ("in all: the answer to PUT at https://api.test/x needs `Access-Control-Allow-Origin: "
                "https://shop.test` in place of any other except `*`, where it does not send that yet")
        for name, url, policy in [("a policy", "https://api.test/x", ["connect-src 'self'"]),
                                  ("mixed content", "http://api.test/x", [])]:
            answered = answered_by(plain, pair, url, page="https://shop.test/", method="PUT", policy=policy)
            in_all = replies.reply_of(answered).in_all
            self.compare(f"{name}: {in_all}", [one.strip().startswith(part) for one in in_all], [False, True])
            self.compare(f"{name}: what was sent", answered.wire.exchanges, [])
        self.check_led(pair)

    def check_led(self, pair: Pair) -> None:
        """What is wanted at the target of a redirect, too, which says `Origin: null` behind a detour (Fetch, section
        4.4, "HTTP-redirect fetch")."""
        away, own = b"Location: https://cdn.test/y", b"Access-Control-Allow-Origin: https://shop.test"
        passing = b"\r\n".join([b"HTTP/1.1 204 No", own, b"Access-Control-Allow-Headers: x-a", b"", b""])
        led = b"\r\n".join([b"HTTP/1.1 302 Found", own, away, b"Content-Length: 0", b"", b""])

        def at_target(request: loopback.Request) -> Said:
            return passing.replace(b"x-a", b"x-b") if request.target == "/y" else (
                passing if request.method == "OPTIONS" else led)
        asked = ("the answer to OPTIONS at https://cdn.test/y, which is asked with `Origin: null`, needs a status of "
                 "200 to 299, `Access-Control-Allow-Origin: *` in place of ")
        rows = [
            ("a preflight that is led away", lambda request: led, dict(method="PUT"), 2,
             f"  in all: where PUT is redirected as OPTIONS is, {asked}any other, `Access-Control-Allow-Methods: PUT`, "
             "where it does not send that yet"),
            ("a header that is led away", at_target, dict(header=[("X-A", "1")]), 0,
             f"  in all: {asked}`https://shop.test`, `Access-Control-Allow-Headers: x-b, x-a` in place of `x-b`"),
        ]
        for name, answer, more, number, line in rows:
            answered = answered_by(answer, pair, "https://api.test/x", page="https://shop.test/", **more)
            in_all = replies.reply_of(answered).in_all
            self.compare(f"{name}: {in_all}", in_all[number:number + 1], [line])

    def check_brief(self, pair: Pair) -> None:
        """--brief says what to change, in the verdict or, of several answers, in a line for each; and counts
        warnings."""
        bare, refused = b"HTTP/1.1 200 OK\r\nContent-Length: 0\r\n\r\n", "the page would not read it: "
        absent, needs = " has no Access-Control-Allow-Origin", "  in all: the answer to %s at https://api.test/x needs "
        read = f"the page would read it: 200, {len(TEXT)} bytes"
        rows = [
            ("what is read", plain(None), {}, ["the page would read it: 200, 2 bytes"]),
            ("a hidden header",
             b"HTTP/1.1 200 OK\r\nAccess-Control-Allow-Origin: *\r\nX-Total: 7\r\nContent-Length: 0\r\n\r\n",
             {}, ["the page would read it: 200, 0 bytes; the script does not see these headers of the answer: "
                  "X-Total"]),
            ("an answer", bare, {}, [f"{refused}12 CorsCheck: the answer{absent}; send `Access-Control-Allow-Origin: "
                                     "https://shop.test` and `Vary: Origin`"]),
            ("a preflight", bare, dict(method="PUT"), [f"{refused}7 PreflightCors: the answer to the preflight{absent}",
                                                       needs % "OPTIONS", needs % "PUT"]),
            ("an answer that is cut", BEGUN, {}, ["the page would not read all of it: the body ends before the end "
                                                  "that its head announced: 2 bytes came, and Content-Length says 9; "
                                                  "send all of it, and its right length"]),
            ("a style without its nonce", bare, dict(load="style", policy=["style-src 'nonce-n1'"]),
             ["the page would not load it: 4 CspRequest: policy 0 has `style-src 'nonce-n1'`, and the element has no "
              "nonce; give the element the nonce `n1`, made anew for each answer; or let policy 0 say `style-src "
              "'nonce-n1' https://api.test`"]),
            ("a coded answer without Vary", coded(b"gzip", packed(TEXT, 31)), dict(compressed=True),
             [read, "  1 warning, told without --brief: coding/vary-missing"]),
            ("one with it", coded(b"gzip", packed(TEXT, 31), b"Vary: Accept-Encoding"), dict(compressed=True), [read]),
        ]
        for name, said, more, wanted in rows:
            answered = answered_by(lambda request: said, pair, "https://api.test/x", page="https://shop.test/", **more)
            lines = replies.brief_lines(replies.reply_of(answered))
            begin = [line[:len(part)] if part.endswith(" needs ") else line for line, part in zip(lines, wanted)]
            self.compare(f"in brief, {name}: {lines}", begin + lines[len(wanted):], wanted)
        answered = answered_by(lambda request: plain(None), pair, "https://api.test/x", page=None)
        self.compare("in brief, without a page", replies.brief_lines(replies.reply_of(answered)),
                     [f"the page would read it: 200, 2 bytes; {asked.OWN_ORIGIN}"])

    def check_lints(self, pair: Pair) -> None:
        """What lints find in the words and in an answer is said, once."""
        wrong = b"HTTP/1.1 200 OK\r\nAccess-Control-Allow-Origin: *\r\nStrict-Transport-Security: max-age='1'\r\nContent-Length: 0\r\n\r\n"
        answered = answered_by(lambda request: wrong, pair, "https://api.test/x", page="https://shop.test/",
                               policy=["conect-src *"], integrity="sha1-abc", twice=True)
        told = [[part in note for note in answered.notes()].count(True)
                for part in ("`conect-src`", "`sha1`", "api.test/x: Strict-")]
        self.compare(f"what lints find: {answered.notes()}", told, [1, 1, 1])
        answered = answered_by(lambda request: coded(b"gzip", packed(TEXT, 31), b"Vary: Origin"), pair,
                               "https://api.test/x", page="https://shop.test/", compressed=True, twice=True)
        part = "https://api.test/x: Content-Encoding: Vary does not have Accept-Encoding, so a cache gives this coded"
        notes = [note for note in answered.notes() if part in note and "send `Vary: Origin, Accept-Encoding`" in note]
        self.compare(f"what a proxy's coded answer lacks: {answered.notes()}", len(notes), 1)

    def check_words(self, folder: str, place: str) -> None:
        """Words that are wrong are told in a sentence."""
        url, older = "https://api.test:8443/x", {**os.environ, "FIORRUDDA_LIBRARY": _ctypes.__file__}
        rows: list[tuple[str, list[Any], str]] = [
            ("no word for the URL", ["/x"], "write it whole"),
            ("a page that is none", [url, "--from", "about:blank"], "no http or https URL of a page"),
            ("a page with a blank in its host", [url, "--from", "https://a b/"], "no http or https URL of a page"),
            ("a cookie for no URL of a server", ["ftp://a.test/", "--from", url, "--cookie", "a=1"],
             "leave --cookie out"),
            ("a cookie with a line end", [url, "--cookie", "a=1\nb=2"], "--cookie"),
            ("a word that is no UTF-8", [os.fsencode(url) + b"\xff"], "no UTF-8"),
            ("a port that is too great", [url, "--connect-to", "api.test:8443:127.0.0.1:99999"], "at most 65535"),
            ("a word that a load has no use for", [url, "--load", "image", "--method", "PUT"], "--method"),
            ("a preflight that was copied",
             ["curl", url, "-X", "OPTIONS", "-H", "Access-Control-Request-Method: PUT", "-H",
              "Origin: https://app.example"], "this is a preflight"),
            ("a body of no file", [url, "--data", "@" + os.path.join(folder, "none")], "No such file"),
        ]
        for name, words, part in rows:
            told = ran(*words)
            self.compare(f"{name}: {told.stderr.decode()}",
                         (told.returncode, part.encode() in told.stderr, b"Traceback" in told.stderr), (2, True, False))
        nowhere = {**older, "FIORRUDDA_LIBRARY": "/nowhere"}
        for name, env in [("a library that lacks calls", older), ("no library", nowhere)]:
            told = ran(url, env=env)
            self.compare(name,
                         (told.returncode, told.stderr.count(b"\n"), b"bin/lib" in told.stderr,
                          b"bin/why --net" in told.stderr),
                         (2, 1, True, True))
        self.compare("--help without a library", ran("--help", env=nowhere).returncode, 0)
        told = ran("/x", "--from", url, "--cookie", "a=1", "--connect-to", place)
        self.compare("a relative URL with a cookie", (told.returncode, b"\n  Cookie: a=1\n" in told.stdout), (0, True))
        body, export = os.path.join(folder, "body"), os.path.join(folder, "sent.json")
        with open(body, "wb") as file:
            file.write(b"a\n\xff")
        for data, sent in [(["--data", "@" + body], rb"body 3: a\x0a\xff"), (["--data", "@-"], b"body 2: hi"),
                           (["--data-raw", "@-"], b"body 2: @-"),
                           (["-d", "a=1", "--data-raw", "b=2"], b"body 7: a=1&b=2"),
                           (["--data-urlencode", "q=a b&c"], b"body 11: q=a%20b%26c")]:
            told = ran(url, "--connect-to", place, "--export", export, *data, input=b"hi")
            self.compare(f"a body by {data}: {told.stdout!r}",
                         (told.returncode, b"\n  POST /x " in told.stdout, sent in told.stdout), (0, True, True))
            self.compare("what its scenario lacks", b"the body is no UTF-8" in told.stdout, data[1] == "@" + body)

    def check_curl_words(self, place: str) -> None:
        """Words of curl, and headers that no page can set."""
        url = "https://api.test:8443/x"
        rows = [
            (["-G", "-d", "a=1", "--data-urlencode", "b= "], ["GET /x?a=1&b=%20 HTTP/1.1"]),
            (["-I", "-sSL", "-k"], ["HEAD /x HTTP/1.1"]),
            (["-u", "u:p", "-XDELETE"], ["DELETE /x HTTP/1.1", "Authorization: Basic dTpw"]),
            (["-e", "https://api.test:8443/page", "-A", "x"], ["Referer: https://api.test:8443/page"]),
            (["-b", "a=1; b=2", "-i", "--compressed"], ["Cookie: a=1; b=2"]),
            (["--cookie", "a=1", "--cookie", "b=2"], ["Cookie: a=1; b=2"]),
            (["-H", "X-Empty;"], ["X-Empty: "]),
            (["--data-raw", "--x--"], ["POST /x HTTP/1.1", "body 5: --x--"]), (["-d", "-x"], ["body 2: -x"]),
            (["-fsSL", "-o", "/dev/null", "-w", "%{http_code}", "-m", "10", "--http2", "-c", "jar", "--retry", "3"],
             ["GET /x HTTP/1.1"]),
            (["--resolve", "cdn.test:443:127.0.0.1", "-d", "a"], ["POST /x HTTP/1.1"]),
            (["-F", "a=b;type=text/plain", "-F", "f=@/dev/null;filename=\"x\""], ["POST /x HTTP/1.1"]),
        ]
        for words, lines in rows:
            for first in (list[str](), ["curl"]):
                told = ran("--connect-to", place, *first, *words, "--url", url)
                text = told.stdout.decode().split("\n")
                self.compare(f"{first + words}: {told.stdout!r}{told.stderr!r}",
                             (told.returncode, [one for one in lines if "  " + one not in text]), (0, []))
        self.check_left_out(place, url)
        for words in (["-b", "cookies.txt"], ["-u", "me"], ["--data-urlencode", "q@file"], ["-H", "none"],
                      ["--with-secrets"]):
            told = ran(url, *words)
            self.compare(f"{words}: {told.stderr!r}", (told.returncode, b"Traceback" in told.stderr), (2, False))

    def check_left_out(self, place: str, url: str) -> None:
        """Headers that no page sets, and those that browsers add."""
        told = ran("curl", url, "-d", "a=1", "--connect-to", place)
        self.compare(f"a form, as curl sends it: {told.stdout!r}",
                     b"\n  Content-Type: application/x-www-form-urlencoded\n" in told.stdout, True)
        names = ["Origin", "Accept-Encoding", "Sec-Fetch-Site", "User-Agent", "Host", "Proxy-Authorization"]
        told = ran(url, "--from", "https://app.example/", "--connect-to", place, "--header", "Cookie: a=1",
                   *sum((["--header", name + ": x"] for name in names), []))
        text = told.stdout.decode()
        self.compare("what no page can set: " + text, (told.returncode, sorted(self.left_out(text))),
                     (0, sorted(names)))
        self.compare("credentials come first: " + text, self.left_out(text)[:1], ["Proxy-Authorization"])
        self.check_agent(place, url)
        self.compare("a cookie in a header: " + text, "# note: `Cookie` is taken as --cookie\n" in text, True)
        told = ran(url, "--from", "https://app.example/", "--connect-to", place, "--mode", "no-cors",
                   "-H", "Sec-Fetch-Dest: empty", "-H", "X-A: 1", "-H", "Authorization: Bearer a")
        self.compare(f"what is dropped in mode no-cors: {told.stdout!r}", self.left_out(told.stdout.decode()),
                     ["Authorization", "X-A", "Sec-Fetch-Dest"])
        agent, fresh, old = "User-Agent: Mozilla/5.0", "Cache-Control: no-cache", "Pragma: no-cache"
        for headers, names in [([fresh], ["User-Agent"]), ([fresh, old], ["Cache-Control", "Pragma", "User-Agent"]),
                               (["Cache-Control: max-age=0"], ["Cache-Control", "User-Agent"])]:
            told = ran(url, "--connect-to", place, *sum((["-H", one] for one in [agent, *headers]), []))
            left = sorted(self.left_out(told.stdout.decode()))
            self.compare(f"left out with {headers}: {told.stdout!r}", left, names)
        rows: list[tuple[list[str], list[str]]] = [
            (["-H", "authorization:"], ["`authorization` is sent without a value"]), (["-H", "x-a: 1"], []),
            (["-H", "it's: 1"], ["the header `it's` has a quote in its name, which"])]
        for words, lines in rows:
            notes = [line[8:] for line in ran(url, "--connect-to", place, *words).stdout.decode().split("\n")
                     if line.startswith("# note: ") and ("without a value" in line or "quote" in line)]
            self.compare(f"notes of {words}: {notes}",
                         [one[:len(part)] for one, part in zip(notes, lines)] + notes[len(lines):], lines)
        for origin, count in [("https://app.example", 1), ("https://api.test:8443", 0)]:
            told = ran(url, "--connect-to", place,
                       *sum((["-H", one] for one in [agent, "origin: " + origin, "dpr: 2", "rtt: 50"]), []))
            self.compare(f"client hints from {origin}: {told.stdout!r}",
                         told.stdout.count(b"# note: the browser may have added `dpr`, `rtt` by itself (client hints)"),
                         count)

    def check_agent(self, place: str, url: str) -> None:
        """What browsers make of a script's User-Agent is said once, where a script may set one (Fetch, section 2.2.2:
        it is no forbidden header)."""
        says = "; where a script sets one, Firefox sends that and asks another origin for a preflight first, and"
        agent = ["-H", "User-Agent: Mozilla/5.0"]
        rows: list[tuple[list[str], int]] = [
            (agent, 1), (["-A", "mine"], 1), ([*agent, "-A", "mine"], 1), ([], 0),
            ([*agent, "--mode", "no-cors"], 0), ([*agent, "-H", "Sec-Fetch-Mode: no-cors"], 0)]
        for words, count in rows:
            text = ran(url, "--connect-to", place, *words).stdout.decode()
            self.compare(f"a User-Agent, by {words}: {text}", text.count(says), count)

    def check_first_words(self, place: str) -> None:
        for words, part in FIRST_WORDS:
            told = ran("--connect-to", place, *words)
            self.compare(f"{words}: {told}", (told.returncode, told.stdout, part.encode() in told.stderr),
                         (2, b"", True))
        for url in ("data.json", "v1.2/x", "./api.test/x", "/api.test"):
            told = ran("--connect-to", place, url, "--from", "https://api.test:8443/")
            self.compare(f"{url}: {told.stderr!r}", told.returncode, 0)

    def check_stray(self, place: str) -> None:
        """Words that came apart are refused before anything is asked, and what may be a secret is not said again."""
        asked = (f"{os.path.join(ROOT, 'bin', 'ask')} --connect-to {place} curl 'https://api.test:8443/x' -H 'origin: "
                 "https://app.example' ")
        for words, part in STRAY:
            told = subprocess.run(["bash", "-c", asked + words], stdout=subprocess.PIPE, stderr=subprocess.PIPE)
            text = told.stderr.decode()
            self.compare(f"{words}: {text}", (told.returncode, told.stdout, part in text, "eyJ" in text),
                         (2, b"", True, False))
        for own in (["-H", "accept:", "https://api.test:8443/x"],
                    ["--from", "https://api.test:8443/", "x", "--header", "a: b"]):
            told = ran("--connect-to", place, *own)
            self.compare(f"{own}: {told.stderr!r}", (told.returncode, b"GET /x " in told.stdout), (0, True))

    def check_glued(self, place: str) -> None:
        """A URL right behind a header's colon is sent with it, and named; one that a header may have is not."""
        url, note = "https://api.test:8443/x", "# note: the URL behind `x-next:` is sent as the value of that header: is a "
        rows = [(["-H", "x-next:https://api.test:8443/y"], True), (["--header=x-next:https://api.test:8443/y"], True),
                (["-Hx-next:https://api.test:8443/y"], True), (["-H", "x-next: https://api.test:8443/y"], False),
                (["-H", "origin:https://api.test:8443"], False), (["-H", "referer:https://api.test:8443/"], False),
                (["-H", 'accept: application/ld+json; profile="https://a.test/ns"'], False),
                (["-H", "cookie: back=https://a.test/"], False)]
        for words, is_named in rows:
            told = ran(url, "--connect-to", place, *words)
            self.compare(f"{words}: {told}", (told.returncode, note.encode() in told.stdout,
                                                    b"value of that header" in told.stdout), (0, is_named, is_named))
        text = ran("-H", "x-next:" + url).stderr.decode()
        part = "name a URL; the header `x-next` has one as its value: is a"
        self.compare("no URL but in a header: " + text, part in text, True)

    def left_out(self, text: str) -> list[str]:
        """The names in the one note of what is left out."""
        notes = [line for line in text.split("\n") if line.startswith("# note: left out: ")]
        self.compare("notes of what is left out", len(notes) < 2, True)
        return re.findall("`([^`]*)`", "".join(notes))

    def check_command(self, pair: Pair, folder: str) -> None:
        """As people call it."""
        export = os.path.join(folder, "asked.json")
        with loopback.Servers(allowed, pair) as servers:
            place = f"api.test:8443:127.0.0.1:{servers.port}"
            put = ["https://api.test:8443/x", "--from", "https://app.example/", "--method", "PUT", "--header",
                   "Content-Type: application/json", "--data", "{}", "--credentials", "include", "--cookie", "a=1",
                   "--connect-to", place]
            told = ran(*put, "--twice", "--export", export, "--with-secrets")
            text = told.stdout.decode()
            self.compare("a PUT twice: " + text + told.stderr.decode(),
                         (told.returncode, text.count("  OPTIONS /x"), text.count("\nresult cors 200")), (0, 1, 2))
            self.compare("what is said of SameSite", "SameSite=None" in text, True)
            with open(export, "rb") as file:
                played = running.played(file.read())
            own = [line for line in text.splitlines() if not line.startswith(("<", "#"))]
            self.compare("the exported scenario", own == played.splitlines()[1:len(own) + 1], True)
            book = os.path.join(folder, "asked.book")
            known = [ran(*put, "--book", book).stdout.decode().count("  OPTIONS /x") for _ in range(2)]
            self.compare("what a book of earlier calls keeps", known, [1, 0])
            with open(book, "wb") as file:
                file.write(b"fiorrudda book 2\n")
            self.compare("a file that is no book", ran(*put, "--book", book).returncode, 2)
            with open(book, "rb") as file:
                self.compare("and what is left of it", file.read(), b"fiorrudda book 2\n")
            self.compare("a folder that is none", ran(*put, "--book", os.path.join(folder, "none", "x")).returncode, 2)
            os.remove(book)
            os.mkdir(book)
            self.compare("a folder in the place of the book", ran(*put, "--book", book).returncode, 2)
            self.compare("--json", json.loads(ran(*put, "--json").stdout)["fetches"][0]["result"], "cors 200")
            self.check_words(folder, place)
            self.check_curl_words(place)
            self.check_first_words(place)
            self.check_stray(place)
            self.check_glued(place)
            self.check_copied(place)
            self.compare("a refused one",
                         ran("https://api.test:8443/x", "--from", "https://other.example/", "--connect-to", place).returncode, 1)
            for words in ([*put], ["--help"], [*put, "--json"]):
                self.compare("a closed pipe", pipes.without_reader("ask", *words), b"")

    def check_coded(self, pair: Pair) -> None:
        for name, answer in whole_bodies().items():
            answered = answered_by(lambda request: answer, pair, "https://api.test/x", page="https://shop.test/")
            result = answered.told.cases[-1].result
            shown = [line for _, own in answered.pieces() for line in own]
            self.compare(f"{name}: what the page reads", (result.body, result.short(), answered.status()),
                         (TEXT, "cors 200", 0))
            self.compare(f"{name}: the answer as it came", sum(line.startswith("< Content-Encoding: "
                                                                               "") for line in shown), 1)
            self.compare(f"{name}: a note: {answered.notes()}", sum("was decoded" in note for note in answered.notes()),
                         1)
            own = answered_by(lambda request: answer, pair, "https://api.test/x", page="https://api.test/").told.cases[-1]
            self.compare(f"{name}: the headers that a page of its own origin reads", own.result.headers,
                         own.head.headers)
        gzip, digest = packed(TEXT, 31), base64.b64encode(hashlib.sha256(TEXT).digest()).decode()
        exposed = coded(b"gzip", gzip, b"Access-Control-Expose-Headers: Content-Encoding, Transfer-Encoding")
        answered = answered_by(lambda request: exposed, pair, "https://api.test/x", page="https://shop.test/")
        self.compare("coded: the headers that another page reads", answered.told.cases[-1].result.headers,
                     [("Content-Encoding", "gzip"), ("Content-Length", str(len(gzip)))])
        rows: list[tuple[str, Said, dict[str, Any], str, int]] = [
            ("an empty body", coded(b"gzip", b""), {}, "cors 200", 0),
            ("a body that ends before its coding", coded(b"gzip", gzip[:-9]), {}, "body/coding-cut", 1),
            ("a body that ends before its length", coded(b"gzip", gzip)[:-9], {}, "seen/body-cut", 1),
            ("a body that is none of its coding", coded(b"gzip", b"hello, there"), {}, "body/not-its-coding", 1),
            ("the same with a digest", coded(b"gzip", b"hello, there"), dict(integrity="sha256-" + digest),
             "body/not-its-coding", 1),
            ("the same of an opaque response", coded(b"gzip", b"hello, there"), dict(mode="no-cors"), "seen/opaque", 1),
            ("chunks with more trailers than are read", coded(b"gzip", in_chunks(gzip)[:-2] + b"t" * 8190 + b"\r\n\r\n",
                                                              framing=[b"Transfer-Encoding: chunked"]), {},
             "seen/body-cut", 1),
            ("a length that is none", coded(b"gzip", gzip, framing=[b"Content-Length: a"]), {}, "seen/body-cut", 1),
            ("two lengths", coded(b"gzip", gzip, framing=[b"Content-Length: 1, 2"]), {}, "body/two-lengths", 1),
            ("a body that breaks off", (coded(b"gzip", gzip)[:-9], "reset"), {}, "seen/body-fault", 3),
            ("the answer to HEAD", coded(b"gzip", b"", framing=[b"Content-Length: 9"]), dict(method="HEAD"), "cors 200",
             0),
            ("an opaque response", coded(b"gzip", gzip), dict(mode="no-cors"), "seen/opaque", 1),
            ("the right digest", coded(b"gzip", gzip), dict(integrity="sha256-" + digest), "cors 200", 0),
            ("another digest", coded(b"gzip", gzip), dict(integrity="sha256-" + "A" * 43 + "="), "integrity/mismatch",
             1),
            ("256 MB of zeros", coded(b"gzip", packed(bytes(1 << 20), 31, 256)), {}, "seen/body-toobig", 0),
        ]
        for name, said, more, way, status in rows:
            with self.within(f"coded, {name}", 5):
                answered = answered_by(always(said), None, "http://api.test/x", page="http://shop.test/", **more)
            self.compare(f"coded, {name}", (way_of(answered), answered.status()), (way, status))
            if name == "another digest":
                self.compare("the digest that is advised", digest in answered.told.cases[-1].explanation.change, True)
        self.check_told_codings(gzip)
        self.check_read_over(gzip)
        self.check_odd_codings(gzip)
        self.check_framings(gzip)
        self.check_asked_codings(pair)
        if node_brotli.program():
            self.check_node()
        self.check_unread(pair, gzip)
        self.check_packed(pair, gzip)
        self.check_undecoded(pair)

    def check_read_over(self, gzip: bytes) -> None:
        """What stands behind the data of a coding: Chromium and Firefox read gzip without it, or where it does not
        fit."""
        deflate = packed(TEXT, 15)
        rows = [(b"gzip", gzip[:-8], "the gzip body lacks its trailer"), (b"gzip", gzip[:-3], "lacks its trailer"),
                (b"gzip", flipped(gzip, 8), "has a checksum that does not fit it"),
                (b"gzip", flipped(gzip, 4), "says another length in its trailer"),
                (b"deflate", deflate[:-4], "the deflate body lacks its trailer")]
        for coding, body, part in rows:
            status, read, _, told = told_of(coded(coding, body))
            self.compare(f"read over: {part}: {told}", (status, read, part + ": Chromium and Firefox read it "
                                                                             "all" in told),
                         (0, TEXT, True))
        for coding, body, parts in [
                (b"deflate", flipped(deflate, 1), ["the deflate body has a checksum that does not fit it"]),
                (b"gzip", gzip[:200],
                 ["would not read all of it: the gzip body is cut; Chromium and Firefox take what was"])]:
            status, _, _, told = told_of(coded(coding, body))
            self.compare(f"not read over: {told}", (status, [part for part in parts if part not in told]), (1, []))

    def check_odd_codings(self, gzip: bytes) -> None:
        """Codings that no browser knows, that stand in no list, and that name more, or less, than was done."""
        rows = [
            (b"foo", gzip, 0,
             "Content-Encoding says `foo`, which Chromium and Firefox do not decode: the page gets the"),
            (b"compress, none", gzip, 0, "do not decode: the page gets the bytes as they came"),
            (b"gzip, foo", gzip, 4,
             "Chromium gives the page the bytes as they came, and Firefox decodes what it knows"),
            (b'"gzip"', gzip, 4, "Chromium makes such a value a network error"),
            (b"gzip, identity", gzip, 0, "Chromium gives the page the bytes as they came, and Firefox decodes them"),
            (b"gzip, gzip", gzip, 1, "the body is gzip alone, and Content-Encoding says `gzip, gzip`"),
            (b"gzip, gzip", gzip, 1, "change: let Content-Encoding say `gzip` alone: look for a program and a proxy"),
            (b"gzip", packed(gzip, 31), 0,
             "the body is still gzip once it is decoded: the page gets it packed; compress it"),
            (b"gzip, gzip", packed(gzip, 31), 0, "the body came as gzip, gzip all the same"),
            (b"br", b"plain text, none of it", 4 if codings.decoder("br") is None else 1, "br"),
        ]
        for coding, body, wanted, part in rows:
            status, _, _, told = told_of(coded(coding, body))
            self.compare(f"Content-Encoding {coding!r}: {told}", (status, part in told), (wanted, True))
        with without_br():
            status, _, _, told = told_of(coded(b"br", b"?"))
        parts = ["install Debian's package python3-brotli, or brotli by pip; a browser", "; known without it: the "
                 "status 200, and that CORS, policies and types let it",
                 "change: install python3-brotli and ask again; or for a verdict"]
        self.compare(f"br: {told}", (status, [part for part in parts if part not in told]), (4, []))

    def check_framings(self, gzip: bytes) -> None:
        """A length beside chunks; and two lengths, of which one verdict is told."""
        both = [b"Transfer-Encoding: chunked", b"Content-Length: 5"]
        for answer in (coded(b"gzip", in_chunks(gzip), framing=both),
                       coded(b"identity", in_chunks(TEXT), framing=both)):
            status, read, _, told = told_of(answer)
            self.compare(f"a length beside chunks: {told}", (status, read, "(request smuggling, RFC 9112, section "
                                                                           "6.3): take" in told),
                         (0, TEXT, True))
        two = coded(b"identity", b"hi there", framing=[b"Content-Length: 5", b"Content-Length: 8"])
        for more in ({}, dict(mode="no-cors")):
            answered = answered_by(lambda request: two, None, "http://api.test/x", page="http://shop.test/", **more)
            self.compare(f"two lengths: {answered.verdict[1]}",
                         (answered.status(), answered.told.data()[0]["verdict"], answered.verdict[1].startswith(
                        "the page would not read it: the answer has two lengths, 5 and 8: both browsers make that a")),
                         (1, "refused", True))

        bare = two.replace(b"Access-Control-Allow-Origin: *\r\n", b"")
        answered = answered_by(lambda request: bare, None, "http://api.test/x", page="http://shop.test/")
        says = ("the page would not read it: the answer has two lengths, 5 and 8: both browsers make that a network "
                "error, whatever else it says; besides 12 CorsCheck: ")
        self.compare(f"two lengths, and no CORS: {answered.verdict[1]}",
                     (answered.status(), answered.verdict[1].startswith(says)), (1, True))

    def check_asked_codings(self, pair: Pair) -> None:
        """The verdict and a note tell how to ask as a browser does, where the answer may depend on that; --compressed
        does it, as far as codings are decoded here, and says which ones a browser names (br and zstd over https)."""
        for line, is_told in [(b"Vary: Accept-Encoding", True), (b"Vary: Origin", False)]:
            told = told_of(coded(b"identity", TEXT, line))[3]
            self.compare(f"{line!r}: {told}", "--compressed asks with `gzip, deflate" in told, is_told)
            answered = answered_by(lambda request: coded(b"identity", TEXT, line), None, "http://api.test/x",
                                   page="http://shop.test/")
            says = "; it was asked for without a coding: --compressed asks as a browser does"
            self.compare(f"{line!r}: {answered.verdict}", (answered.status(), answered.verdict[1].endswith(says)),
                         (0, is_told))
        for words, part in [({}, b"identity"), (dict(compressed=True), codings.accepted().encode())]:
            sent = []
            def answer(request: loopback.Request) -> Said:
                sent.append(request.data)
                return coded(b"identity", TEXT)
            told = told_of(answer, **words)[3]
            self.compare(f"what is sent with {words}: {sent}",
                         [b"\r\nAccept-Encoding: %s\r\n" % part in one for one in sent], [True])
            says = f"`Accept-Encoding: {codings.accepted()}` (--compressed), the codings that are decoded here, and"
            self.compare(f"what is said of --compressed: {told}",
                         (says in told, "a browser sends this server `gzip, deflate`, and br and zstd over" in told),
                         (words != {}, words != {}))
        notes = answered_by(plain, pair, "https://api.test/x", page="https://shop.test/", compressed=True).notes()
        says = "identity, since the engine decodes none; a browser sends this server `gzip, deflate, br, zstd`"
        self.compare(f"what is said of --compressed over https: {notes}",
                     [one.endswith(says) for one in notes].count(True), 1)

    def check_node(self) -> None:
        """Where python3 has no module brotli, node decodes br as that does, and no more of it than is read."""
        zeros = 'process.stdout.write(require("zlib").brotliCompressSync(Buffer.alloc(1 << 26)))'
        bomb = subprocess.run([node_brotli.program() or "node", "-e", zeros], stdout=subprocess.PIPE, check=True).stdout
        whole = stored(TEXT)
        rows = [
            ("whole", whole, "cors 200", TEXT, 0), ("with bytes behind its end", whole + b"more", "cors 200", TEXT, 0),
            ("cut", whole[:-9], "body/coding-cut", None, 1),
            ("none", b"plain text, none of it", "body/not-its-coding", None, 1),
            ("empty", b"", "cors 200", b"", 0), ("64 MB of zeros", bomb, "seen/body-toobig", None, 0),
        ]
        with mock.patch.object(codings, "brotli", None):
            for name, body, way, read, status in rows:
                for framing, sent in [(None, body), ([b"Transfer-Encoding: chunked"], in_chunks(body))]:
                    told = told_of(coded(b"br", sent, framing=framing))
                    self.compare(f"br by node, {name}: {told[3]}", told[:3], (status, read, way))

    def check_undecoded(self, pair: Pair) -> None:
        """Codings that nothing here decodes are named, with what is to be installed."""
        with without_br():
            for coding, part in [(b"br", "br is not decoded here, since there is neither node nor python3's module "
                                         "brotli: install Debian's package python3-brotli"),
                                 (b"zstd", ": zstd is not decoded here; a browser"),
                                 (b"gzip, gzip, gzip, gzip, gzip", "gzip is not decoded here; ")]:
                answered = answered_by(lambda request: coded(coding, b"?"), pair, "https://api.test/x",
                                       page="https://shop.test/")
                self.compare(f"a coding that nothing here decodes: {coding!r}: {answered.verdict}",
                             (answered.status(), answered.told.cases[-1].result.short(), part in answered.verdict[1]),
                             (4, "23 Coding", True))
            answered = answered_by(lambda request: coded(b"br", b"?"), pair, "https://api.test/x", load="image")
            self.compare(f"an image in br, without its decoder: {answered.notes()}",
                         (answered.status(), "install Debian's package python3-brotli" in "".join(answered.notes())),
                         (0, True))

    def check_unread(self, pair: Pair, gzip: bytes) -> None:
        """What an element loads is decided by the engine before its body is read; a fault of the body is one all the
        same."""
        lengths, chunked = [b"Content-Length: 1, 2"], [b"Transfer-Encoding: chunked"]
        cut, not_coded = ("body/coding-cut", "send all of it"), ("body/not-its-coding", "leave Content-Encoding out")
        rows: list[tuple[str, Said, str, str]] = [
            ("a cut body", BEGUN, "seen/body-cut", "2 bytes came, and Content-Length says 9"),
            ("cut chunks", coded(b"identity", b"5\r\nab", framing=chunked), "seen/body-cut", "ends before the end"),
            ("two lengths", coded(b"identity", b"a", framing=lengths), "body/two-lengths",
             "two lengths, 1 and 2: both"),
            ("a body that is no gzip", coded(b"gzip", TEXT), *not_coded),
            ("the same in chunks", coded(b"gzip", in_chunks(TEXT), framing=chunked), *not_coded),
            ("the same, on a connection that stays", (coded(b"gzip", TEXT, framing=[]), "hang"), *not_coded),
            ("a gzip that is cut", coded(b"gzip", gzip[:-9]), *cut),
            ("the same, up to the end", coded(b"gzip", gzip[:-9], framing=[]), *cut),
            ("the length of the text", coded(b"gzip", gzip, framing=[b"Content-Length: %d" % len(TEXT)]),
             "seen/body-cut", f"let Content-Length say {len(gzip)}"),
            ("gzip that its length cuts", coded(b"gzip", gzip, framing=[b"Content-Length: %d" % (len(gzip) - 9)]),
             "body/coding-cut", f"let Content-Length say {len(gzip)}"),
            ("gzip, said to be deflate", coded(b"deflate", gzip), "body/not-its-coding",
             "let Content-Encoding say gzip"),
        ]
        for kind, (name, answer, way, part) in itertools.product(["image", "script"], rows):
            typed: Said = with_type(answer, kind)
            answered = answered_by(always(typed), pair, "https://api.test/x", is_endless(typed),
                                   page="https://shop.test/", load=kind)
            told = "\n".join([answered.verdict[1], *answered.told.cases[-1].explanation.lines(), *answered.notes()])
            self.compare(f"a load of a {kind}, {name}: {told}",
                         (way_of(answered), answered.status(), answered.told.cases[-1].verdict, part in told,
                          re.match("the page would not load (all of it|it|it before the connection closes): the ",
                                   answered.verdict[1]) is not None, "was not read" in told),
                         (way, 1, "refused", True, True, False))
        self.check_loaded(pair, gzip)

    def check_loaded(self, pair: Pair, gzip: bytes) -> None:
        """Bodies in which nothing is wrong, or nothing that is known."""
        chunked = [b"Transfer-Encoding: chunked"]
        good: dict[str, Said] = {
                "gzip": coded(b"gzip", gzip), "no body": coded(b"gzip", b""), "a whole body": plain(None),
                "gzip in chunks": coded(b"gzip", in_chunks(gzip), framing=chunked),
                "gzip with bytes behind its end": coded(b"gzip", gzip + b"more"),
                "a beginning": (coded(b"gzip", gzip[:99], framing=[]), "hang"),
                "a long body": coded(b"identity", bytes(300000)), "an unknown coding": coded(b"zstd", b"?")}
        for name, answer in good.items():
            answered = answered_by(lambda request: answer, pair, "https://api.test/x", is_endless(answer),
                                   page="https://shop.test/", load="image")
            self.compare(f"a load, {name}: {answered.notes()}",
                         (answered.status(), way_of(answered), "body" in "".join(answered.notes())),
                         (0, "loaded", False))
        answered = answered_by(lambda request: coded(b"zstd", gzip, b"Vary: Accept-Encoding"), pair,
                               "https://api.test/x", page="https://shop.test/", load="image")
        self.compare(f"a load, gzip said to be zstd: {answered.notes()}", (answered.status(), answered.notes()[-1:]), (
            0, ["https://api.test: its body was not read: Content-Encoding says zstd; its first bytes, 1f 8b, are "
                "those of gzip"]))

    def check_packed(self, pair: Pair, gzip: bytes) -> None:
        """A note tells of gzip that no Content-Encoding names, but where it is a file that is packed."""
        rows = [
            ("no coding", "/x", None, gzip, b"application/json", "the answer has no Content-Encoding: the page gets it "
             "packed: send `Content-Encoding: gzip`"),
            ("identity", "/x", b"identity", gzip, b"image/png", "Content-Encoding says `identity`: the page gets it "
             "packed: send `Content-Encoding: gzip` in its place"),
            ("of SVG", "/x.svgz", None, gzip, b"image/svg+xml", "send `Content-Encoding: gzip`"),
            ("no type", "/x", None, gzip, None, "send `Content-Encoding: gzip`"),
            ("its coding", "/x", b"gzip", gzip, b"image/png", None),
            ("in capitals", "/x", b"GZIP", gzip, b"image/png", None),
            ("a text", "/x", None, TEXT, b"application/json", None),
            ("no body", "/x", None, b"", b"application/json", None),
            *[("a file", "/x", None, gzip, kind, None) for kind in
              (b"application/gzip", b"Application/X-GZip; a=b", b"application/octet-stream",
               b"application/tlsrpt+gzip")],
            *[("a file", path, None, gzip, b"text/plain", None) for path in ("/x.gz", "/x.tar.gz?a=1", "/X.TGZ")],
        ]
        for load, (name, path, coding, body, kind, part) in itertools.product([None, "image"], rows):
            lines = [b"Content-Length: %d" % len(body)]
            lines += [b"Content-Encoding: " + coding] if coding else []
            lines += [b"Content-Type: " + kind] if kind else []
            answer = b"\r\n".join([b"HTTP/1.1 200 OK", b"Access-Control-Allow-Origin: *", *lines, b"", body])
            answered = answered_by(lambda request: answer, pair, "https://api.test" + path, page="https://shop.test/",
                                   load=load)
            told = [note for note in answered.notes() if "begins as gzip does" in note]
            self.compare(f"packed: {name}, {load}{path}: {answered.notes()}",
                         (answered.status(), len(told), "".join(told).endswith(part or "")),
                         (0, part is not None, True))
            is_first = answered.verdict[1].endswith(" bytes of gzip, which the page gets packed")
            self.compare(f"packed: {name}, {load}{path}: {answered.verdict[1]}", is_first,
                         not load and part is not None)
        refused = coded(b"identity", gzip).replace(b"Access-Control-Allow-Origin: *\r\n", b"")
        for answer, mode in [(refused, None), (coded(b"identity", gzip), "no-cors")]:
            answered = answered_by(lambda request: answer, pair, "https://api.test/x", page="https://shop.test/",
                                   mode=mode)
            self.compare("packed, and not read", [note for note in answered.notes() if "gzip" in note], [])

    def check_told_codings(self, gzip: bytes) -> None:
        """What is said of a body whose head does not fit it, and what is not."""
        text, size = b"Content-Length: %d" % len(TEXT), len(gzip)
        noise = packed(b"".join(hashlib.sha256(b"%d" % number).digest() for number in range(9000)), 31)
        short: list[tuple[str, bytes, int, list[Any]]] = [
            ("", gzip, size, [b""]), (", on a connection that stays", gzip, size, ["hang"]),
            (", and more", gzip + b"more", size, [b""]), (", of much", noise, len(noise), [b""])]
        rows: list[tuple[str, Any, list[str], list[str]]] = [
            ("plain bytes", coded(b"gzip", TEXT),
             ["is not gzip, as Content-Encoding says", "leave Content-Encoding out, or compress"],
             ["right length", "1f 8b", "zlib", "Error -3", "incorrect"]),
            ("a cut coding", coded(b"gzip", gzip[:-9]), ["the gzip body is cut", "header: Content-Encoding"],
             ["length"]),
            ("gzip, said to be deflate", coded(b"deflate", gzip), ["1f 8b", "let Content-Encoding say gzip"],
             ["compress it"]),
            ("gzip, said to be zstd", coded(b"zstd", gzip), ["1f 8b", "let Content-Encoding say gzip"],
             ["needs no change"]),
            ("of an unknown coding", coded(b"zstd", b"?"),
             ["only if it is of that coding", "if the body is of that coding, a browser"],
             ["1f 8b", "a browser would, and"]),
            ("the length of the text", coded(b"gzip", gzip, framing=[text]),
             [f"{size} bytes came, and Content-Length says {len(TEXT)}, which is the length of the text",
              f"let Content-Length say {size}"], []),
            ("the length of the text, on a connection that stays", (coded(b"gzip", gzip, framing=[text]), "hang"),
             [f"time limit: {size} bytes came, and Content-Length says {len(TEXT)}, which is the length of the text",
              f"end it, or let Content-Length say {size}"], []),
            ("another length", coded(b"gzip", gzip, framing=[b"Content-Length: %d" % (size + 3)]),
             [f"{size} bytes came, and Content-Length says {size + 3}"], ["of the text"]),
            *[(f"a length that is too short{told}",
               (coded(b"gzip", data, framing=[b"Content-Length: %d" % (size - 9)]), *link),
               ["the gzip body is cut: ", f"Content-Length says {size - 9}", f"header: Content-Length: {size - 9}",
                f"change: let Content-Length say {wanted}\n"], ["header: Content-Encoding", "send all"])
              for told, data, wanted, link in short],
            ("a length that is too short, of gzip that is cut",
             coded(b"gzip", gzip[:-1], framing=[b"Content-Length: 99"]),
             ["header: Content-Length: 99",
              "change: leave Content-Length out, or let it say how many bytes there are\n"],
             ["send all", "let Content-Length say"]),
            ("two lengths", coded(b"gzip", gzip, framing=[text, b"Content-Length: %d" % size]),
             [f"two lengths, {len(TEXT)} and {size}", "both browsers make that a network error"], ["announced"]),
        ]
        for name, answer, parts, others in rows:
            answered = answered_by(always(answer), None, "http://api.test/x", is_endless(answer),
                                   page="http://shop.test/")
            told = "\n".join(answered.told.cases[-1].explanation.lines() + answered.notes())
            first = answered.verdict[1]
            is_odd = first.startswith("the page would not") and ": cors 200" in first
            self.compare(f"the verdict on a body, {name}: {first}", (is_odd, first.partition(": ")[0]),
                         (False, VERDICTS.get(name, first.partition(": ")[0])))
            self.compare(f"what is said of a body, {name}: {told}",
                         ([part for part in parts if part not in told], [part for part in others if part in told]),
                         ([], []))

    def check_limits(self) -> None:
        """The time limit holds, whatever Python does."""
        limits: list[tuple[str, Any, str, Callable[..., None]]] = [
            ("a slow look-up of the name", socket, "getaddrinfo", slow_look_up),
            ("an endless loop", telling, "Told", endless)]
        for name, place, word, slow in limits:
            with socket.create_server(("127.0.0.1", 0)) as mute, mock.patch.object(place, word, slow):
                began = time.monotonic()
                plainly = given("http://api.test/x", timeout=5, connect_to={("api.test", 80): mute.getsockname()})
                reply = replies.replied(plainly, "http://api.test/x")
            took = time.monotonic() - began
            self.compare(f"{name}: {took:.1f} s: {reply.verdict}", (reply.status, took < LONG / 2), (3, True))
            self.compare(name + ": what had come", reply.story[1][0], "fetch 0")
        rows: list[tuple[str, list[str], Optional[bytes], int, bytes]] = [
            ("600,000 chunks of a byte", ["--integrity", "sha256-" + "A" * 43 + "="], b"1\r\na\r\n" * 600000, 1,
             b"22 Integrity"),
            ("32 MB of chunk extensions", [], (b"1;%s\r\na\r\n" % (b"x" * 4090)) * 8192, 0, b"8192 bytes"),
            ("50,000 heads before the final one", [], None, 1, b"26 HeadTooBig"),
        ]
        for name, words, chunks, status, part in rows:
            head = b"HTTP/1.1 200 OK\r\nTransfer-Encoding: chunked\r\nAccess-Control-Allow-Origin: *\r\n\r\n"
            said = head + chunks + b"0\r\n\r\n" if chunks else b"HTTP/1.1 103 Early Hints\r\n\r\n" * 50000 + plain(None)
            with loopback.Servers(lambda request: said) as servers:
                with self.within(name, 5):
                    told = ran("http://api.test/x", "--timeout", "300", "--brief", *words,
                               "--connect-to", f"api.test:80:127.0.0.1:{servers.port}")
            self.compare(f"{name}: {told.stdout!r}{told.stderr!r}", (told.returncode, part in told.stdout),
                         (status, True))

    def check_copied(self, place: str) -> None:
        """What was copied is asked as it was: its page, its cookies, its body; and what browsers add is left out."""
        rows = [
            ("Chromium", CHROMIUM, 1,
             ["  GET /x?a=1 HTTP/1.1", "  accept: application/json", "  Origin: https://app.example",
              "  Cookie: sid=7; theme=dark", "result cors 200 https://api.test:8443/x?a=1"],
             ["cache-control", "pragma", "priority", "sec-ch-ua", "sec-ch-ua-mobile", "sec-ch-ua-platform",
              "sec-fetch-dest", "sec-fetch-mode", "sec-fetch-site", "user-agent"]),
            ("Firefox", FIREFOX, 1,
             ["  GET /x HTTP/1.1", "  Origin: https://app.example", "result cors 200 https://api.test:8443/x"],
             ["User-Agent", "Accept-Encoding", "Connection", "Sec-Fetch-Dest", "Sec-Fetch-Mode", "Sec-Fetch-Site",
              "Priority", "TE"]),
            ("a PUT", PUT, 2,
             ["  PUT /x HTTP/1.1", "  Access-Control-Request-Headers: content-type", "  Cookie: sid=7; theme=dark",
              '  body 21: {"name":"it\'s","n":1}', "result cors 200 https://api.test:8443/x"],
             ["sec-fetch-dest", "sec-fetch-mode", "sec-fetch-site", "user-agent"]),
            ("a font", FONT, 1, ["load 0 font", "result loaded"],
             ["accept", "user-agent", "sec-fetch-dest", "sec-fetch-mode", "sec-fetch-site"]),
        ]
        for name, command, requests, lines, names in rows:
            for first in ("curl", ""):
                words = f"{os.path.join(ROOT, 'bin', 'ask')} --connect-to {place} {command.replace('curl', first, 1)}"
                told = subprocess.run(["bash", "-c", words], stdout=subprocess.PIPE, stderr=subprocess.PIPE)
                text = told.stdout.decode().split("\n")
                case = (f"copied from {name}, with{'' if first else 'out'} the word curl: "
                        f"{told.stdout.decode()}{told.stderr.decode()}")
                self.compare(case, (told.returncode, sum(line.startswith("send ") for line in text)), (0, requests))
                self.compare(case + ": its lines", [line for line in lines if line not in text], [])
                self.compare(case + ": what is left out", sorted(self.left_out(told.stdout.decode())), sorted(names))
        for mode, part in [("navigate", " (as a fetch of the page, not the navigation it was)"), ("cors", "")]:
            told = ran("curl", "https://api.test:8443/x", "-H", "sec-fetch-mode: " + mode, "-H",
                       "sec-fetch-dest: document", "--brief", "--connect-to", place)
            self.compare("copied from mode " + mode, told.stdout.decode(),
                         f"the page would read it{part}: 200, 2 bytes; {asked.OWN_ORIGIN}\n")

    def check_many(self, pair: Pair, folder: str) -> None:
        name, patience = os.path.join(folder, "urls"), 10
        with open(name, "w", encoding="utf-8") as file:
            file.write("# more\n\ndata:text/plain,hi\n")
        asked_at = []

        def noting(request: loopback.Request) -> Said:
            asked_at.extend([time.monotonic()] if request.target.startswith("/slow") else [])
            return by_target(request)
        with loopback.Servers(noting, pair) as servers:
            ends = ["/slow1", "/yes", "/no", "/slow2", "/slow3"]
            words = ["https://api.test" + end for end in ends] + [
                "--from", "https://shop.test/", "--from-file", name, "--jobs", "5", "--timeout", str(patience),
                "--connect-to", f"api.test:443:127.0.0.1:{servers.port}"]
            told = ran(*words)
            text = told.stdout.decode()
            # One after another the last of three that are not answered is asked after the time limit of two.
            is_beside = max(asked_at) - min(asked_at) < 2 * patience
            self.compare(f"several URLs: {text}{told.stderr.decode()}", (told.returncode, is_beside), (3, True))
            headings = [line.split()[2] for line in text.split("\n") if line.startswith("# ---- ")]
            self.compare("their order", headings, ["https://api.test" + end for end in ends] + ["data:text/plain,hi"])
            as_data = json.loads(ran(*words, "--json").stdout)
            self.compare("several URLs as JSON", [(one["url"][-5:], one["status"], one["outcome"]) for one in as_data],
                         [("slow1", 3, "no answer"), ("t/yes", 0, "read"), ("st/no", 1, "not read"),
                          ("slow2", 3, "no answer"), ("slow3", 3, "no answer"), ("in,hi", 4, "no verdict")])
            brief = ran(*words, "--brief").stdout.decode().splitlines()
            self.compare("several URLs in brief", brief[1:3],
                         ["https://api.test/yes: the page would read it: 200, 2 bytes",
                          "https://api.test/no: the page would not read it: 12 CorsCheck: the answer has no "
                          "Access-Control-Allow-Origin; send `Access-Control-Allow-Origin: https://shop.test` and "
                          "`Vary: Origin`"])
            self.compare("a line for each", len(brief), 6)
            words = words[1:3] + words[5:7] + words[-2:]
            self.compare("the worst of two", ran(*words).returncode, 1)
            text = ran(words[0], *words[2:]).stdout.decode()
            self.compare("the verdict comes first", text.partition("\n")[0], "# the page would read it: 200, 2 bytes")
            told = ran(words[0], "about:blank", *words[-2:])
            self.compare(f"one that is wrong among several: {told.stdout!r}",
                         (told.returncode, b"wrong words: " in told.stdout, b"basic 200" in told.stdout),
                         (2, True, True))
            self.compare("a word that takes one URL", ran(*words, "--export", name).returncode, 2)

    def check_undecided(self, pair: Pair) -> None:
        for url in ("data:text/plain,hi", "blob:https://shop.test/1-2", "wss://api.test/x", "WSS://api.test/x"):
            reply = replies.replied(given(url, page="https://shop.test/"), url)
            self.compare(f"{url}: {reply.verdict}", (reply.status, reply.verdict.startswith("no verdict: ")), (4, True))
            self.compare(url + " without a page", replies.replied(given(url), url).status, 2)
        words = given("wss://api.test/x", page="https://shop.test/", policy=["default-src 'none'"])
        reply = replies.replied(words, "wss://api.test/x")
        self.compare("what the page's policy refuses: " + reply.verdict, reply.status, 1)
        for url in ("ftp://api.test/x", "ws://api.test/x"):
            reply = replies.replied(given(url, page="https://shop.test/"), url)
            self.compare("what no browser loads: " + reply.verdict, reply.status, 1)

    def check_known_hosts(self, pair: Pair) -> None:
        rows = [("api.test", False, "https"), ("test", True, "https"), ("test", False, "http"), ("TEST", True, "https")]
        for host, with_subdomains, scheme in rows:
            with loopback.Servers(plain, pair) as servers:
                answered = asked_of("http://api.test/x", page="http://shop.test/", hsts=[(host, with_subdomains)],
                                    connect_to=places(servers))
            self.compare(f"--hsts {host} {with_subdomains}", [one.origin for one in answered.wire.exchanges],
                         [scheme + "://api.test"])
        for host in ("127.0.0.1", "localhost", "a.localhost.", "[::1]", "a.test:80", "a b", "https://a.test"):
            reply = replies.replied(given("http://api.test/x", hsts=[(host, False)]), "http://api.test/x")
            self.compare(f"--hsts {host}: {reply.verdict}", (reply.status, "--hsts" in reply.verdict), (2, True))
        self.compare("--hsts with another word", ran("http://api.test/", "--hsts", "a.test,all").returncode, 2)

    def check_books(self, pair: Pair, folder: str) -> None:
        """Of the hosts that a book knows each upgrade is told its own, and a URL that stays http why (RFC 6797, section
        8.2: a host, or one above it with includeSubDomains). What is exported has those of its sites alone, and plays
        the same."""
        name, exported = os.path.join(folder, "known.book"), os.path.join(folder, "known.json")
        far, own = 9999999999, "is a known host (HSTS)"
        rows = [
            ([("shop.test", 1, far)], "img.shop.test",
             f"shop.test {own} with its subdomains, which covers img.shop.test", True),
            ([("img.shop.test", 0, far), ("shop.test", 1, far)], "img.shop.test", "its host is a known one (HSTS)",
             True),
            ([("shop.test", 0, far)], "img.shop.test",
             f"shop.test {own}, but without includeSubDomains, which would cover", False),
            ([("img.shop.test", 1, far)], "shop.test",
             f"img.shop.test {own}, and shop.test is neither that nor below it", False),
            ([("shop.test", 1, 9)], "shop.test", "shop.test was a known host (HSTS) until second 9, and it is second 1",
             False),
            ([("h.test", 1, far)], "shop.test", "", False),
        ]
        for hosts, host, part, is_upgraded in rows:
            with open(name, "w", encoding="utf-8") as file:
                lines = [f"{until} {is_wide} {len(known)}:{known}\n"
                         for known, is_wide, until in [*hosts, ("zz.other", 1, far)]]
                file.write("".join(["fiorrudda book 1\n", f"hosts {len(lines)}\n", *lines, "entries 0\n"]))
            with loopback.Servers(plain, pair) as servers:
                url = f"http://{host}/x"
                words = given(url, page="http://cdn.test/", connect_to=places(servers), book=name, export=exported)
                one = asked.answered(words, url)
                data, case = one.export.data(), one.told.cases[0]
            self.compare(f"--book {hosts}, {host}: {case.notes}", [part in note for note in case.notes],
                         [True] * bool(part))
            self.compare(f"--book {hosts}, {host}: asked", case.chain[0][0].origin, f"http{'s' * is_upgraded}://{host}")
            self.compare(f"--book {hosts}: another site is exported", b"zz.other" in data, False)
            told = running.played(data)
            self.compare(f"--book {hosts}: its export plays {told}",
                         f"\nsend http{'s' * is_upgraded}://{host}\n" in told, True)

    def check_local_networks(self) -> None:
        """A page of the internet that asks this machine is told what Chromium does then, once; one of this machine is
        not."""
        for page, count in [("http://shop.test/", 1), ("http://localhost/", 0)]:
            with loopback.Servers(plain) as servers:
                answered = asked_of(f"http://127.0.0.1:{servers.port}/x", page=page, twice=True)
            lines = [line for _, own in answered.pieces() for line in own if "local network access" in line]
            self.compare(f"a page of {page} asks this machine: {lines}", len(lines), count)

    def check_export(self, pair: Pair, folder: str) -> None:
        """A file for its owner alone, without secrets, and in the place of none that --export did not write."""
        def path(name: str) -> str:
            return os.path.join(folder, name)
        foreign = '{"format": 2, "documents": [{"url": "https://a.test/", "headers": []}]}'
        for name, text in [("text", "sekret"), ("foreign", foreign)]:
            with open(path(name), "w", encoding="utf-8") as file:
                file.write(text)
        os.symlink(path("text"), path("link"))
        with loopback.Servers(secretive, pair) as servers:
            words = ["https://api.test:8443/x", "--from", "https://app.example/", "--credentials", "include",
                     "--cookie", "a=sekret1", "--cookie", "sekret4", "--header", "Authorization: Bearer sekret2",
                     "--connect-to", f"api.test:8443:127.0.0.1:{servers.port}", "--export"]
            for name in ("text", "foreign", "link", "."):
                told = ran(*words, path(name))
                self.compare(f"--export over {name}: {told.stderr!r}", (told.returncode, told.stdout), (2, b""))
            with open(path("text"), encoding="utf-8") as file:
                self.compare("what was not written over", file.read(), "sekret")
            self.compare("the link", os.path.islink(path("link")), True)
            rows: list[tuple[str, list[str], bool]] = [
                ("masked", [], False), ("masked", [], False), ("whole", ["--with-secrets"], True)]
            for name, more, is_there in rows:
                told = ran(*words, path(name), *more)
                with open(path(name), "rb") as written:
                    data = written.read()
                case = f"--export {name}: {told.stdout + told.stderr!r}"
                self.compare(case, (told.returncode, [b"sekret%d" % number in data for number in (1, 2, 3, 4)]),
                             (0, [is_there] * 4))
                self.compare(case + ": its mode", stat.S_IMODE(os.stat(path(name)).st_mode), 0o600)
                self.compare(case + ": it plays", "\nresult cors 200 " in running.played(data), True)
        self.compare("as long as they were", os.path.getsize(path("masked")), os.path.getsize(path("whole")))
        self.compare("nothing beside it",
                     [name for name in os.listdir(folder) if name.startswith(("masked.", "whole."))], [])


def main() -> int:
    return base.main("commands/check_ask", __name__)
