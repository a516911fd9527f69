"""Starts `bin/corsserve` on the loopback, and looks at each answer, each line, the status and the complaint.

It is asked by `bin/fetchplay net` with examples/cors-server.json and its table, and the play is compared with play.txt;
by peers that send byte by byte, too much, half of a head or nothing, that hang up, or that reset the connection; with
tables that are as long as may be, too long or none; and with words and streams that are none. CORSSERVE and FETCHPLAY
are the paths of the programs, where they are not to be built.

    server/check show      prints the play that came instead
    server/check others    asks nginx, caddy and node, those that are on the PATH, by the files of examples/servers,
                           what it asks the program, and compares the status, Vary and the Access-Control headers
"""
from __future__ import annotations

import http.server
import itertools
import os
import random
import re
import shutil
import socket
import struct
import subprocess
import sys
import tempfile
import threading
import time
import unittest
from typing import IO, Callable, Iterator, Optional, Union

from fiorrudda.places import ROOT
from tests import base

HERE = os.path.join(ROOT, "server")
PROGRAM = os.environ.get("CORSSERVE", os.path.join(ROOT, "bin", "corsserve"))
PATIENCE = 120  # seconds
USAGE = "corsserve: usage: corsserve ADDRESS N\n"

BAD = b"HTTP/1.1 400 Bad\r\nContent-Length: 0\r\n\r\n"
REFUSED = b"HTTP/1.1 403 Refused\r\nVary: Origin\r\nContent-Length: 0\r\n\r\n"
GRANTED = b"Vary: Origin\r\nAccess-Control-Allow-Origin: http://page.test\r\nAccess-Control-Allow-Credentials: true\r\n"
SERVED = b"HTTP/1.1 200 Served\r\n" + GRANTED + b"Content-Length: 2\r\n\r\nok"
START = b"GET / HTTP/1.1\r\nHost: api.test\r\nOrigin: http://page.test\r\n"
HEAD = START + b"\r\n"
Output = Union[int, IO[bytes]]
Process = subprocess.Popen[bytes]
Ended = tuple[str, str, Optional[int]]  # what it wrote to its output and its complaints, and its status


def text_of(*path: str) -> str:
    with open(os.path.join(ROOT, *path), encoding="utf-8") as file:
        return file.read()


def free_port() -> int:
    """A port at which nobody listens, none of those that the system gives to who connects."""
    while True:
        port = random.randrange(10000, 30000)
        with socket.socket() as tried:
            try:
                tried.bind(("127.0.0.1", port))
                return port
            except OSError:
                pass


# ---- one run of the program


def start(words: list[str], table: bytes, output: Output = subprocess.PIPE) -> Process:
    with tempfile.TemporaryFile() as given:
        given.write(table)
        given.seek(0)
        return subprocess.Popen([PROGRAM] + words, stdin=given, stdout=output, stderr=subprocess.PIPE)


def end(process: Process) -> Ended:
    try:
        output, complaints = process.communicate(timeout=PATIENCE)
    except subprocess.TimeoutExpired:
        process.kill()
        process.communicate()
        return "", "it did not end", None
    return (output or b"").decode(), complaints.decode(), process.returncode


def dial(port: int, process: Process | None = None) -> socket.socket:
    """A connection to the port; where the process is new, once it listens there."""
    until = time.monotonic() + PATIENCE
    while True:
        try:
            return socket.create_connection(("127.0.0.1", port), timeout=PATIENCE)
        except ConnectionRefusedError:
            if process is None or process.poll() is not None or time.monotonic() > until:
                raise
            time.sleep(0.01)


def received(peer: socket.socket) -> bytes:
    """All bytes up to the end, or up to where the connection is reset."""
    text = b""
    try:
        while piece := peer.recv(65536):
            text += piece
    except OSError:
        pass
    return text


def silent(peer: socket.socket) -> bytes:
    peer.shutdown(socket.SHUT_WR)
    return received(peer)


# ---- peers: each sends on a connection, and gives what it received, or None where that is not looked at


def whole(peer: socket.socket) -> bytes:
    peer.sendall(HEAD)
    return received(peer)


def byte_by_byte(peer: socket.socket) -> bytes:
    peer.setsockopt(socket.IPPROTO_TCP, socket.TCP_NODELAY, 1)
    for byte in HEAD:
        peer.sendall(bytes([byte]))
        time.sleep(0.001)
    return received(peer)


def in_two(peer: socket.socket) -> bytes:
    peer.sendall(HEAD[:20])
    time.sleep(0.1)
    peer.sendall(HEAD[20:])
    return received(peer)


def half_closed_behind(peer: socket.socket) -> bytes:
    peer.sendall(HEAD)
    return silent(peer)


def half_closed_inside(peer: socket.socket) -> bytes:
    peer.sendall(START)
    return silent(peer)


def two_requests(peer: socket.socket) -> bytes:
    peer.sendall(HEAD + b"DELETE / HTTP/1.1\r\n\r\n")
    return received(peer)


def no_head(peer: socket.socket) -> bytes:
    """Bytes that can be no head any more: the program reads on until their end."""
    peer.sendall(b"no head\r\n\r\n")
    peer.settimeout(0.3)
    try:
        peer.recv(1)
        return b"an answer before the end"
    except OSError:
        peer.settimeout(PATIENCE)
    return silent(peer)


def without_end(peer: socket.socket) -> bytes:
    peer.sendall(START + b"X: " + b"a" * (65536 - len(START) - 3))
    return received(peer)


def without_end_by_one(peer: socket.socket) -> bytes:
    peer.sendall(START + b"X: " + b"a" * (65535 - len(START) - 3))
    return silent(peer)


def longest(peer: socket.socket) -> bytes:
    peer.sendall(START + b"X: " + b"a" * (65536 - len(START) - 7) + b"\r\n\r\n")
    return received(peer)


def too_long(peer: socket.socket) -> bytes:
    peer.sendall(START + b"X: " + b"a" * (65537 - len(START) - 7) + b"\r\n\r\n")
    return received(peer)


def many_lines(peer: socket.socket) -> bytes:
    peer.sendall(START + b"X: a\r\n" * 126 + b"\r\n")
    return received(peer)


def too_many_lines(peer: socket.socket) -> bytes:
    peer.sendall(START + b"X: a\r\n" * 127 + b"\r\n")
    return silent(peer)


def large_body(peer: socket.socket) -> None:
    """A body that nobody reads: the connection may be reset before the answer is read."""
    try:
        peer.sendall(HEAD + b"b" * 1000000)
    except OSError:
        pass
    received(peer)


def gone(peer: socket.socket) -> None:
    peer.sendall(HEAD)


def reset(peer: socket.socket) -> None:
    peer.setsockopt(socket.SOL_SOCKET, socket.SO_LINGER, struct.pack("ii", 1, 0))
    peer.close()


def reset_inside(peer: socket.socket) -> None:
    peer.sendall(START)
    time.sleep(0.1)
    reset(peer)


def reset_before(peer: socket.socket) -> None:
    time.sleep(0.1)
    reset(peer)


def reset_behind(peer: socket.socket) -> bytes:
    """After the answer was read."""
    peer.sendall(HEAD)
    answer = received(peer)
    reset(peer)
    return answer


PEERS: list[tuple[Callable[[socket.socket], Optional[bytes]], Optional[bytes], str]] = [
    (whole, SERVED, "answered 200"),
    (byte_by_byte, SERVED, "answered 200"),
    (in_two, SERVED, "answered 200"),
    (half_closed_behind, SERVED, "answered 200"),
    (half_closed_inside, BAD, "answered 400"),
    (silent, BAD, "answered 400"),
    (two_requests, SERVED, "answered 200"),
    (no_head, BAD, "answered 400"),
    (without_end, BAD, "answered 400"),
    (without_end_by_one, BAD, "answered 400"),
    (longest, SERVED, "answered 200"),
    (too_long, BAD, "answered 400"),
    (many_lines, SERVED, "answered 200"),
    (too_many_lines, BAD, "answered 400"),
    (large_body, None, "answered 200"),
    (gone, None, "answered 200"),
    (reset_inside, None, "fault read"),
    (reset_before, None, "fault read"),
    (reset_behind, SERVED, "answered 200"),
    (whole, SERVED, "answered 200"),
]


# ---- answers

ROWS = b"""http://a.test GET,HEAD () other
http://b.test () X-B,x-a,X-b include
http://a.test PUT () include
http://c.test OPTIONS,patch () other
"""
A = b"Vary: Origin\r\nAccess-Control-Allow-Origin: http://a.test\r\n"
B = b"Vary: Origin\r\nAccess-Control-Allow-Origin: http://b.test\r\nAccess-Control-Allow-Credentials: true\r\n"
C = b"Vary: Origin\r\nAccess-Control-Allow-Origin: http://c.test\r\n"
LENGTH = b"Content-Length: 2\r\n\r\n"
WISH = b"\r\nAccess-Control-Request-Method: DELETE"

# The method, what follows `Origin: `, and the answer.
ANSWERS = [
    (b"GET", b"http://a.test", b"HTTP/1.1 200 Served\r\n" + A + LENGTH + b"ok"),
    (b"HEAD", b"http://a.test", b"HTTP/1.1 200 Served\r\n" + A + LENGTH),
    (b"PUT", b"http://a.test", REFUSED),
    (b"get", b"http://a.test", REFUSED),
    (b"OPTIONS", b"http://a.test", REFUSED),
    (b"OPTIONS", b"http://a.test" + WISH,
     b"HTTP/1.1 204 Allowed\r\n" + A + b"Access-Control-Allow-Methods: GET,HEAD\r\n\r\n"),
    (b"GET", b"http://a.test" + WISH, b"HTTP/1.1 200 Served\r\n" + A + LENGTH + b"ok"),
    (b"GET", b"http://b.test", REFUSED),
    (b"OPTIONS", b"http://b.test" + WISH,
     b"HTTP/1.1 204 Allowed\r\n" + B + b"Access-Control-Allow-Headers: x-b,x-a,x-b\r\n\r\n"),
    (b"OPTIONS", b"http://c.test", b"HTTP/1.1 200 Served\r\n" + C + LENGTH + b"ok"),
    (b"patch", b"http://c.test \t", b"HTTP/1.1 200 Served\r\n" + C + LENGTH + b"ok"),
    (b"PATCH", b"http://c.test", REFUSED),
    (b"GET", b"http://A.test", REFUSED),
    (b"GET", b"http://a.test/", REFUSED),
    (b"GET", b"http://a.test:80", REFUSED),
    (b"GET", b"http://a.test\r\nOrigin: http://a.test", REFUSED),
    (b"GET", b"null", REFUSED),
    (b"GET", b"", REFUSED),
    (b"GET", b"http://a.test\r\n folded", BAD),
    (b"G T", b"http://a.test", BAD),
]


# ---- tables


def filled(host: str, length: int) -> bytes:
    """A row of so many bytes, and a line end."""
    before, behind = f"http://{host}.test GET ", " other"
    return f"{before}{'n' * (length - len(before + behind))}{behind}\n".encode()


ROW = b"http://a.test GET () other\n"
NO_ROWS = [
    b"http://a.test * () other\n", b"http://a.test GET x-a,* include\n", b"* GET () other\n", b"null GET () other\n",
    b"ftp://a.test GET () other\n", b"http://a.test/ GET () other\n", b"http://A.test GET () other\n",
    b"http://a.test:80 GET () other\n", b"http://a.test GET ()\n", b"http://a.test  GET () other\n",
    b"http://a.test GET () other \n", b"http://a.test GET,,PUT () other\n", b"http://a.test GET, PUT () other\n",
    b"http://a.test G(T () other\n", b"http://a.test GET x:a other\n", b"http://a.test GET () Include\n",
    b"http://a.test GET () yes\n", b"\n", b"# a comment\n", b"http://a.test GET () other\r\n",
    b"http://a.test GET () other", b"http://a.test GET \xff other\n", b"\0\n", filled("a", 4097),
]


# ---- the same rule in other servers


class Behind(http.server.BaseHTTPRequestHandler):
    """What nginx and Caddy stand before: it answers each request with `ok`."""

    protocol_version = "HTTP/1.1"

    def answer(self) -> None:
        self.send_response_only(200)
        self.send_header("Content-Length", "2")
        self.end_headers()
        if self.command != "HEAD":
            self.wfile.write(b"ok")

    do_GET = do_HEAD = do_POST = do_PUT = do_DELETE = do_OPTIONS = answer

    def log_message(self, format: str, *words: object) -> None:
        pass


def configuration(name: str, address: str, own: str, behind: str) -> str:
    """A file of examples/servers, whose server listens at another address before another server."""
    return text_of("examples", "servers", name).replace(address, own).replace("127.0.0.1:9000", behind)


def by_nginx(folder: str, port: int, behind: str) -> list[str]:
    lines = configuration("nginx.conf", "127.0.0.1:8000", f"127.0.0.1:{port}", behind)
    kinds = ["client_body", "proxy", "fastcgi", "uwsgi", "scgi"]
    paths = "".join(f"{name}_temp_path {folder}/{name};\n" for name in kinds)
    start = f"daemon off; master_process off; pid {folder}/pid; error_log {folder}/log;\nevents {{}}\n"
    with open(os.path.join(folder, "conf"), "w", encoding="utf-8") as file:
        file.write(f"{start}http {{\naccess_log off;\n{paths}{lines}}}\n")
    return ["nginx", "-p", folder, "-c", os.path.join(folder, "conf")]


def by_caddy(folder: str, port: int, behind: str) -> list[str]:
    lines = configuration("Caddyfile", ":8000", f"http://127.0.0.1:{port}", behind)
    with open(os.path.join(folder, "Caddyfile"), "w", encoding="utf-8") as file:
        file.write(f"{{\nadmin off\nauto_https off\nstorage file_system {folder}\n}}\n{lines}")
    return ["caddy", "run", "--config", os.path.join(folder, "Caddyfile")]


def by_node(folder: str, port: int, behind: str) -> list[str]:
    listen = "require('http').createServer((request, response) => cors(request, response, () => response.end('ok')))"
    return ["node", "-e", f"{text_of('examples', 'servers', 'cors.js')}{listen}.listen({port}, '127.0.0.1')"]


def head_of(answer: bytes) -> tuple[str, list[str]]:
    """The status of an answer, and of its headers those of CORS and Vary."""
    first, *lines = answer.split(b"\r\n\r\n")[0].decode().split("\r\n")
    return first.split(" ")[1], sorted(line for line in lines if line.startswith(("Access-Control-", "Vary: ")))


def asked(port: int, request: bytes) -> tuple[str, list[str]]:
    with dial(port) as peer:
        peer.sendall(request)
        return head_of(received(peer))


TWICE = "http://page.test\r\nOrigin: http://page.test"
EMPTY = "Access-Control-Request-Method:\r\n"


def setUpModule() -> None:
    """The first run may prove and build the program, and tells so."""
    ran = subprocess.run([PROGRAM], stdin=subprocess.DEVNULL, capture_output=True)
    if ran.returncode != 1:
        sys.exit(f"server/check: without words the status is {ran.returncode}\n{ran.stderr.decode()}")


class Checks(base.Checks):
    shows = False  # the play, in place of comparing it

    def compare_lines(self, name: str, got: str, wanted: str) -> None:
        """The first line that differs."""
        for number, (line, want) in enumerate(itertools.zip_longest(got.splitlines(), wanted.splitlines()), 1):
            if line != want:
                self.compare(f"{name}, line {number}", line, want)
                return

    def listening(self, table: bytes, count: int, output: Output = subprocess.PIPE) -> tuple[Process, int]:
        """The program with a table, and its port. Its first connection asks for nothing, and so tells that it
        listens."""
        for _ in range(5):
            port = free_port()
            process = start([f"127.0.0.1:{port}", str(count + 1)], table, output)
            try:
                with dial(port, process) as peer:
                    self.compare("a peer that sends nothing and hangs up", silent(peer), BAD)
                return process, port
            except ConnectionRefusedError:
                said = end(process)
        sys.exit(f"server/check: nobody listens: {said!r}")

    def test_peers(self) -> None:
        """Each peer by itself, and then two that wait behind another: one of them is gone by then."""
        table = text_of("examples", "cors-server.table").encode()
        process, port = self.listening(table, len(PEERS) + 3)
        wanted = [("nothing", "answered 400")]
        for act, answer, line in PEERS:
            wanted.append((act.__name__, line))
            with dial(port) as peer:
                self.compare(f"the answer to {act.__name__}", act(peer), answer)
        with dial(port) as first, dial(port) as second, dial(port) as third:
            second.sendall(HEAD)
            reset(second)
            third.sendall(HEAD)
            time.sleep(0.1)
            self.compare("the answer to who came first", whole(first), SERVED)
            self.compare("the answer to who waited", received(third), SERVED)
        wanted += [("first", "answered 200"), ("one that was reset while it waited", "fault write"),
                   ("who waited", "answered 200")]
        output, complaints, status = end(process)
        lines = output.splitlines()
        for (name, want), line in zip(wanted, lines):
            # Whether a read or the write finds that it was reset is the system's to say.
            got = "fault write" if "reset while" in name and line == "fault read" else line
            self.compare(f"the line of {name}", got, want)
        self.compare("the number of lines, complaints and status", (len(lines), complaints, status),
                     (len(wanted), "", 0))

    # ---- the play

    def test_play(self) -> None:
        table = text_of("examples", "cors-server.table").encode()
        process, port = self.listening(table, 8)
        scenario = text_of("examples", "cors-server.json").replace("127.0.0.1:8000", f"127.0.0.1:{port}")
        program = os.environ.get("FETCHPLAY", os.path.join(ROOT, "bin", "fetchplay"))
        ran = subprocess.run([program, "net"], input=scenario.encode(), capture_output=True, timeout=3600)
        # Which of the two documents asks first is not the same in each run, so the history is left out.
        documents = ran.stdout.decode().split("\nhistory\n")[0]
        said = re.sub(r" at [0-9]+: ", " at T: ", f"{documents}\n")
        if self.shows:
            sys.stdout.write(said)
        else:
            self.compare_lines("the play", said, text_of("server", "play.txt"))
        self.compare("the status and the complaints of the play", (ran.returncode, ran.stderr.decode()), (0, ""))
        output, complaints, status = end(process)
        wanted = sorted(["answered 400"] + ["answered 200"] * 2 + ["answered 204"] * 3 + ["answered 403"] * 3)
        self.compare("the lines of the play", (sorted(output.splitlines()), complaints, status), (wanted, "", 0))

    def test_answers(self) -> None:
        process, port = self.listening(ROWS, len(ANSWERS))
        for method, origin, answer in ANSWERS:
            with dial(port) as peer:
                peer.sendall(method + b" /a?b HTTP/1.1\r\nOrigin: " + origin + b"\r\n\r\n")
                self.compare(f"the answer to {method!r} from {origin!r}", silent(peer), answer)
        lines = ["answered 400\n"] + [f"answered {answer[9:12].decode()}\n" for _, _, answer in ANSWERS]
        self.compare("the lines of the answers", end(process), ("".join(lines), "", 0))

    def test_long_table(self) -> None:
        table = b"".join(filled(f"h{number:03d}", 4096) for number in range(256))
        self.compare("the longest table's length", len(table), 1048832)
        process, port = self.listening(table, 2)
        ask = b"%s / HTTP/1.1\r\nOrigin: http://h255.test\r\n%s\r\n"
        told = b"Vary: Origin\r\nAccess-Control-Allow-Origin: http://h255.test\r\n"
        names = table[-4096:].split(b" ")[2]
        for request, answer in [
            (ask % (b"GET", b""), b"HTTP/1.1 200 Served\r\n" + told + b"Content-Length: 2\r\n\r\nok"),
            (
                ask % (b"OPTIONS", b"Access-Control-Request-Method: PUT\r\n"),
                b"HTTP/1.1 204 Allowed\r\n" + told
                + b"Access-Control-Allow-Methods: GET\r\nAccess-Control-Allow-Headers: " + names + b"\r\n\r\n",
            ),
        ]:
            with dial(port) as peer:
                peer.sendall(request)
                self.compare("the answer by the longest table", received(peer), answer)
        self.compare("the longest table", end(process), ("answered 400\nanswered 200\nanswered 204\n", "", 0))
        self.refuse("the longest table and a byte", 6, "corsserve: fault 6\n", table + b"\n")
        self.refuse("the longest table and a row", 6, "corsserve: fault 6\n", table + b"http://a.test GET () other\n")

    def refuse(self, name: str, status: int, complaint: str, table: bytes, words: list[str] | None = None) -> None:
        """A run that serves nobody."""
        words = [f"127.0.0.1:{free_port()}", "1"] if words is None else words
        self.compare(name, end(start(words, table)), ("", complaint, status))

    def test_tables(self) -> None:
        for line in NO_ROWS:
            self.refuse(f"the line {line!r:.60}", 2, "corsserve: table refused at line 2\n", ROW + line)
        self.refuse("a table of 257 lines", 2, "corsserve: table refused at line 257\n", ROW * 257)
        process, port = self.listening(b"", 1)
        with dial(port) as peer:
            self.compare("the answer by the empty table", whole(peer), REFUSED)
        self.compare("the empty table", end(process), ("answered 400\nanswered 403\n", "", 0))

    # ---- words and streams

    def test_words(self) -> None:
        address = f"127.0.0.1:{free_port()}"
        strange: list[list[str]] = [
            [], [address], [address, "1", "2"], ["", "1"], [address, ""], ["-x", "1"], [address, "-1"], [address, "0"],
            [address, "1025"], [address, "01"], [address, "+1"], [address, "1 "], [address, "x"], ["--version"],
            ["--", address, "1"],
        ]
        for words in strange:
            self.refuse(f"the words {words!r}", 1, USAGE, b"no table", words)
        with socket.create_server(("127.0.0.1", 0)) as other:
            busy = f"127.0.0.1:{other.getsockname()[1]}"
            for place in ["127.0.0.1", "127.0.0.1:", "127.0.0.1:65536", busy]:
                self.refuse(f"the address {place}", 7, "corsserve: fault 7\n", ROW, [place, "1"])
            self.refuse("a taken address and no table", 2, "corsserve: table refused at line 1\n", b"no table",
                        [busy, "1"])

    def test_streams(self) -> None:
        if not os.path.exists("/dev/full"):
            return
        with open("/dev/full", "wb") as full:
            process, _ = self.listening(ROW, 1, full)
            self.compare("an output that is full", end(process), ("", "corsserve: fault 4\n", 4))
            ran = subprocess.run([PROGRAM], stdin=subprocess.DEVNULL, stdout=subprocess.PIPE, stderr=full)
            self.compare("complaints that are full", (ran.stdout, ran.returncode), (b"", 4))
        folder = os.open("/", os.O_RDONLY)
        ran = subprocess.run([PROGRAM, f"127.0.0.1:{free_port()}", "1"], stdin=folder, capture_output=True)
        os.close(folder)
        self.compare("an input that is a folder", (ran.stdout, ran.stderr, ran.returncode),
                     (b"", b"corsserve: fault 3\n", 3))


class Others(Checks):
    """Run by `server/check others` alone."""

    def requests(self, program: str) -> Iterator[str]:
        for method in ["GET", "HEAD", "POST", "PUT", "DELETE", "OPTIONS"]:
            for origin in ["http://page.test", "https://admin.test", "http://admin.test", "http://page.test/",
                           "http://PAGE.test", "http://page.tests", "http://page-test", "null", "", TWICE, None]:
                for wish in ["", "Access-Control-Request-Method: PUT\r\n", EMPTY]:
                    # No browser sends these: nginx and Caddy take two for one, and to nginx an empty header is none.
                    if program != "node" and origin == TWICE or program == "nginx" and wish == EMPTY:
                        continue
                    told = "" if origin is None else f"Origin: {origin}\r\n"
                    yield f"{method} / HTTP/1.1\r\nHost: 127.0.0.1\r\nConnection: close\r\n{told}{wish}\r\n"

    def check_other(self, program: str, words_of: Callable[[str, int, str], list[str]], behind: str) -> None:
        requests = list(self.requests(program))
        table = b"".join(text_of("examples", "cors-server.table").encode().splitlines(True)[:2])
        theirs = free_port()
        with tempfile.TemporaryDirectory() as folder:
            words = words_of(folder, theirs, behind)
            other = subprocess.Popen(words, cwd=folder, env=dict(os.environ, HOME=folder), stderr=subprocess.DEVNULL)
            try:
                dial(theirs, other).close()
                process, port = self.listening(table, len(requests))
                for request in requests:
                    self.compare(f"{program}, {request!r}", asked(theirs, request.encode()),
                                 asked(port, request.encode()))
                end(process)
            finally:
                other.terminate()
                other.wait()
        print(f"server/check: {program} was asked {len(requests)} requests")

    def test_others(self) -> None:
        server = http.server.ThreadingHTTPServer(("127.0.0.1", 0), Behind)
        threading.Thread(target=server.serve_forever, daemon=True).start()
        for program, words_of in [("nginx", by_nginx), ("caddy", by_caddy), ("node", by_node)]:
            if shutil.which(program) is None:
                print(f"server/check: left out, since it is not on the PATH: {program}", file=sys.stderr)
            else:
                self.check_other(program, words_of, f"127.0.0.1:{server.server_address[1]}")


def main() -> int:
    words = sys.argv[1:]
    if words == ["show"]:
        Checks.shows = True
        return 0 if unittest.TextTestRunner(verbosity=0).run(Checks("test_play")).wasSuccessful() else 1
    return base.main("server/check", __name__, ["Others.test_others"] if words == ["others"] else words or ["Checks"])
