"""What a server may answer to make a command dear: each row of COSTS does it, and says how many seconds it may take.
Each is given what compares what came with what was wanted."""
from __future__ import annotations

import socket
import threading
from typing import Any, Callable

from fiorrudda.commands import answers, relay

HEAD = b"HTTP/1.1 200 OK\r\nTransfer-Encoding: chunked\r\n\r\n"
EARLY = b"HTTP/1.1 103 Early Hints\r\n\r\n"
EXTENSION = b"1;%s\r\na\r\n" % (b"x" * 4090)
MEGABYTE = 1 << 20
PATIENCE = 120  # seconds
Compare = Callable[[str, Any, Any], None]
Work = Callable[[Compare], None]


def one_byte_chunks(compare: Compare) -> None:
    answer = answers.Answer(HEAD + b"1\r\na\r\n" * 600000 + b"0\r\n\r\n")
    compare("the body in chunks of a byte", answer.body(), b"a" * 600000)
    compare("the same, asked again", answer.body() is answer.body(), True)


def chunks_byte_by_byte(compare: Compare) -> None:
    chunks = answers.Chunks()
    found = b"".join(chunks.feed(bytes([byte])) for byte in EXTENSION * 200 + b"0\r\nA: b\r\n\r\n")
    compare("chunks that come byte by byte", (found, chunks.is_whole, chunks.is_broken), (b"a" * 200, True, False))


def chunk_extensions(compare: Compare) -> None:
    count = 32 * MEGABYTE // len(EXTENSION)
    compare("the body behind extensions", answers.Answer(HEAD + EXTENSION * count + b"0\r\n\r\n").body(), b"a" * count)


def early_heads(compare: Compare) -> None:
    """As many as a head may have bytes, and then many more, which are refused unread."""
    count = answers.MOST_HEAD // len(EARLY) - 2
    _, head = answers.parsed(EARLY * count + HEAD)
    compare("a head behind others", head and head.status, 200)
    compare("a head behind too many", answers.parsed(EARLY * 50000 + HEAD), ("too-big", None))


def heads_byte_by_byte(compare: Compare) -> None:
    beginning = answers.Beginning()
    data = EARLY * 2000 + HEAD
    compare("a head that comes byte by byte", any(beginning.add(bytes([byte])) for byte in data), True)
    compare("and where its body begins", beginning.head and beginning.head.end, len(data))


def blank_lines(compare: Compare) -> None:
    compare("lines ends alone", answers.parsed(b"\r\n" * 16 * MEGABYTE), ("nothing", None))


def pieces_of_a_byte(compare: Compare) -> None:
    pieces = answers.Pieces()
    for _ in range(4 * MEGABYTE):
        pieces.add(b"a")
    compare("what is kept", len(pieces.joined()), 4 * MEGABYTE)


def relayed(compare: Compare) -> None:
    """A server of 32 MB of chunk extensions, through the relay."""
    said = HEAD + EXTENSION * (32 * MEGABYTE // len(EXTENSION)) + b"0\r\n\r\n"
    with socket.create_server(("127.0.0.1", 0)) as listener:
        threading.Thread(target=serve, args=(listener, said), daemon=True).start()
        address = f"127.0.0.1:{listener.getsockname()[1]}"
        with relay.Relay([address], PATIENCE) as passing:
            place = relay.split(passing.own[address])
            assert place
            with socket.create_connection(place) as peer:
                peer.sendall(b"GET / HTTP/1.1\r\n\r\n")
                peer.settimeout(PATIENCE)
                came = sum(iter(lambda: len(peer.recv(65536)), 0))
        answer = answers.Answer(passing.connections[0].answer)
    compare("what comes through the relay, and what it keeps", (came, len(answer.data), len(answer.body())),
            (len(said), len(said), said.count(b";")))


def serve(listener: socket.socket, said: bytes) -> None:
    peer, _ = listener.accept()
    with peer:
        peer.recv(65536)
        peer.sendall(said)


COSTS = [
    ("600,000 chunks of a byte", one_byte_chunks, 4),
    ("200 chunk extensions that come byte by byte", chunks_byte_by_byte, 4),
    ("32 MB of chunk extensions", chunk_extensions, 2),
    ("50,000 heads before the final one", early_heads, 1),
    ("2,000 heads that come byte by byte", heads_byte_by_byte, 2),
    ("32 MB of line ends in the place of a head", blank_lines, 1),
    ("4 MB that come byte by byte", pieces_of_a_byte, 4),
    ("32 MB of chunk extensions through the relay", relayed, 5),
]
