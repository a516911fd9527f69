"""Decodes the body of an answer while it comes, for the engine, which decodes none. The engine is fed the head without
its Content-Encoding, and the decoded body in chunks; the connection is read no further than the engine reads."""
from __future__ import annotations

import functools
import itertools
import zlib
from typing import TYPE_CHECKING

from fiorrudda.commands import answers, node_brotli
from fiorrudda.commands.needs import TOKEN
from fiorrudda.commands.there import there

if TYPE_CHECKING:
    from collections.abc import Callable, Iterator
    from typing import Any, Union

    from fiorrudda.commands.answers import Answer, Head

    Decoder = Union["Inflate", "Brotli", node_brotli.NodeBrotli]

try:
    import brotli
except ImportError:
    brotli = None

STEP = 65536  # the most bytes that are decoded at once
BROTLI_STEP = 16  # bytes that go into the decoder of br, which gives all that they stand for
MOST_CODINGS = 4
MOST_MADE = 1 << 24  # bytes that are decoded of a body which the engine does not read
LAST_CHUNK = b"0\r\n\r\n"
LONGEST_HEAD = 65536  # bytes before the data of gzip
# The codings that browsers decode: of another one the page gets the bytes as they came.
BROWSERS = ("gzip", "x-gzip", "deflate", "br", "zstd", "dcb", "dcz")
# What Chromium and Firefox name in a request over TLS or to their own machine, and in one in plain.
OVER_TLS, IN_PLAIN = "`gzip, deflate, br, zstd`", "`gzip, deflate`, and br and zstd over https alone"
NO_BODY = (101, 103, 204, 205, 304)
ERRORS = (zlib.error, node_brotli.Failed, *([] if brotli is None else [brotli.error]))


class Cut(Exception):
    """The body ends before its framing or its coding does, or does not fit it: in a sentence. `coding` is the coding
    that it is about, where it is about one; `is_other` says that the body is none of it, `is_broken` that it is one
    whose middle is not, and `outer` are the codings that were decoded before. `made` is how many bytes were decoded
    until then, of a body that the engine does not read."""

    def __init__(self, sentence: str, coding: str | None = None, is_other: bool = False,
                 is_broken: bool = False) -> None:
        super().__init__(sentence)
        self.coding, self.is_other, self.is_broken = coding, is_other, is_broken
        self.outer: list[str] = []
        self.made: int | None = None


class Broken(Exception):
    """The connection failed."""


class Unknown(Exception):
    """What is still to come of a body is not waited for."""


class Inflate:
    """Decodes gzip, and deflate with the head of zlib or without one, as some servers send it. `trailer` is what stands
    behind the data: a checksum, and of gzip a length; `flaw` says in words what is wrong there, which Chromium and
    Firefox read over (docs/BROWSERS.md)."""

    def __init__(self, is_gzip: bool) -> None:
        self.is_gzip = is_gzip
        self.machine: Any = None
        self.begun, self.trailer, self.length = b"", b"", 8 if is_gzip else 4
        self.sum, self.made, self.taken = 0 if is_gzip else 1, 0, 0

    def is_over(self) -> bool:
        """Whether all data came."""
        return self.machine is not None and bool(self.machine.eof)

    def is_whole(self) -> bool:
        """Whether what stands behind them came, too."""
        return self.is_over() and len(self.trailer) == self.length

    def flaw(self) -> str | None:
        if not self.is_whole():
            return "lacks its trailer" if self.is_over() else None
        if not self.is_gzip:
            return None
        number, length = (int.from_bytes(self.trailer[at:at + 4], "little") for at in (0, 4))
        if number != self.sum:
            return "has a checksum that does not fit it"
        return "says another length in its trailer" if length != self.made % (1 << 32) else None

    def steps(self, data: bytes) -> Iterator[bytes]:
        """What the next bytes stand for, a step at a time. What comes behind the trailer is left out."""
        if self.machine is None:
            self.begun = data = self.begun + data
            start = (gzip_head_end if self.is_gzip else zlib_head_end)(data)
            if start is None:
                return
            self.machine = zlib.decompressobj(-zlib.MAX_WBITS)
            self.length = 0 if start == 0 else self.length
            self.taken, data, self.begun = start, data[start:], b""
        while data and not self.machine.eof:
            step = self.machine.decompress(data, STEP)
            left = self.machine.unconsumed_tail or self.machine.unused_data
            self.taken += len(data) - len(left)
            data = left
            yield self.counted(step)
        yield from self.flushed()
        if self.machine.eof:
            self.take_trailer(data)

    def flushed(self) -> Iterator[bytes]:
        """What the machine still holds back of a long step."""
        while not self.machine.eof:
            step = self.machine.decompress(b"", STEP)
            if not step:
                return
            yield self.counted(step)

    def counted(self, step: bytes) -> bytes:
        self.made += len(step)
        self.sum = (zlib.crc32 if self.is_gzip else zlib.adler32)(step, self.sum)
        return step

    def take_trailer(self, data: bytes) -> None:
        more = data[:self.length - len(self.trailer)]
        self.trailer += more
        self.taken += len(more)
        if self.is_whole() and self.length == 4 and int.from_bytes(self.trailer, "big") != self.sum:
            raise zlib.error("the checksum is another")


def gzip_head_end(data: bytes) -> int | None:
    """Where the data of gzip begin behind their head (RFC 1952); None where more of it is to come."""
    if not b"\x1f\x8b\x08".startswith(data[:3]) or len(data) > 3 and data[3] & 0xe0:
        raise zlib.error("no gzip")
    end = end_of_fields(data) if len(data) >= 10 else None
    if end is not None and end <= len(data):
        return end
    if len(data) > LONGEST_HEAD:
        raise zlib.error("its head is too long")
    return None


def end_of_fields(data: bytes) -> int | None:
    """The end of the fields that the flags of gzip name; None where it is not known yet."""
    flags, at = data[3], 10
    if flags & 4:
        at += 2 + int.from_bytes(data[at:at + 2].ljust(2, b"\xff"), "little")
    for bit in (8, 16):
        if flags & bit:
            at = data.find(b"\0", at) + 1
            if at == 0:
                return None
    return at + (2 if flags & 2 else 0)


def zlib_head_end(data: bytes) -> int | None:
    """The same of deflate, which has the head of zlib or none."""
    if len(data) < 2:
        return None
    return 2 if data[0] % 16 == 8 and (256 * data[0] + data[1]) % 31 == 0 else 0


class Brotli:
    def __init__(self) -> None:
        self.machine = brotli.Decompressor()

        self.made = 0

    def is_over(self) -> bool:
        return bool(self.machine.is_finished())

    def flaw(self) -> str | None:
        return None

    def steps(self, data: bytes) -> Iterator[bytes]:
        for at in range(0, len(data), BROTLI_STEP):
            if self.machine.is_finished():
                return
            made = self.machine.process(data[at:at + BROTLI_STEP])
            self.made += len(made)
            yield from (made[start:start + STEP] for start in range(0, len(made), STEP))


def names_of(value: str | None) -> list[str]:
    """The codings that the value of a Content-Encoding names, in order."""
    words = [word.strip("\t ").lower() for word in (value or "").split(",")]
    return [word for word in words if word not in ("", "identity")]


def lacking(value: str | None) -> list[str]:
    """Those of them that nothing here decodes, where a browser decodes some."""
    names = names_of(value)
    if is_passed_on(value):
        return []
    return [word for word in names if decoder(word) is None] or names[MOST_CODINGS:]


def is_passed_on(value: str | None) -> bool:
    """Whether browsers decode none of them, so that a page gets the bytes as they came."""
    words = [word.strip("\t ").lower() for word in (value or "").split(",")]
    return bool(names_of(value)) and all(TOKEN.fullmatch(word) and word not in BROWSERS for word in words)


def accepted() -> str:
    """What is decoded here, as a request says it."""
    return ", ".join(filter(decoder, ("gzip", "deflate", "br")))


def decoder(coding: str) -> Decoder | None:
    """The decoder of a coding; None where there is none here."""
    if coding in ("gzip", "x-gzip", "deflate"):
        return Inflate(coding != "deflate")
    if coding != "br":
        return None
    return Brotli() if brotli else node_brotli.NodeBrotli() if node_brotli.program() else None


# ---- streams of pieces: each ends where the body is whole, and raises Cut or Broken where it is not

def arriving(receive: Callable[[], bytes | None]) -> Iterator[bytes]:
    """The pieces of a connection, which `receive` gives: none at the end, None where it failed."""
    while True:
        piece = receive()
        if piece is None:
            raise Broken
        if not piece:
            return
        yield piece


def counted(pieces: Iterator[bytes], length: int) -> Iterator[bytes]:
    """The first bytes, as many as Content-Length says."""
    while length:
        piece = next(pieces, None)
        if piece is None:
            raise Cut("it ends before its Content-Length")
        yield piece[:length]
        length -= min(len(piece), length)


def unchunked(pieces: Iterator[bytes]) -> Iterator[bytes]:
    """The data of chunks."""
    chunks = answers.Chunks()
    for piece in pieces:
        yield chunks.feed(piece)
        if chunks.is_whole:
            return
        if chunks.is_broken:
            break
    raise Cut("its chunks are broken or end early")


def decoded(pieces: Iterator[bytes], coding: str, flaws: list[str]) -> Iterator[bytes]:
    """What the decoder of a coding makes of pieces. What comes behind its end is read and left out, as browsers do it;
    an empty body is one in any coding. What browsers read over is added to `flaws`, in words."""
    own: Decoder = decoder(coding)  # type: ignore[assignment]  # what lacks one is not decoded
    is_empty = True
    for piece in pieces:
        is_empty = is_empty and not piece
        try:
            yield from own.steps(piece)
        except ERRORS:
            if own.made:
                why = "has a checksum that does not fit it" if own.is_over() else "is broken in its middle"
                raise Cut(f"the {coding} body {why}", coding, is_broken=True) from None
            raise Cut(f"it is not {coding}, as Content-Encoding says", coding, True) from None
    if not is_empty and not own.is_over():
        raise Cut(f"the {coding} body is cut", coding)
    if not is_empty and own.flaw():
        flaws.append(f"the {coding} body {own.flaw()}")


def layers(pieces: Iterator[bytes], codings: list[str], flaws: list[str]) -> Iterator[bytes]:
    """What the decoders of codings, the last one first, make of pieces. Where one of them fails it is said which were
    decoded before."""
    outer: list[str] = []
    for coding in reversed(codings):
        pieces = layer(pieces, coding, flaws, list(outer))
        outer.append(coding)
    return pieces


def layer(pieces: Iterator[bytes], coding: str, flaws: list[str], outer: list[str]) -> Iterator[bytes]:
    try:
        yield from decoded(pieces, coding, flaws)
    except Cut as cut:
        if cut.coding == coding and not cut.outer:
            cut.outer = outer
        raise


class Stream:
    """The answer to a request as the engine reads it. `codings` are those of its body, in order; `lacks` those that
    nothing here decodes. `head` is that which the engine was fed in the place of what came, where it was, and `own`
    what came; `body` is what was decoded, `is_opened` says that the engine asked for it, `cut` is what is wrong in it,
    or None, and `flaws` are what browsers read over."""

    def __init__(self, receive: Callable[[], bytes | None], method: str) -> None:
        self.method = method
        self.codings: list[str] = []
        self.lacks: list[str] = []
        self.head: bytes | None = None
        self.own: answers.Head | None = None
        self.body = answers.Pieces()
        self.is_opened = self.is_whole = False
        self.cut: Cut | None = None
        self.flaws: list[str] = []
        self.ahead = self.run(arriving(receive))

    def read(self) -> bytes | None:
        """The next bytes for the engine, none at the end, and None where the connection failed."""
        try:
            return next(filter(None, self.ahead), b"")
        except Broken:
            return None

    def fed(self) -> bytes | None:
        """What the engine was fed in the place of the answer that came, in one chunk; None where it was that answer."""
        if self.head is None:
            return None
        return self.head + in_a_chunk(self.body.joined()) + (LAST_CHUNK if self.is_whole else b"")

    def run(self, pieces: Iterator[bytes]) -> Iterator[bytes]:
        beginning = answers.Beginning()
        is_decided = any(beginning.add(piece) for piece in pieces)
        data = bytes(beginning.data)
        if not is_decided or not self.is_coded(beginning.head):
            yield data
            yield from pieces
            return
        head = there(beginning.head)
        rest = itertools.chain([data[head.end:]], pieces)
        self.own, framing = head, framing_of(head)
        self.head = data[:beginning.start] + plain_head(data[beginning.start:head.end], framing is not None)
        yield self.head
        yield from self.chunked(framing(rest)) if framing else rest

    def is_coded(self, head: Head | None) -> bool:
        """Whether there is a body to decode, and a decoder of each of its codings."""
        value = head.get("Content-Encoding") if head and self.method != "HEAD" and head.status not in NO_BODY else None
        self.codings, self.lacks = [] if is_passed_on(value) else names_of(value), lacking(value)
        return value not in (None, "", "identity") and not self.lacks

    def chunked(self, pieces: Iterator[bytes]) -> Iterator[bytes]:
        """The decoded body in chunks; without the last of them where it is cut."""
        self.is_opened = True
        try:
            for piece in filter(None, layers(pieces, self.codings, self.flaws)):
                self.body.add(piece)
                yield in_a_chunk(piece)
        except Cut as cut:
            self.cut = cut
            return
        self.is_whole = True
        yield LAST_CHUNK


def in_a_chunk(data: bytes) -> bytes:
    return b"%x\r\n%b\r\n" % (len(data), data) if data else b""


def framing_of(head: Head) -> Callable[[Iterator[bytes]], Iterator[bytes]] | None:
    """How a body is framed (docs/rules/answers.md); None where its head is broken there, which the engine says."""
    if head.values("Transfer-Encoding"):
        return unchunked if there(head.get("Transfer-Encoding")).lower() == "chunked" else None
    if not head.values("Content-Length"):
        return lambda pieces: pieces
    length = length_of(there(head.get("Content-Length")))
    return None if length is None else functools.partial(counted, length=length)


def pieces_of(answer: Answer) -> Iterator[bytes]:
    """What came of a body; what is still to come where the server has not ended is not known."""
    yield answer.data[there(answer.head).end:]
    if not answer.is_ended:
        raise Unknown


def fault_in(head: Head, pieces: Iterator[bytes], names: list[str]) -> Cut | None:
    """What is wrong in a body that the engine does not read, a Cut; None where nothing is, or where it is not known."""
    framing, made = framing_of(head), 0
    if framing is None or head.status in NO_BODY:
        return None
    known = list(itertools.takewhile(decoder, reversed(names[-MOST_CODINGS:])))
    pieces = layers(framing(pieces), known[::-1], [])
    try:
        for piece in pieces:
            made += len(piece)
            if made > MOST_MADE:
                return None
    except Unknown:
        return None
    except Cut as cut:
        cut.made = made
        return cut
    return None


def end_of(data: bytes, coding: str | None) -> int | None:
    """How many of these bytes the body of a coding takes; None where that is not known: it does not end in them, or its
    decoder does not say where."""
    own, made = decoder(coding or ""), 0
    if not isinstance(own, Inflate):
        return None
    for at in range(0, len(data), STEP):
        try:
            made += sum(map(len, own.steps(data[at:at + STEP])))
        except ERRORS:
            return None
        if own.is_whole():
            return own.taken
        if made > MOST_MADE:
            return None
    return None


def length_of(value: str) -> int | None:
    """The one number that all values of Content-Length have; None where there is none."""
    words = [word.strip("\t ") for word in value.split(",")]
    numbers = {word.lstrip("0") for word in words}
    if len(numbers) > 1 or not all(word.isascii() and word.isdigit() for word in words):
        return None
    return int(numbers.pop()[:19] or "0")


def plain_head(block: bytes, is_framed: bool) -> bytes:
    """A head without Content-Encoding, whose body comes in chunks where it is framed here."""
    lines = [line for line in answers.LINE_END.split(block) if line.partition(b":")[0].lower() != b"content-encoding"]
    lines = lines[:-2]  # the end of the last line, and the empty one
    if is_framed and not any(line.lower().startswith(b"transfer-encoding:") for line in lines):
        lines.append(b"Transfer-Encoding: chunked")
    return b"\r\n".join([*lines, b"", b""])
