"""Decodes br by node, where python3 has no module brotli. Node runs beside bin/ask, gets piece after piece, and makes
no more than is read of it; it ends with the stream, or with bin/ask, whose time limit holds for it too."""
from __future__ import annotations

import contextlib
import functools
import subprocess
import weakref
from typing import TYPE_CHECKING

from fiorrudda.commands.there import there

if TYPE_CHECKING:
    from collections.abc import Iterator

# What node says: bytes that it made, that a piece is taken, and how it ends.
DATA, TAKEN, WHOLE, CUT, BROKEN = b"dtwcb"
# It reads a length of four bytes and a piece behind it, until its input ends. What it says is a kind, a length and
# bytes.
SCRIPT = """
const fs = require("node:fs");
const machine = require("node:zlib").createBrotliDecompress();
let end = null, isTaking = false;
function say(kind, data = Buffer.alloc(0)) {
  const head = Buffer.alloc(5);
  head.write(kind);
  head.writeUInt32BE(data.length, 1);
  const all = Buffer.concat([head, data]);
  for (let at = 0; at < all.length;) at += fs.writeSync(1, all, at);
}
function read(count) {
  const data = Buffer.alloc(count);
  for (let at = 0; at < count;) {
    const taken = fs.readSync(0, data, at, count - at);
    if (taken === 0) return null;
    at += taken;
  }
  return data;
}
function next() {
  const head = read(4);
  if (end === null && head === null) return machine.end();
  if (end !== null && head === null) return say(end);
  const piece = read(head.readUInt32BE(0));
  isTaking = true;
  if (end === null) machine.write(piece, () => setImmediate(taken));
  else setImmediate(taken);
}
function taken() {
  if (!isTaking) return;
  isTaking = false;
  say(end === "b" ? end : "t");
  next();
}
function ends(how) {
  end = how;
  if (machine.writableEnded) say(end);
  else if (end === "b") taken();
}
machine.on("data", (data) => say("d", data));
machine.on("end", () => ends("w"));
machine.on("error", (error) => ends(error.code === "Z_BUF_ERROR" ? "c" : "b"));
next();
"""


class Failed(Exception):
    """The bytes are no br."""


@functools.lru_cache(None)
def program() -> str | None:
    """Where node is; None where it is not."""
    from shutil import which  # which few calls need
    return which("node")


def end_process(process: subprocess.Popen[bytes]) -> None:
    process.kill()
    process.wait()
    there(process.stdout).close()
    with contextlib.suppress(BrokenPipeError):  # of what it did not take
        there(process.stdin).close()


class NodeBrotli:
    """As codings.py has a decoder."""

    def __init__(self) -> None:
        self.process: subprocess.Popen[bytes] | None = None
        self.made = 0
        self.end: int | None = None

    def is_over(self) -> bool:
        """Whether all data came; no more of it comes then."""
        if self.end is None:
            with contextlib.suppress(BrokenPipeError):
                there(self.running().stdin).close()
            self.end = next(kind for kind, _ in iter(self.said, None) if kind != DATA)
        return self.end == WHOLE

    def flaw(self) -> str | None:
        return None

    def steps(self, data: bytes) -> Iterator[bytes]:
        """What the next bytes stand for, a step at a time."""
        stream = there(self.running().stdin)
        with contextlib.suppress(BrokenPipeError):  # it is gone, which what it says shows
            stream.write(len(data).to_bytes(4, "big") + data)
            stream.flush()
        for kind, made in iter(self.said, None):
            if kind == BROKEN:
                self.end = kind
                raise Failed
            if kind == TAKEN:
                return
            self.made += len(made)
            yield made

    def running(self) -> subprocess.Popen[bytes]:
        if self.process is None:
            self.process = subprocess.Popen([there(program()), "-e", SCRIPT], stdin=subprocess.PIPE,
                                            stdout=subprocess.PIPE, stderr=subprocess.DEVNULL)
            weakref.finalize(self, end_process, self.process)
        return self.process

    def said(self) -> tuple[int, bytes]:
        """The next that node says."""
        stream = there(self.running().stdout)
        head = stream.read(5)
        if len(head) < 5:
            raise RuntimeError("node ended while it decoded br: install python3-brotli")
        return head[0], stream.read(int.from_bytes(head[1:], "big"))
