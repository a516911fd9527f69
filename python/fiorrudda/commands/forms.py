"""The body of a form with files, as the words --form of curl name its parts: NAME=VALUE, NAME=@FILE and NAME=<FILE."""
from __future__ import annotations

import hashlib
import os
import re

from fiorrudda.commands import streams
from fiorrudda.commands.there import there

TYPE = "multipart/form-data; boundary="
PART = re.compile(r"([^=]+)=([@<]?)([^;]*|.*?)((?:;(?:type|filename)=[^;]*)*)", re.S)


def problem(text: str) -> str | None:
    """What is wrong in the text of a part, or None."""
    if re.match(r"https?://", text, re.I):
        return "a part of a form is written as NAME=VALUE; --from names the page that asks"
    return None if PART.fullmatch(text) else "write it as NAME=VALUE, or as NAME=@FILE"


def body_of(texts: list[str]) -> tuple[bytes, str]:
    """The bytes of the body, and its Content-Type. A file that cannot be read raises OSError."""
    parts = list(map(part_of, texts))
    boundary = "----" + hashlib.sha256(b"\n".join(parts)).hexdigest()[:24]
    mark = b"--" + boundary.encode("ascii")
    return b"".join(b"%b\r\n%b\r\n" % (mark, part) for part in parts) + mark + b"--\r\n", TYPE + boundary


def in_quotes(name: str) -> str:
    return '"' + name.replace('"', "%22") + '"'


def part_of(text: str) -> bytes:
    """A part with its head."""
    name, sign, value, more = there(PART.fullmatch(text)).groups()
    given = dict(one.split("=", 1) for one in more.split(";")[1:])
    data = streams.read(value) if sign else value.encode("utf-8", "surrogateescape")
    head = f"Content-Disposition: form-data; name={in_quotes(name)}"
    if sign == "@":
        head += f"; filename={in_quotes(given.get('filename', os.path.basename(value)))}"
    kind = given.get("type", "application/octet-stream" if sign == "@" else None)
    head += "\r\nContent-Type: " + kind if kind else ""
    return head.encode("utf-8", "surrogateescape") + b"\r\n\r\n" + data
