"""Writes a recording for bench/har.sh to standard output: a page of Chromium with so many entries of its own (default
1,000), of 40 hosts, with headers and bodies as pages have them. Each 50th has failed, and each 10th is a fetch. With a
second number it writes so many, each in a line and with other entries.

    bench/recordings 10000 >large.har
    bench/recordings 5 20000 >many.jsonl"""
from __future__ import annotations

import json
import sys
from typing import Any, TextIO

from tests.recorded import recordings

HOSTS = 40
BODY = "x" * 3100
POLICY = ("default-src 'self'; script-src 'self' 'nonce-abc' " + " ".join(
    f"https://host{number}.test" for number in range(HOSTS)) + "; img-src * data:; style-src * 'unsafe-inline'; "
    "connect-src *; font-src *; report-uri /reports")
KINDS = (("image", "image/png", "png"), ("script", "text/javascript", "js"), ("stylesheet", "text/css", "css"),
         ("font", "font/woff2", "woff2"), ("image", "image/webp", "webp"))
AGENT = "Mozilla/5.0 (X11; Linux x86_64) AppleWebKit/537.36 (KHTML, like Gecko) Chrome/156.0.0.0 Safari/537.36"
SENT = [("Accept-Encoding", "gzip, deflate, br, zstd"), ("Accept-Language", "en-US,en;q=0.9"), ("User-Agent", AGENT),
        ("Cache-Control", "no-cache"), ("Referer", recordings.SHOP + "/"), ("Sec-CH-UA-Mobile", "?0"),
        ("Sec-CH-UA-Platform", '"Linux"'), ("Sec-Fetch-Site", "cross-site"), ("DNT", "1")]
GOT = [("Date", "Tue, 01 Dec 2026 06:00:00 GMT"), ("Server", "nginx"), ("Cache-Control", "public, max-age=31536000"),
       ("ETag", '"6570a1b2-9c4"'), ("Last-Modified", "Mon, 30 Nov 2026 06:00:00 GMT"), ("Accept-Ranges", "bytes"),
       ("Vary", "Accept-Encoding"), ("X-Cache", "HIT"), ("X-Request-Id", "7f9c2ba4e88f827d"), ("Age", "4211"),
       ("Strict-Transport-Security", "max-age=31536000; includeSubDomains"), ("X-Content-Type-Options", "nosniff"),
       ("Access-Control-Allow-Origin", "*"), ("Timing-Allow-Origin", "*"), ("Alt-Svc", 'h3=":443"; ma=86400')]


def entry(number: int) -> dict[str, Any]:
    """An entry of the page."""
    is_fetch, (kind, content, ending) = number % 10 == 0, KINDS[number % len(KINDS)]
    kind, content, ending = ("fetch", "application/json", "json") if is_fetch else (kind, content, ending)
    is_cors = is_fetch or kind == "font"
    sent = [("Sec-Fetch-Mode", "cors" if is_cors else "no-cors"), ("Sec-Fetch-Dest", {
        "stylesheet": "style", "fetch": "empty"}.get(kind, kind)), *SENT]
    failed = number % 50 == 0
    got = [("Content-Type", content), *(pair for pair in GOT if not failed or "Access" not in pair[0])]
    found = recordings.entry(
        f"https://host{number % HOSTS}.test/assets/{number // 100}/{number:06d}.{ending}?v={number % 7}", kind, 200,
        got, sent + ([("Origin", recordings.SHOP)] if is_cors else []), time=12.5, cache={}, timings={"wait": 9.5})
    found["startedDateTime"] = f"2026-12-01T06:{number // 1000 % 60:02d}:{number // 20 % 60:02d}.{number % 1000:03d}Z"
    found["_initiator"] = {"type": "parser", "url": recordings.SHOP + "/", "lineNumber": number}
    found["response"]["content"] = {"size": len(BODY), "mimeType": content, "text": BODY}
    found["response"]["_error"] = "net::ERR_FAILED" if failed else None
    return found


def recording(count: int, begin: int = 0) -> dict[str, Any]:
    page = recordings.page(*map(entry, range(begin, begin + count)), headers=[("Content-Security-Policy", POLICY)])
    page["log"]["entries"][0]["startedDateTime"] = "2026-12-01T05:59:59.000Z"
    page["log"]["entries"][0]["response"]["content"] = {"text": "<!doctype html><title>A shop</title>"}
    return page


def write(file: TextIO, entries: int, count: int) -> None:
    for number in range(count):
        json.dump(recording(entries, number * entries), file)
        file.write("\n" if count > 1 else "")


def main() -> None:
    given = [int(word) for word in sys.argv[1:]]
    entries, count = given + [1000, 1][len(given):]
    write(sys.stdout, entries, count)
