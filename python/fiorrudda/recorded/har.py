"""Reads a recording: the bytes of a HAR 1.2, or of a flow file of mitmproxy, plain or packed by gzip. What is none, or
is cut, is refused with its place."""
from __future__ import annotations

import json
import zlib
from typing import Any

from fiorrudda.commands import json_text
from fiorrudda.recorded import entries, fields, flows, pages
from fiorrudda.recorded.model import Entry, Recording

GZIP = b"\x1f\x8b"
BOM = b"\xef\xbb\xbf"
LARGEST = 1 << 30  # bytes, unpacked
SMALL = 1 << 22  # characters: of a longer text the reader of Python's own says what is wrong
EXPECTED = 'a recording is an object with `log`, which has `entries`: {"log": {"entries": [..]}}'
PROXY = ("a proxy made the recording: what the browser stopped itself, by a policy or as mixed content, is not in it, "
         "nor what came from its cache")
CUT = "the recording is cut: it ends in the middle; export it again"


class NoHar(Exception):
    """Why bytes are no recording, in a sentence, with the line and the column."""

    def __init__(self, line: int, column: int, sentence: str):
        super().__init__(sentence)
        self.line = line
        self.column = column
        self.sentence = sentence


def read(data: bytes) -> Recording:
    """The recording that bytes are; raises NoHar."""
    log = log_of(data)
    count = len(log["entries"])
    found, bad = entries_of(log["entries"])
    creator = creator_of(log)
    recording = Recording(browser=browser_of(creator, found), creator=creator, tells_errors=tells_errors(creator),
                          count=count, entries=found, bad=bad,
                          notes=[PROXY] if creator.startswith("mitmproxy") else [])
    pages.add(recording, titles_of(log), found)
    return recording


def log_of(data: bytes) -> dict[str, Any]:
    """The `log` of a recording's bytes."""
    data = unpacked(data)
    if flows.is_flows(data):
        try:
            return flows.log_of(data)
        except flows.NoFlows as error:
            raise NoHar(1, 1, str(error)) from None
    return log_of_har(text_of(data))


def log_of_har(text: str) -> dict[str, Any]:
    """The same of a HAR's text."""
    root = tree_of(text)
    if not isinstance(root, dict):
        raise no_har(text, first_sign(text), f"this is {fields.told(root)}: {EXPECTED}")
    if "log" not in root:
        hint = ("this is a scenario, which bin/why plays" if "documents" in root else "there is no `log`")
        raise no_har(text, first_sign(text), f"{hint}: {EXPECTED}")
    log = root["log"]
    if not isinstance(log, dict) or not isinstance(log.get("entries"), list):
        key = "entries" if isinstance(log, dict) and "entries" in log else "log"
        value = log.get("entries") if key == "entries" else log
        what = "it has no `entries`" if isinstance(value, dict) and key == "log" else f"`{key}` is {fields.told(value)}"
        raise no_har(text, max(text.find(f'"{key}"'), 0), f"{what}: {EXPECTED}")
    return log


def unpacked(data: bytes) -> bytes:
    if not data.startswith(GZIP):
        return data
    pieces, left, size = [], data, 0
    while left:
        machine = zlib.decompressobj(16 + zlib.MAX_WBITS)
        try:
            pieces.append(machine.decompress(left, LARGEST - size + 1))
        except zlib.error:
            raise NoHar(1, 1, "the file begins as gzip does, and is none: export it again") from None
        size += len(pieces[-1])
        if size > LARGEST:
            raise NoHar(1, 1, "it has more than 1 GiB, unpacked")
        if not machine.eof:
            raise NoHar(1, 1, "the gzip file is cut: copy it again")
        left = machine.unused_data.lstrip(b"\0")
    return b"".join(pieces)


def text_of(data: bytes) -> str:
    """HAR allows a byte order mark, and has its readers skip it."""
    data = data[len(BOM):] if data.startswith(BOM) else data
    try:
        return json_text.decoded(data)
    except json_text.Fault as fault:
        before = data.decode("utf-8", "replace")
        raise no_har(before, fault.place, fault.sentence) from None


def tree_of(text: str) -> Any:
    if not text.strip():
        raise NoHar(1, 1, f"the file is empty: {EXPECTED}")
    try:
        return json.loads(text, parse_int=whole, parse_constant=no_constant)
    except RecursionError:
        raise NoHar(1, 1, "lists and objects stand too deep in each other here") from None
    except json.JSONDecodeError as error:
        is_cut = error.pos >= len(text.rstrip()) or error.msg.startswith("Unterminated string")
        at, sentence = (len(text.rstrip()), CUT) if is_cut else (error.pos, f"this is no JSON: {error.msg.lower()}")
    except ValueError as error:
        at, sentence = 0, f"this is no JSON: {error}"
    if len(text) <= SMALL and sentence is not CUT:
        try:
            json_text.read(text, "a recording")
        except json_text.Fault as fault:
            at, sentence = fault.place, fault.sentence
    raise no_har(text, at, sentence)


def whole(digits: str) -> Any:
    return int(digits) if len(digits) < 20 else float(digits)


def no_constant(word: str) -> None:
    raise ValueError(f"{word} is no value")


def no_har(text: str, at: int, sentence: str) -> NoHar:
    return NoHar(*json_text.place_of(text, at), sentence)


def first_sign(text: str) -> int:
    return len(text) - len(text.lstrip())


# ---- the parts of the log

def entries_of(values: list[Any]) -> tuple[list[Entry], list[tuple[int, str]]]:
    """All entries in the order of their times, and what is wrong with the others. The values are given back one by one,
    which halves the memory."""
    found, bad = [], []
    for number, value in enumerate(values):
        values[number] = None
        try:
            if isinstance(value, fields.Bad):
                raise value
            found.append(entries.read(value, number))
        except fields.Bad as error:
            bad.append((number, str(error)))
    if all(entry.started is not None for entry in found):
        found.sort(key=lambda entry: entry.started or 0)
    return found, bad


def titles_of(log: fields.Object) -> dict[str, str]:
    """The URL of each page by its id, where its title or a field of its own is one."""
    found = {}
    for page in log["pages"] if isinstance(log.get("pages"), list) else []:
        if isinstance(page, dict) and isinstance(page.get("id"), str):
            found[fields.clean(page["id"])] = fields.any_text(page, "_URL", "_url", "title")
    return found


def creator_of(log: fields.Object) -> str:
    """The names and versions of what wrote it, and of the browser."""
    parts = []
    for key in ("browser", "creator"):
        one = log.get(key)
        if isinstance(one, dict):
            parts.append(" ".join(filter(None, [fields.any_text(one, "name"), fields.any_text(one, "version")])))
    return ", ".join(dict.fromkeys(filter(None, parts)))


def tells_errors(creator: str) -> bool:
    """Chromium's own tools do, and Playwright in Chromium."""
    return creator.startswith("WebInspector") or "Playwright" in creator and "chrom" in creator.lower()


def browser_of(creator: str, found: list[Entry]) -> str:
    """Which browser made it: its tools' name says so, or else the requests."""
    told = creator.lower()
    agents = (entry.asked("User-Agent") or "" for entry in found[:20])
    agent = next(filter(None, agents), "")
    if "firefox" in told or "firefox/" in agent.lower():
        return "firefox"
    is_chromium = told.startswith("webinspector") or "chrom" in told or "Chrome/" in agent
    return "chromium" if is_chromium and "webkit" not in told else ""
