"""mitmdump, with the flows that it writes or with changes that are tried."""
from __future__ import annotations

import os
import signal
import subprocess
import sys
from contextlib import contextmanager
from typing import Iterator

from fiorrudda.places import ROOT
from tests.recorded.real.applications import is_open, wait_until
from tests.recorded.real.firefox import free_port

OWN = os.path.join(ROOT, "python")
ADDON = os.path.join(OWN, "addon.py")
CONTROL = os.path.join(OWN, "tests", "recorded", "real", "control.py")
CHANGES_HOST = "changes.invalid"  # of control.py
PYTHON = "/usr/bin/python3"
# Leaves the headers of each flow, and the bodies of HTML.
SHRINK = """
import sys
from mitmproxy import io
with open(sys.argv[1], "rb") as old, open(sys.argv[2], "wb") as new:
    writer = io.FlowWriter(new)
    for flow in io.FlowReader(old).stream():
        if flow.response and "html" not in flow.response.headers.get("content-type", ""):
            flow.response.raw_content = None
        if flow.request.host == "localhost":
            writer.add(flow)
"""


@contextmanager
def proxy(room: str, *words: str) -> Iterator[int]:
    """The port of a mitmdump with these words, as long as it runs."""
    port = free_port()
    log = os.path.join(room, "mitmdump.log")
    with open(log, "wb") as file:
        process = subprocess.Popen(["mitmdump", "--listen-host", "127.0.0.1", "-p", str(port), "--set",
                                    f"confdir={room}", *words], stdout=file, stderr=file,
                                   env={**os.environ, "PYTHONPATH": OWN})
    try:
        wait_until(lambda: is_open(port) or process.poll() is not None, "mitmdump")
        if process.poll() is not None:
            with open(log, encoding="utf-8", errors="replace") as file:
                sys.exit("mitmdump ended: " + file.read())
        yield port
    finally:
        process.send_signal(signal.SIGINT)
        process.wait()


def tried(changes: list[str], violations: str) -> list[str]:
    """The words of mitmdump for changes that are tried."""
    return ["-s", ADDON, "--set", f"violations={violations}", *(word for change in changes
                                                                for word in ("--set", f"change={change}"))]


def shrunk(path: str) -> bytes:
    """A flow file without the bodies of what is no HTML."""
    small = path + ".small"
    subprocess.run([PYTHON, "-c", SHRINK, path, small], check=True)
    with open(small, "rb") as file:
        return file.read()
