"""Checks bin/har --many --dask, by a scheduler of its own with two workers. The lines are those of a run without it:

- where nothing happens;
- where a worker is killed in mid run, and where all connections of the command to the scheduler are cut;
- where the command is killed, and goes on;
- except one recording that kills its worker each time: that is told and left out.

It needs Debian's python3-distributed, and does nothing without it. Plays are made by the program that FETCHPLAY
names."""
from __future__ import annotations

import contextlib
import json
import os
import signal
import socket
import subprocess
import sys
import tempfile
import threading
import time
import unittest
from typing import Any, Callable, Iterator, Optional, Union

from fiorrudda.places import ROOT
from tests import base

PYTHON = "/usr/bin/python3"
COUNT, POISONED, HELD = 40, 17, 20
PATIENCE = 600
POISON, HOLD = b"poison.test", b"held.test"
Happens = Callable[["subprocess.Popen[bytes]"], Any]
# A program that plays. It kills the worker which runs it where the scenario has the first host, and waits for as long
# as a file is there where it has the second.
PROGRAM = """#!/usr/bin/env python3
import os, signal, subprocess, sys, time
scenario = sys.stdin.buffer.read()
if %r in scenario:
    os.kill(os.getppid(), signal.SIGKILL)
while %r in scenario and os.path.exists(%r):
    time.sleep(0.05)
sys.exit(subprocess.run([%r, *sys.argv[1:]], input=scenario).returncode)
"""
# Waits until both workers are there.
WAITING = """
import sys
from distributed import Client
with Client(sys.argv[1], timeout=int(sys.argv[2])) as client:
    client.wait_for_workers(2, timeout=int(sys.argv[2]))
"""


def free_port() -> int:
    with socket.socket() as one:
        one.bind(("127.0.0.1", 0))
        port: int = one.getsockname()[1]
        return port


def wait_until(is_so: Callable[[], bool], what: str) -> None:
    end = time.monotonic() + PATIENCE
    while not is_so():
        if time.monotonic() > end:
            sys.exit(f"recorded/check_dask: {what}: not in {PATIENCE} seconds")
        time.sleep(0.05)


def is_open(port: int) -> bool:
    with socket.socket() as one:
        return one.connect_ex(("127.0.0.1", port)) == 0


def content(path: str) -> bytes:
    try:
        with open(path, "rb") as file:
            return file.read()
    except FileNotFoundError:
        return b""


# ---- the cluster

class Relay:
    """A port that leads to the scheduler, whose connections can be cut."""

    def __init__(self, target: int):
        self.target = target
        self.links: list[socket.socket] = []
        self.listener = socket.create_server(("127.0.0.1", 0))
        self.port = self.listener.getsockname()[1]
        threading.Thread(target=self.accept, daemon=True).start()

    def accept(self) -> None:
        while True:
            one, _ = self.listener.accept()
            other = socket.create_connection(("127.0.0.1", self.target))
            self.links += [one, other]
            for pair in ((one, other), (other, one)):
                threading.Thread(target=self.pass_on, args=pair, daemon=True).start()

    @staticmethod
    def pass_on(one: socket.socket, other: socket.socket) -> None:
        with contextlib.suppress(OSError):
            while data := one.recv(65536):
                other.sendall(data)
        for link in (one, other):
            with contextlib.suppress(OSError):
                link.shutdown(socket.SHUT_RDWR)

    def cut(self) -> int:
        """Cuts all connections; says how many there were."""
        links, self.links = self.links, []
        for link in links:
            with contextlib.suppress(OSError):
                link.shutdown(socket.SHUT_RDWR)
        return len(links) // 2


def killing_program(room: str) -> str:
    """The path of PROGRAM."""
    path = os.path.join(room, "play")
    with open(path, "w", encoding="utf-8") as file:
        file.write(PROGRAM % (POISON, HOLD, hold_in(room), os.environ["FETCHPLAY"]))
    os.chmod(path, 0o700)
    return path


@contextlib.contextmanager
def cluster(room: str, program: str) -> Iterator[tuple[int, list[int]]]:
    """A scheduler and two workers with nannies, which start a worker anew that died. They play by this program."""
    port = free_port()
    own = {**os.environ, "FETCHPLAY": program, "DASK_DISTRIBUTED__SCHEDULER__ALLOWED_FAILURES": "1",
           "PATH": os.path.dirname(PYTHON) + os.pathsep + os.environ["PATH"]}
    quiet: dict[str, Any] = {"stdout": subprocess.DEVNULL, "stderr": subprocess.DEVNULL, "env": own, "cwd": room}
    words = [PYTHON, "-m", "distributed.cli.dask_scheduler", "--host", "127.0.0.1", "--port", str(port),
             "--no-dashboard"]
    started = [subprocess.Popen(words, **quiet)]
    try:
        wait_until(lambda: is_open(port), "the scheduler is up")
        for number in range(2):
            started.append(subprocess.Popen(
                [PYTHON, "-m", "distributed.cli.dask_worker", f"tcp://127.0.0.1:{port}", "--nthreads", "1",
                 "--host", "127.0.0.1", "--no-dashboard", "--local-directory", os.path.join(room, str(number))],
                **quiet))
        subprocess.run([PYTHON, "-c", WAITING, f"tcp://127.0.0.1:{port}", str(PATIENCE)], check=True, **quiet)
        yield port, [one.pid for one in started[1:]]
    finally:
        for one in reversed(started):
            one.terminate()
        for one in started:
            with contextlib.suppress(subprocess.TimeoutExpired):
                one.wait(20)
            one.kill()


def worker_below(nanny: int) -> int:
    """The worker's own process: of a nanny's children the one that has most threads."""
    children = []
    for name in filter(str.isdigit, os.listdir("/proc")):
        with contextlib.suppress(OSError):  # it has ended
            with open(f"/proc/{name}/stat", encoding="latin-1") as file:
                words = file.read().rpartition(")")[2].split()
            if int(words[1]) == nanny:
                children.append((int(words[17]), int(name)))
    return max(children)[1]


# ---- the runs

def many(path: str, out: str, *words: str) -> list[str]:
    return [os.path.join(ROOT, "bin", "har"), "--many", path, "--csp", "img-src 'self'", "--out", out, *words]


def hold_in(room: str) -> str:
    """The file for as long as which a run does not come to its end."""
    return os.path.join(room, "hold")


def made(room: str, poisoned: bool) -> str:
    """A file of recordings, of which one has the host that kills, or the one that waits."""
    ran = subprocess.run([os.path.join(ROOT, "bench", "recordings"), "4", str(COUNT)], stdout=subprocess.PIPE,
                         check=True)
    rows = ran.stdout.splitlines()
    which, host = (POISONED, POISON) if poisoned else (HELD, HOLD)
    rows[which] = rows[which].replace(b"shop.test", host)
    path = os.path.join(room, "poisoned.jsonl" if poisoned else "many.jsonl")
    with open(path, "wb") as file:
        file.write(b"\n".join(rows))
    return path


def run_with(path: str, out: str, port: int, happens: Optional[Happens] = None) -> Union[int, str]:
    """A run by the scheduler, in whose midst something happens; its status."""
    hold = hold_in(os.path.dirname(out))
    if happens:
        with open(hold, "wb"):
            pass
    process = subprocess.Popen(many(path, out, "--dask", f"tcp://127.0.0.1:{port}"), stdout=subprocess.DEVNULL,
                               stderr=subprocess.PIPE)
    if happens:
        wait_until(lambda: content(out).count(b"\n") > COUNT // 4, "a quarter of the lines")
        happens(process)
        os.remove(hold)
    try:
        complaint = process.communicate(timeout=PATIENCE)[1]
    except subprocess.TimeoutExpired:
        process.kill()
        return f"not in {PATIENCE} seconds"
    return process.returncode or complaint.decode()


def has_distributed() -> bool:
    return subprocess.run([PYTHON, "-c", "import distributed"], stderr=subprocess.DEVNULL).returncode == 0


@unittest.skipUnless(has_distributed(), "nothing tried: python3-distributed is not installed")
class Checks(base.Checks):
    def test_dask(self) -> None:
        os.environ.setdefault("FETCHPLAY", os.path.join(ROOT, "bin", "fetchplay"))
        with tempfile.TemporaryDirectory() as room, cluster(room, killing_program(room)) as (port, nannies):
            self.check_runs(room, port, nannies)
            self.check_poison(room, port)
        self.counted(f"{COUNT} recordings, judged by two workers of Dask: the same lines as by one process, with a "
                     "worker killed, connections cut and the command killed; one that kills is left out")

    def check_runs(self, room: str, port: int, nannies: list[int]) -> None:
        path = made(room, False)
        wanted = os.path.join(room, "wanted")
        status = subprocess.run(many(path, wanted), stdout=subprocess.DEVNULL).returncode
        relay = Relay(port)
        cut: list[int] = []
        rows: tuple[tuple[str, int, Optional[Happens]], ...] = (("plain", port, None),
                ("a worker is killed", port, lambda _: os.kill(worker_below(nannies[0]), signal.SIGKILL)),
                ("the connections are cut", relay.port, lambda _: cut.append(relay.cut())))
        for name, own, happens in rows:
            out = os.path.join(room, name)
            self.compare(f"{name}: the status", run_with(path, out, own, happens), status)
            self.compare(f"{name}: the lines are those of one process", content(out) == content(wanted), True)
        self.compare("connections were cut", sum(cut) > 0, True)
        out = os.path.join(room, "stopped")
        killed = run_with(path, out, port, lambda process: process.kill())
        self.compare("the command is killed", killed, -signal.SIGKILL)
        self.compare("it has a part of the lines", 0 < len(content(out)) < len(content(wanted)), True)
        self.compare("it goes on", run_with(path, out, port), status)
        self.compare("its lines are those of one process", content(out) == content(wanted), True)

    def check_poison(self, room: str, port: int) -> None:
        """One recording that kills its worker is left out, and the others are judged."""
        path, out = made(room, True), os.path.join(room, "poisoned")
        self.compare("the status with a recording that kills", run_with(path, out, port), 3)
        rows = [json.loads(line) for line in content(out).splitlines()[1:]]
        died = [(number, row["error"]) for number, row in enumerate(rows) if "error" in row]
        self.compare("the recordings", len(rows), COUNT)
        self.compare("which are left out", died, [(POISONED, "its worker died twice")])


def main() -> int:
    return base.main("recorded/check_dask", __name__)
