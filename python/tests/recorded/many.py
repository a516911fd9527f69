"""Measures bin/har --many over many recordings by one, two and four processes, and by two workers of Dask; and tries
what may happen in the midst: a process is killed, the command is killed and called again, a worker is killed, and all
connections to the scheduler are cut. Each run is to write the bytes of the first. The status is 1 where one does not.

    bench/many                  20,000 recordings of 5 requests
    bench/many 2000 50          so many of so many

Wall time says how fast it is on a machine that does nothing else. On another one look at the processor time: what it
rises by with more processes is what these cost each other, and the command's own part of it, which one process does,
bounds how many they can be.

It needs python3 (3.9 or later), for Dask Debian's python3-distributed, and the program that FETCHPLAY names."""
from __future__ import annotations

import os
import signal
import subprocess
import sys
import tempfile
import time
from dataclasses import dataclass
from typing import Optional

from fiorrudda.places import ROOT
from tests.recorded import check_dask, large
from tests.recorded.check_dask import Happens

COUNT, REQUESTS = 20000, 5
EVERY = 0.02  # seconds between two looks at a run
TICK = os.sysconf("SC_CLK_TCK")


@dataclass
class Run:
    """One run: its status, seconds by the wall and of processors, those of the command's own process among them, and
    whether its lines are those of the first."""

    status: int
    wall: float
    processors: float
    own: float
    is_same: bool


class Bench:
    def __init__(self, room: str, count: int, requests: int):
        self.room = room
        self.count = count
        self.requests = requests
        self.path = os.path.join(room, "many.jsonl")
        self.first = os.path.join(room, "lines-0")
        self.number = 0
        self.faults = 0
        with open(self.path, "w", encoding="ascii") as file:
            large.write(file, requests, count)

    def run(self, words: list[str], happens: Optional[Happens] = None) -> Run:
        """A run with these words, in whose midst something happens; where that ends it, it is called again."""
        out = os.path.join(self.room, f"lines-{self.number}")
        self.number += 1
        begun, before = time.monotonic(), os.times()
        status, own = self.watched(words, out, happens)
        if happens and status < 0:
            status, more = self.watched(words, out, None)
            own += more
        after = os.times()
        spent = after.children_user + after.children_system - before.children_user - before.children_system
        found = Run(status, time.monotonic() - begun, spent, own, is_equal(out, self.first))
        if out != self.first:
            os.remove(out)
        return found

    def watched(self, words: list[str], out: str, happens: Optional[Happens]) -> tuple[int, float]:
        """The status of a process, and how long its own work took."""
        size = os.path.getsize(self.first) // 3 if happens else 0
        process = subprocess.Popen([os.path.join(ROOT, "bin", "har"), "--many", self.path, "--csp", "img-src 'self'",
                                    "--out", out, *words], stdout=subprocess.DEVNULL)
        own = 0.0
        while process.poll() is None:
            own = max(own, own_time(process.pid))
            if happens and os.path.exists(out) and os.path.getsize(out) > size:
                happens(process)
                happens = None
            time.sleep(EVERY)
        if happens:
            sys.exit("bench/many: the run was at its end before its midst: give it more recordings")
        return process.returncode, own

    def tell(self, name: str, found: Run, one: Run, jobs: int = 0) -> None:
        """Says what a run came to, beside the first; of so many processes, how much of linear it is."""
        is_good = found.is_same and found.status == one.status
        self.faults += not is_good
        each = 1000 / self.count
        told = f"{found.wall:.1f} s, {found.processors * each:.1f} ms of processors for each, of which " \
               f"{found.own * each:.2f} the command's own"
        if jobs:
            told += f", {one.wall / found.wall / jobs:.2f} of linear by the wall, " \
                    f"{one.processors / found.processors:.2f} by processors"
        print(f"{name}: {told}: {'the same lines' if is_good else 'OTHER LINES'}", flush=True)


def own_time(pid: int) -> float:
    """The seconds that a process itself has worked, without those that it started."""
    try:
        with open(f"/proc/{pid}/stat", encoding="ascii", errors="replace") as file:
            parts = file.read().rpartition(")")[2].split()
    except OSError:
        return 0.0
    return (int(parts[11]) + int(parts[12])) / TICK


def is_equal(path: str, other: str) -> bool:
    return subprocess.run(["cmp", "-s", path, other]).returncode == 0


def kill_child(process: subprocess.Popen[bytes]) -> None:
    """Kills one of the processes of a run."""
    found = subprocess.run(["ps", "-o", "pid=", "--ppid", str(process.pid)], stdout=subprocess.PIPE, text=True)
    os.kill(int(found.stdout.split()[0]), signal.SIGKILL)


def try_processes(bench: Bench) -> Run:
    """What happens with processes of this machine. The first run."""
    one = bench.run(["--jobs", "1"])
    bench.tell("1 process", one, one)
    for jobs in (2, 4):
        bench.tell(f"{jobs} processes", bench.run(["--jobs", str(jobs)]), one, jobs)
    bench.tell("4 processes, one killed", bench.run(["--jobs", "4"], kill_child), one)
    bench.tell("2 processes, the command killed and called again",
               bench.run(["--jobs", "2"], lambda process: process.kill()), one)
    return one


def try_dask(bench: Bench, one: Run) -> None:
    if not check_dask.has_distributed():
        print("Dask: nothing tried, since python3-distributed is not installed")
        return
    with check_dask.cluster(bench.room, os.environ["FETCHPLAY"]) as (port, nannies):
        relay = check_dask.Relay(port)
        rows: tuple[tuple[str, int, Optional[Happens]], ...] = (
            ("2 workers of Dask", port, None),
            ("one killed", port, lambda _: os.kill(check_dask.worker_below(nannies[0]), signal.SIGKILL)),
            ("the connections cut", relay.port, lambda _: relay.cut()))
        for name, own, happens in rows:
            bench.tell(name, bench.run(["--dask", f"tcp://127.0.0.1:{own}"], happens), one)


def main() -> int:
    given = [int(word) for word in sys.argv[1:]]
    count, requests = given + [COUNT, REQUESTS][len(given):]
    os.environ.setdefault("FETCHPLAY", os.path.join(ROOT, "bin", "fetchplay"))
    print(f"{count:,} recordings of {requests} requests; the load before is {os.getloadavg()[0]:.1f}, of "
          f"{os.cpu_count()} processors", flush=True)
    with tempfile.TemporaryDirectory() as room:
        bench = Bench(room, count, requests)
        try_dask(bench, try_processes(bench))
    return 1 if bench.faults else 0
