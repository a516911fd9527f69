"""The same question to many recordings: a line for each of them, in the order in which they are named, and what all
of them come to."""
from __future__ import annotations

import json
import signal
import sys
from contextlib import closing
from typing import Any, BinaryIO, Iterator, Optional

from fiorrudda.commands import running, streams
from fiorrudda.recorded import kept, lines, listed, workers
from fiorrudda.recorded.changes import Changes
from fiorrudda.recorded.listed import Listed
from fiorrudda.recorded.progress import Progress
from fiorrudda.recorded.summary import Summary
from fiorrudda.recorded.workers import NoWorkers

EMPTY = b'{"format":1,"documents":[]}'


def run(self: str, named: str, jobs: int, out: Optional[str], changes: Changes, scheduler: Optional[str] = None) -> int:
    """Writes the lines and the summary. The status is the largest of the lines, or that of what is wrong. A scheduler's
    workers work, where one is named, else processes of this machine."""
    signal.signal(signal.SIGTERM, lambda number, _: sys.exit(128 + number))  # which ends the processes too
    file: Optional[BinaryIO] = None
    summary = Summary(changes.told())
    try:
        things = listed.all_of(named)
        if out is not None:
            file = kept.opened(out, summary.changes)
            for line in kept.kept(file, things):
                summary.add(line)
        made = scheduled(things, scheduler, changes) if scheduler else mapped(things, jobs, changes)
    except listed.NoList as error:
        return streams.complain(lines.WRONG, f"{self}: --many: {named} {error}")
    except kept.NotKept as error:
        return streams.complain(lines.WRONG, f"{self}: --out: {out}: {error}")
    except OSError as error:
        return streams.complain(lines.WRONG, f"{self}: --many: {named}: {error.strerror}")
    except (running.Failed, NoWorkers) as error:
        return streams.complain(lines.FAILED, f"{self}: {error}")
    return written(self, made, file, summary)


def mapped(things: Iterator[Listed], jobs: int, changes: Changes) -> Iterator[bytes]:
    running.played(EMPTY)  # here, where it is not built yet, and not in each process
    return workers.mapped(lines.work(changes), lines.packed_died, jobs, things)


def scheduled(things: Iterator[Listed], scheduler: str, changes: Changes) -> Iterator[bytes]:
    from fiorrudda.recorded import dask_workers  # what it needs takes a play's time to read
    return dask_workers.mapped(dask_workers.Scheduler(scheduler), changes, things)


def written(self: str, made: Iterator[bytes], file: Optional[BinaryIO], summary: Summary) -> int:
    shown = Progress(self, sys.stderr if file or not sys.stdout.isatty() else None)
    with closing(made):  # type: ignore[type-var]  # it is a generator, which has `close`
        try:
            for line in made:
                write(file, line)
                summary.add(json.loads(line))
                shown.say(f"{summary.count:,} recordings judged")
        except BrokenPipeError:
            raise
        except (OSError, NoWorkers) as error:
            shown.end()
            why = getattr(error, "strerror", None) or error
            return streams.complain(lines.FAILED, f"{self}: it ended: {why}")
    shown.end()
    tell(summary, sys.stdout if file else sys.stderr)
    return summary.status


def write(file: Optional[BinaryIO], line: bytes) -> None:
    if file:
        kept.write(file, line)
    else:
        sys.stdout.buffer.write(line)
        sys.stdout.flush()


def tell(summary: Summary, stream: Any) -> None:
    sys.stdout.flush()
    text = "".join(streams.printable(line) + "\n" for line in summary.lines())
    stream.buffer.write(text.encode("utf-8", "backslashreplace"))
    stream.flush()
