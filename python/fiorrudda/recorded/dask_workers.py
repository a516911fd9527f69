"""Maps the lines over many recordings by the workers of a Dask scheduler, and tells them in their order. Dask gives out
again what a worker had that died; what was in hand as the connection to the scheduler was lost is given out again
here. A line is told once, whichever of its runs made it."""
from __future__ import annotations

import logging
import os
import sys
import tempfile
import time
import uuid
import warnings
import zipfile
from collections import deque
from dataclasses import replace
from queue import Empty, SimpleQueue
from typing import Any, Iterable, Iterator, Optional

from fiorrudda.commands import running
from fiorrudda.recorded import lines, packages
from fiorrudda.recorded.changes import Changes
from fiorrudda.recorded.listed import Listed
from fiorrudda.recorded.workers import MOST_DEATHS, MOST_WAITING, NoWorkers, Task

PATIENCE = 60  # seconds for a scheduler to be there, and for its first worker
AHEAD = 2  # tasks in hand for each thread of a worker
EMPTY = b'{"format":1,"documents":[]}'
MISSING = "--dask needs Dask's distributed, which python3 cannot import (%s): install python3-distributed"


def distributed() -> Any:
    """Dask's package; raises NoWorkers."""
    packages.add_folders("distributed")
    try:
        import distributed as package
    except Exception as error:  # whatever its own imports come to
        raise NoWorkers(MISSING % (str(error).partition("\n")[0] or type(error).__name__)) from None
    logging.getLogger("distributed").setLevel(logging.CRITICAL)  # what is lost is told here
    return package


def own_code(path: str) -> None:
    """Writes a zip of the packages that a line needs, from which workers read them."""
    tops = sorted({module.__name__.partition(".")[0] for module in (lines, running)})
    with zipfile.ZipFile(path, "w") as file:
        for top in tops:
            root = list(sys.modules[top].__path__)[0]
            for folder, _, names in os.walk(root):
                inside = os.path.join(top, os.path.relpath(folder, root)).removesuffix("/.")
                file.write(folder, inside)  # without which a folder is no package
                for name in sorted(names):
                    if name.endswith(".py"):
                        file.write(os.path.join(folder, name), os.path.join(inside, name))


def works() -> None:
    """Whether the program runs where this is called; raises running.Failed."""
    running.played(EMPTY)


class Scheduler:
    """The scheduler, whose workers have the code; raises NoWorkers where it or they are not there."""

    def __init__(self, address: str):
        self.package = distributed()
        self.address = address
        try:
            with warnings.catch_warnings():
                warnings.simplefilter("ignore")  # of versions of Python that part
                self.client = self.package.Client(address, timeout=PATIENCE, set_as_default=False)
            self.client.wait_for_workers(1, timeout=PATIENCE)
            self.give_code()
            self.client.run(works)
        except running.Failed as error:
            raise NoWorkers(f"a worker of {address}: {error}") from None
        except Exception as error:  # of an address, a connection, or another version of Dask
            raise NoWorkers(f"the scheduler {address}: {str(error) or type(error).__name__}") from None

    def give_code(self) -> None:
        """Gives the code to the workers, and to those that come later."""
        with tempfile.TemporaryDirectory() as room:
            path = os.path.join(room, f"fiorrudda-{uuid.uuid4().hex}.zip")
            own_code(path)
            self.client.upload_file(path)

    def give_code_again(self) -> None:
        """The same after the connection was lost: the scheduler may be another process now."""
        end = time.monotonic() + PATIENCE
        while True:
            try:
                self.give_code()
                return
            except Exception as error:  # the connection is not there yet
                if time.monotonic() > end or self.client.status == "closed":
                    raise NoWorkers(f"the scheduler {self.address} is gone: "
                                 f"{str(error) or type(error).__name__}") from None
                time.sleep(0.5)

    def most(self) -> int:
        """How many tasks are to be in hand."""
        workers = self.client.scheduler_info().get("workers", {})
        return int(AHEAD * max(1, sum(one["nthreads"] for one in workers.values())))

    def end(self) -> None:
        self.client.close(timeout=2)


class Run:
    """What is between giving out and telling."""

    def __init__(self, scheduler: Scheduler, changes: Changes, things: Iterable[Listed]):
        self.scheduler = scheduler
        self.changes = changes
        self.left = (Task(number, at_once(thing)) for number, thing in enumerate(things))
        self.again: deque[Task] = deque()
        self.alone: deque[Task] = deque()  # of which workers died, perhaps by what was beside it
        self.in_hand: dict[Any, Task] = {}
        self.ended: SimpleQueue[Any] = SimpleQueue()
        self.waiting: dict[int, bytes] = {}
        self.size = 0
        self.told = 0

    def lines(self) -> Iterator[bytes]:
        while True:
            self.give_out()
            if not self.in_hand:
                return
            for future in self.some_ended():
                self.take(future)
            while self.told in self.waiting:
                line = self.waiting.pop(self.told)
                self.told += 1
                self.size -= len(line)
                yield line

    def give_out(self) -> None:
        most = self.scheduler.most()
        while len(self.in_hand) < most:
            task = self.next_task()
            if task is None:
                return
            self.give(task)
            if task.deaths:
                return

    def next_task(self) -> Optional[Task]:
        if any(task.deaths for task in self.in_hand.values()):
            return None
        if self.again:
            return self.again.popleft()
        if self.alone:
            return None if self.in_hand else self.alone.popleft()
        return next(self.left, None) if self.size < MOST_WAITING else None

    def give(self, task: Task) -> None:
        future = self.scheduler.client.submit(lines.packed_line, task.thing, self.changes, pure=False,
                                              key=f"fiorrudda-{uuid.uuid4().hex}")
        self.in_hand[future] = task
        future.add_done_callback(self.ended.put)

    def some_ended(self) -> Iterator[Any]:
        """The tasks that ended, at least one."""
        while True:
            try:
                yield self.ended.get(timeout=1)
                break
            except Empty:
                if self.scheduler.client.status == "closed":
                    raise NoWorkers(f"the scheduler {self.scheduler.address} is gone") from None
        while not self.ended.empty():
            yield self.ended.get()

    def take(self, future: Any) -> None:
        """Takes what came of a task, or gives it out again."""
        task = self.in_hand.pop(future, None)
        if task is None:  # given out again already
            return
        killed = self.scheduler.package.KilledWorker
        try:
            if future.status in ("cancelled", "lost"):
                self.lose(task)
            elif future.status == "error" and isinstance(future.exception(timeout=PATIENCE), killed):
                self.bury(task)
            else:
                self.keep(task, future.result(timeout=PATIENCE))
        except NoWorkers:
            raise
        except Exception as error:  # of the connection: what the line itself has wrong stands in it
            if future.status == "error":
                raise NoWorkers(f"a worker of {self.scheduler.address}: {error}") from None
            self.lose(task)

    def lose(self, task: Task) -> None:
        """The connection was lost: all that is in hand is given out again."""
        lost = sorted([task, *self.in_hand.values()], key=lambda one: one.number)
        self.in_hand.clear()
        self.again.extendleft(reversed(lost))
        self.scheduler.give_code_again()

    def bury(self, task: Task) -> None:
        """Workers died of a task: it is given out once more, alone."""
        task.deaths += 1
        if task.deaths < MOST_DEATHS:
            self.alone.append(task)
        else:
            self.keep(task, lines.packed_died(task.thing))

    def keep(self, task: Task, line: bytes) -> None:
        self.waiting[task.number] = line
        self.size += len(line)


def at_once(thing: Listed) -> Listed:
    """A thing as another machine finds it: by its whole path."""
    return replace(thing, path=os.path.abspath(thing.path)) if thing.path else thing


def mapped(scheduler: Scheduler, changes: Changes, things: Iterable[Listed]) -> Iterator[bytes]:
    """The line of each recording, in their order. No more are in hand than twice the threads of the workers."""
    try:
        yield from Run(scheduler, changes, things).lines()
    finally:
        scheduler.end()
