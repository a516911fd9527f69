"""Maps a function over many things by processes, and tells what comes of them in their order. A process that dies
loses nothing: what it had in hand is given out once more."""
from __future__ import annotations

import gc
import multiprocessing
import signal
from collections import deque
from dataclasses import dataclass
from multiprocessing import connection
from typing import Any, Callable, Iterable, Iterator, Optional

from fiorrudda.commands.there import there

CONTEXT = multiprocessing.get_context("fork")  # bin/har is no module, which another process could import
MOST_DEATHS = 2
MOST_WAITING = 1 << 26  # bytes of lines that wait for those before them


class NoWorkers(Exception):
    """Why there are none that work, in a sentence."""


@dataclass
class Task:
    """A thing with its place in the order, and how many processes have died of it."""

    number: int
    thing: Any
    deaths: int = 0


class Worker:
    """A process, and the task that it has in hand."""

    def __init__(self, work: Callable[[Any], bytes], others: list["Worker"]):
        self.link, theirs = CONTEXT.Pipe()
        ours = [self.link, *(one.link for one in others)]
        self.process = CONTEXT.Process(target=serve, args=(work, theirs, ours), daemon=True)
        self.process.start()
        theirs.close()
        self.task: Optional[Task] = None

    def give(self, task: Task) -> None:
        self.task = task
        try:
            self.link.send(task.thing)
        except OSError:  # it is dead, which its answer tells
            pass

    def taken(self) -> Optional[bytes]:
        """What came of its task; None where the process died."""
        try:
            return self.link.recv_bytes()
        except (EOFError, OSError):
            return None

    def end(self) -> None:
        self.link.close()
        self.process.terminate()
        self.process.join()


def serve(work: Callable[[Any], bytes], link: Any, others: list[Any]) -> None:
    """Works on what comes, up to the end of the process that gives it out."""
    for number in (signal.SIGINT, signal.SIGTERM):
        signal.signal(number, signal.SIG_DFL)  # they end it without a word
    for one in others:
        one.close()  # else the end of that process would not be seen
    gc.disable()
    gc.freeze()
    try:
        while True:
            link.send_bytes(work(link.recv()))
            gc.collect()
    except (EOFError, OSError):
        return


class Pool:
    """So many processes, and what is between giving out and telling. `work` makes a line of a thing, and `died` that
    of one of which two processes died."""

    def __init__(self, work: Callable[[Any], bytes], died: Callable[[Any], bytes], jobs: int, things: Iterable[Any]):
        self.work = work
        self.died = died
        self.jobs = jobs
        self.left = (Task(number, thing) for number, thing in enumerate(things))
        self.again: deque[Task] = deque()
        self.workers: list[Worker] = []
        self.waiting: dict[int, bytes] = {}
        self.size = 0
        self.told = 0

    def lines(self) -> Iterator[bytes]:
        while True:
            self.give_out()
            busy = {worker.link: worker for worker in self.workers if worker.task}
            if not busy:
                return
            for link in connection.wait(list(busy)):
                self.take(busy[link])  # type: ignore[index]  # links alone were waited for
            while self.told in self.waiting:
                line = self.waiting.pop(self.told)
                self.told += 1
                self.size -= len(line)
                yield line

    def give_out(self) -> None:
        while sum(worker.task is not None for worker in self.workers) < self.jobs:
            task = self.next_task()
            if task is None:
                return
            self.free_worker().give(task)

    def next_task(self) -> Optional[Task]:
        if self.again:
            return self.again.popleft()
        return next(self.left, None) if self.size < MOST_WAITING else None

    def free_worker(self) -> Worker:
        for worker in [one for one in self.workers if one.task is None]:
            if worker.process.is_alive():
                return worker
            self.drop(worker)
        self.workers.append(Worker(self.work, self.workers))
        return self.workers[-1]

    def take(self, worker: Worker) -> None:
        """Takes what came of a worker's task, or gives that out again."""
        task, line = there(worker.task), worker.taken()
        worker.task = None
        if line is None:
            self.drop(worker)
            task.deaths += 1
            if task.deaths < MOST_DEATHS:
                self.again.append(task)
                return
            line = self.died(task.thing)
        self.waiting[task.number] = line
        self.size += len(line)

    def drop(self, worker: Worker) -> None:
        self.workers.remove(worker)
        worker.end()

    def end(self) -> None:
        for worker in list(self.workers):
            self.drop(worker)


def mapped(work: Callable[[Any], bytes], died: Callable[[Any], bytes], jobs: int,
           things: Iterable[Any]) -> Iterator[bytes]:
    """The line of each thing, in their order. No more things are in hand than there are processes."""
    pool = Pool(work, died, jobs, things)
    try:
        yield from pool.lines()
    finally:
        pool.end()
