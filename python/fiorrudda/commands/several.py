"""Several URLs for bin/ask: each is asked by itself, in a process, so that the time limit of each holds and what goes
wrong in one is said of that one alone. They are told in their order."""
from __future__ import annotations

import concurrent.futures
import multiprocessing
import signal
import sys
from typing import TYPE_CHECKING

from fiorrudda.commands import replies, streams, verdicts

if TYPE_CHECKING:
    import argparse
    from concurrent.futures import Future

    from fiorrudda.commands.replies import Reply


def ask(given: argparse.Namespace, urls: list[str]) -> int:
    """Prints what came of each, and gives the worst status."""
    statuses, told = [], []
    pool = concurrent.futures.ProcessPoolExecutor(given.jobs, multiprocessing.get_context("fork"), be_quiet)
    try:
        waited = [pool.submit(replies.replied, given, url) for url in urls]
        for number, (url, one) in enumerate(zip(urls, waited), 1):
            reply = reply_of(one)
            statuses.append(reply.status)
            if given.json:
                told.append(replies.told_data(url, reply))
            else:
                write(given, f"{url} ({number} of {len(urls)})", url, reply)
    finally:
        pool.shutdown(wait=False, cancel_futures=True)
    if given.json:
        streams.write_json(told)
    return verdicts.worst(statuses)


def be_quiet() -> None:
    """Ctrl-C ends a process that asks without a word: the one that prints has it too."""
    signal.signal(signal.SIGINT, signal.SIG_DFL)


def reply_of(waited: Future[Reply]) -> Reply:
    try:
        return waited.result()
    except Exception as error:  # a fault of this command costs this URL alone
        return replies.refusal(f"a fault of this command: {type(error).__name__}: {error}")


def write(given: argparse.Namespace, heading: str, url: str, reply: Reply) -> None:
    if reply.status == verdicts.WRONG:
        reply = reply._replace(verdict="wrong words: " + reply.verdict)
    if given.brief:
        streams.write_lines(replies.brief_lines(reply, url + ": "))
        replies.complain_of(reply)
    else:
        streams.write_lines(["# ---- " + heading])
        replies.write_story(reply)
    sys.stdout.flush()
