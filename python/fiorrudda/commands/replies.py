"""What bin/ask prints: what came of each URL, within the time limit."""
from __future__ import annotations

from collections import namedtuple
from typing import TYPE_CHECKING

import fiorrudda
from fiorrudda.commands import asked, files, limits, lints, streams, verdicts
from fiorrudda.commands.ask_words import Wrong

if TYPE_CHECKING:
    import argparse
    from typing import Any

    from fiorrudda.commands.shapes import Object

TELLING = 1  # seconds, behind the time limit, to tell what came

# What is printed of one URL: `story` are pairs of a line of the play and lines of our own; `faults` are notes that no
# word keeps back; `data` is the same for --json; `in_all` are lines of all that CORS wants of the answers; `lints` are
# the names of those that the notes tell, `changes` says what to change besides, and `besides` what else came.
Reply = namedtuple("Reply", "status verdict story notes faults data in_all lints changes besides",
                   defaults=[(), (), (), ()])


def replied(given: argparse.Namespace, url: str) -> Reply:
    try:
        one = asked.Answered(asked.Question(given, url))
        reply = within_limit(given, one)
    except (Wrong, fiorrudda.FiorruddaError) as error:
        return refusal(str(error))
    except UnicodeEncodeError:
        return refusal("a word is no UTF-8")
    faults = [files.replace(given.book, one.question.book.export())] if given.book else []
    if given.export:
        faults += one.export.write(given.export) if one.export else [f"{given.export} is not written"]
    return reply._replace(faults=list(filter(None, faults)))


def within_limit(given: argparse.Namespace, one: Any) -> Reply:
    limit = limits.Limit(given.timeout + TELLING)
    try:
        with limit:
            return reply_of(one.play().tell())
    except limits.Late:
        limit.stop()
        return late(one)


def refusal(sentence: str) -> Reply:
    return Reply(verdicts.WRONG, sentence, [], [], [], {})


def reply_of(one: Any) -> Reply:
    status, sentence = one.verdict
    in_all = verdicts.in_all(one.told.cases[-1]) + verdicts.hosts_in_all(one.told)
    story, found = list(one.pieces()), lints.noted(one.told)
    besides = [came for came in verdicts.besides(verdicts.decisive(one.told.cases)) if came not in sentence]
    besides += [] if one.question.said.page else [asked.OWN_ORIGIN]
    return Reply(status, sentence, story, one.notes(), [], {"fetches": one.told.data()}, in_all,
                 [name for _, (name, _, _) in found], verdicts.to_change(one.told.cases), besides)


def late(one: Any) -> Reply:
    """What had come where the time limit came between two steps of Python."""
    sentence = "no answer: the time limit came, and what had come until then is not told whole"
    story: list[tuple[str, list[str]]] = [(line, []) for line in one.page.lines[1:]]
    return Reply(verdicts.NO_ANSWER, sentence, story, one.question.said.notes, [], {"fetches": []})


# ---- what is printed

def told_data(url: str, reply: Reply) -> Object:
    return {"url": url, "status": reply.status, "outcome": verdicts.OUTCOMES[reply.status], "verdict": reply.verdict,
            "notes": reply.notes + reply.faults, **reply.data}


def write_story(reply: Reply) -> None:
    streams.write_lines("# " + line for line in [reply.verdict, *reply.in_all])
    for line, own in reply.story:
        streams.write_play(line)
        streams.write_lines(own)
    streams.write_lines("# note: " + one for one in reply.notes + reply.faults)


def brief_lines(reply: Reply, name: str = "") -> list[str]:
    """The verdict with what else came and what to change, and what is not to be missed: where several answers are to be
    changed all of that, and warnings."""
    warned = verdicts.warned(reply.lints, len(reply.lints))
    first = "; ".join([name + reply.verdict, *reply.besides, *reply.changes])
    return [first, *reply.in_all, *("  " + line for line in warned)]


def ask_one(self: str, given: argparse.Namespace, url: str) -> int:
    """Prints what came of one URL, and gives the status."""
    reply = replied(given, url)
    if reply.status == verdicts.WRONG:
        return streams.complain(reply.status, f"{self}: {reply.verdict}")
    if given.json:
        streams.write_json(told_data(url, reply))
    elif given.brief:
        streams.write_lines(brief_lines(reply))
        return complain_of(reply)
    else:
        write_story(reply)
    return int(reply.status)


def urls_of(given: argparse.Namespace) -> list[str]:
    """All URLs: of the words, and of the lines of a file that are neither empty nor begin with a #."""
    if given.from_file is None:
        return list(given.urls)
    try:
        text = streams.read(given.from_file).decode("utf-8")
    except OSError as error:
        raise Wrong(f"--from-file: {given.from_file}: {error.strerror}") from None
    except UnicodeDecodeError:
        raise Wrong(f"--from-file: {given.from_file} is no UTF-8") from None
    lines = [line.strip() for line in text.splitlines()]
    return list(given.urls) + [line for line in lines if line and not line.startswith("#")]


def complain_of(reply: Reply) -> int:
    """Says on standard error what was not written, and gives the status."""
    return streams.complain(reply.status, "\n".join(reply.faults)) if reply.faults else int(reply.status)


def ask(self: str, given: argparse.Namespace) -> int:
    """Prints all of it, and gives the status."""
    try:
        urls = urls_of(given)
        if not urls:
            raise Wrong(f"--from-file: there is no URL in {given.from_file}")
        is_one = len(urls) == 1 and given.from_file is None
        if given.export and not is_one:
            raise Wrong("--export takes one URL")
        if given.book and given.jobs > 1:
            raise Wrong("--book takes one URL at a time: leave --jobs out")
    except Wrong as wrong:
        return streams.complain(verdicts.WRONG, f"{self}: {wrong}")
    if is_one:
        return ask_one(self, given, urls[0])
    from fiorrudda.commands import several  # which takes longer to load
    return several.ask(given, urls)
