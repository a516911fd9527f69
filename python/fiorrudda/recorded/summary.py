"""What the lines of many recordings come to: how many pass, fail and break, by what and at which host, the largest
first; and how many of the recorded policies do nothing."""
from __future__ import annotations

from collections import Counter
from typing import Any, Iterator

from fiorrudda.recorded import doubts
from fiorrudda.recorded.differences import BROKEN, ORDER
from fiorrudda.recorded.telling import BY, KINDS, MOST, count
from fiorrudda.recorded.verdicts import REFUSED, UNREACHED, WORDS

Key = tuple[str, str, str]  # what comes of a request, by which directive or result, and its host
WORDS_IN_ORDER = (*ORDER, *WORDS)
NOTHING = (*doubts.IDLE, *doubts.UNREAD)


class Summary:
    """It takes the lines as data, one after another."""

    def __init__(self, changes: list[str]):
        self.changes = changes
        self.status = 0
        self.count = self.failing = self.breaking = self.policies = 0
        self.errors: list[str] = []  # the first ones
        self.error_count = 0
        self.recordings: Counter[Key] = Counter()
        self.requests: Counter[Key] = Counter()
        self.idle: Counter[str] = Counter()  # how many policies each lint says of that they do nothing

    def add(self, line: dict[str, Any]) -> None:
        self.count += 1
        self.status = max(self.status, line["status"])
        if "error" in line:
            self.error_count += 1
            if self.error_count <= MOST:
                self.errors.append(f"{line['name']}: {line['error']}")
            return
        self.failing += line["failed"] > 0
        self.breaking += any(one["kind"] == BROKEN for one in line.get("differences", ()))
        own = Counter(keys_of(line))
        self.requests.update(own)
        self.recordings.update(own.keys())
        self.policies += line["policies"]
        self.idle.update({name: line["lints"][name] for name in NOTHING if name in line["lints"]})

    def lines(self) -> Iterator[str]:
        yield from (f"with {change}" for change in self.changes)
        yield f"{count(self.count, 'recording')}: {self.outcome()}"
        for word in WORDS_IN_ORDER:
            own = sorted((key for key in self.recordings if key[0] == word), key=self.rank)
            yield from map(self.group_line, own[:MOST])
            yield from more(len(own))
        yield self.policy_line()
        yield from (f"  left out: {sentence}" for sentence in self.errors)
        yield from more(self.error_count)

    def outcome(self) -> str:
        judged = self.count - self.error_count
        unread = [f"{self.error_count} not judged"] if self.error_count else []
        passing = [f"{judged - self.failing} pass", f"{self.failing} fail"]
        if not self.changes:
            return ", ".join(passing + unread)
        breaking = [f"{self.breaking} break", f"{judged - self.breaking} do not"]
        return f"{', '.join(breaking + unread)}; as recorded {' and '.join(passing)}"

    def rank(self, key: Key) -> tuple[Any, ...]:
        return -self.recordings[key], -self.requests[key], key

    def group_line(self, key: Key) -> str:
        word, cause, host = key
        by = f" by {cause}" if cause else ""
        what = BY.get(word, KINDS[word]).format(cause) if word in KINDS else WORDS[word] + by
        return f"  {count(self.recordings[key], 'recording')}: {count(self.requests[key], 'request')} to {host} {what}"

    def policy_line(self) -> str:
        told = [f"{self.idle[name]} by {name}" for name in sorted(self.idle, key=lambda name: (-self.idle[name], name))]
        idle = sum(self.idle.values())
        what = f", of which {idle} {'does' if idle == 1 else 'do'} nothing: {', '.join(told)}" if told else ""
        return f"  {self.policies} {'policy' if self.policies == 1 else 'policies'} recorded{what}"


def more(number: int) -> Iterator[str]:
    if number > MOST:
        yield f"  and {number - MOST} more of these, which the lines have"


def keys_of(line: dict[str, Any]) -> Iterator[Key]:
    """What each difference of a line counts as; without changes, each request that failed. What a rule refuses is one,
    whether the browser has told so or not."""
    yield from ((one["kind"], one["directive"], one["host"]) for one in line.get("differences", ()))
    for one in line.get("findings", ()):
        if one["failed"]:
            word = REFUSED if one["verdict"] == UNREACHED else one["verdict"]
            yield word, one["directive"] or (result_of(one["result"]) if one["way"] else ""), one["host"]


def result_of(result: str) -> str:
    """The name of the result in its short form, such as `12 CorsCheck`."""
    return next((word for word in result.split() if word.isalpha()), "")
