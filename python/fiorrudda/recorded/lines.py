"""The line of each of many recordings: what `--json` has of one, in short."""
from __future__ import annotations

from collections import Counter
from typing import Any, Callable

from fiorrudda.commands import play_text, running, streams
from fiorrudda.commands.urls import host_of
from fiorrudda.commands.verdicts import shown
from fiorrudda.recorded import differences, har, judging, verdicts
from fiorrudda.recorded.changes import NONE, Changes
from fiorrudda.recorded.listed import Listed, NoBytes

GOOD, BAD, WRONG, FAILED = range(4)
DIED = "its worker died twice"
VERDICTS = (verdicts.PASSED, *verdicts.WORDS)


def line_of(name: str, data: bytes, changes: Changes = NONE) -> dict[str, Any]:
    """What is said of a recording's bytes. It is as pure as `judge`, and what is wrong with the bytes is said in it."""
    return of_listed(Listed(name, data=data), changes)


def of_listed(one: Listed, changes: Changes) -> dict[str, Any]:
    try:
        return {"name": one.name, **short(judging.judge(har.read(one.read()), changes))}
    except NoBytes as error:
        return refused(one, WRONG, str(error))
    except har.NoHar as error:
        return {**refused(one, WRONG, error.sentence), "line": error.line, "column": error.column}
    except (running.Failed, play_text.NoPlay) as error:
        return refused(one, FAILED, str(error))
    except Exception as error:  # a fault of this command costs this recording alone
        return refused(one, FAILED, streams.fault(error))


def refused(one: Listed, status: int, sentence: str) -> dict[str, Any]:
    return {"name": one.name, "status": status, "error": sentence}


def died(one: Listed) -> dict[str, Any]:
    return refused(one, FAILED, DIED)


def short(found: dict[str, Any]) -> dict[str, Any]:
    """What was judged, in short: how many requests there are of each verdict, and those that did not pass; with
    changes, what comes otherwise."""
    all_findings = [(number, one) for number, page in enumerate(found["pages"]) for one in page["findings"]]
    counts = Counter(one["verdict"] for _, one in all_findings)
    failed = sum(judging.is_failure(one) for _, one in all_findings)
    lints: Counter[str] = sum((Counter(page["lints"]) for page in found["pages"]), Counter())
    is_changed = "changes" in found
    is_bad = differences.breaks(found) if is_changed else failed > 0
    told = {"differences": list(map(short_difference, found["differences"]))} if is_changed else {
        "findings": [short_finding(number, one) for number, one in all_findings if one["verdict"] != verdicts.PASSED]}
    return {"status": BAD if is_bad else GOOD, "browser": found["browser"], "pages": len(found["pages"]),
            "entries": found["entries"], "bad": len(found["bad"]),
            "counts": {word: counts[word] for word in VERDICTS if counts[word]}, "failed": failed,
            "policies": sum(page["policy_count"] for page in found["pages"]), "lints": dict(sorted(lints.items())),
            **told}


def short_finding(page: int, one: dict[str, Any]) -> dict[str, Any]:
    why, url = one["why"] or {}, one["redirected_to"] or one["url"]
    return {"page": page, "entry": one["entry"], "method": one["method"], "url": shown(one["url"]),
            "kind": one["kind"], "verdict": one["verdict"], "failed": judging.is_failure(one),
            "certainty": one["certainty"], "result": one["result"], "directive": one["directive"],
            "host": host_of(url) or url.partition(":")[0] + ":", "way": why.get("way", ""),
            "why": shown(why.get("condition", "")), "told": shown(one["told"]), "rule": one["rule"]}


def short_difference(one: dict[str, Any]) -> dict[str, Any]:
    """All of it but the guesses; of long texts the beginning."""
    return {key: shown(value) if key in ("url", "why", "told") else value for key, value in one.items()
            if key != "guesses"}


def packed(data: dict[str, Any]) -> bytes:
    """As JSON in a line."""
    return streams.as_json(data, separators=(",", ":")).encode("ascii") + b"\n"


def packed_line(one: Listed, changes: Changes) -> bytes:
    return packed(of_listed(one, changes))


def work(changes: Changes) -> Callable[[Listed], bytes]:
    return lambda one: packed_line(one, changes)


def packed_died(one: Listed) -> bytes:
    return packed(died(one))
