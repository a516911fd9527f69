"""What is printed of suggestions: of CORS headers for the pages of an origin, and of Strict-Transport-Security."""
from __future__ import annotations

from typing import Any, Iterator

from fiorrudda.commands.edits import LONGEST_BEFORE
from fiorrudda.commands.verdicts import shown
from fiorrudda.recorded.hsts_hosts import NAME
from fiorrudda.recorded.lacks import STATUS
from fiorrudda.recorded.telling import SURE, bad_lines, count, finding_lines, group_lines, some

MOST_REASONS = 5  # in a line
UNKNOWN = ", where it does not send that yet"


def cors_lines(found: dict[str, Any], is_brief: bool) -> Iterator[str]:
    """The headers that an origin needs, by the URLs whose answers lack the same."""
    yield from (f"with {change}" for change in found["changes"])
    yield cors_outcome(found)
    for group in found["groups"]:
        yield from brief_answers(group) if is_brief else answer_lines(group)
    yield from (f"  goes on: entry {one['entry']}, {shown(one['url'])}: {one['why']}" for one in found["open"])
    yield from (f"  refused all the same: entry {one['entry']}, {shown(one['url'])}: {one['why']}"
                + (f"; {one['change']}" if one["change"] else "") for one in found["left"])
    yield from (f"  would be refused with these headers: entry {one['entry']}, {shown(one['url'])}: {one['why']}"
                for one in found["broken"])
    for finding in found["others"]:
        yield from finding_lines(finding, is_brief)
    yield from bad_lines(found)


def cors_outcome(found: dict[str, Any]) -> str:
    """How many are refused, and what they come to with the headers."""
    if not found["refused"]:
        return f"CORS refuses no request of pages of {found['origin']}"
    refused = f"CORS refuses {count(found['refused'], 'request')} of pages of {found['origin']}"
    if not found["groups"]:
        return f"{refused}, and no header lets {'it' if found['refused'] == 1 else 'them'} pass"
    told = [f"{number} {one if number == 1 else more}" for number, one, more in (
        (found["passing"], "passes", "pass"),
        (len(found["open"]), "goes on to what is not recorded", "go on to what is not recorded"),
        (len(found["left"]), "is refused all the same", "are refused all the same")) if number]
    return f"{refused}: with these headers {', '.join(told)}"


def answer_lines(group: dict[str, Any]) -> Iterator[str]:
    for answer in group["answers"]:
        yield f"  {needs(group, answer)}"
        for header in answer["headers"]:
            yield from header_lines(header)
    yield from (f"    {SURE[one['certainty']]}: {one['how_sure']}" for one in group["how_sure"])
    yield from (f"    note: {note}" for note in group["notes"])


def needs(group: dict[str, Any], answer: dict[str, Any]) -> str:
    requests = count(len(answer["entries"]), "request")
    return f"{shown(group['urls'])} ({requests}): the answer to {answer['method']} needs"


def brief_answers(group: dict[str, Any]) -> Iterator[str]:
    for answer in group["answers"]:
        yield f"  {needs(group, answer)} {', '.join(map(named, answer['headers']))}"


def named(header: dict[str, Any]) -> str:
    """A header as it is to be written, and what stands in its place now."""
    before = header["replaces"]
    text = f"the status {header['value']}" if header["name"] == STATUS else f"`{header['name']}: {header['value']}`"
    if before is None:
        return text + ("" if header["recorded"] else UNKNOWN)
    cut = before if len(before) <= LONGEST_BEFORE else before[:LONGEST_BEFORE] + ".."
    return f"{text} in place of {cut if header['name'] == STATUS else f'`{cut}`'}"


def header_lines(header: dict[str, Any]) -> Iterator[str]:
    without = header["without"]
    if without is None:
        yield f"    {named(header)}: {header['for']}"
        return
    yield f"    {named(header)}: without it {refused(without)}"
    yield from some(header["items"], lambda one: f"      without {one['item']} {refused(one)}")


def refused(proof: dict[str, Any]) -> str:
    return f"entry {proof['entry']} is refused: {proof['why']}"


# ---- Strict-Transport-Security

def hsts_lines(found: dict[str, Any], is_brief: bool) -> Iterator[str]:
    """What each host's header would do, and at the end which one is safe."""
    yield from (f"with {change}" for change in found["changes"])
    for one in found["hosts"]:
        yield from under_lines(f"{one['host']} and its subdomains", one["with_subdomains"], is_brief)
        if one["header"] and one["alone"]:
            yield from under_lines(f"{one['host']} alone", one["alone"], is_brief)
    yield from some(found["uncovered"], uncovered_line)
    if not is_brief and found["hosts"]:
        yield f"  note: {found['unseen']}"
    yield from bad_lines(found)
    yield from map(safe_line, found["hosts"])
    if not found["hosts"]:
        yield f"no {NAME} is safe to send: no page of the recording is of a host that may be known"


def uncovered_line(one: dict[str, Any]) -> str:
    requests = f" ({count(len(one['entries']), 'request')} over http)" if one["entries"] else ""
    return f"  no header covers {one['origin']}{requests}: {one['why']}"


def under_lines(name: str, under: dict[str, Any], is_brief: bool) -> Iterator[str]:
    """What the pages and requests of a host come to."""
    yield f"with {name} known to want https (HSTS)"
    yield hsts_outcome(under)
    yield from some(under["pages"],
                    lambda one: f"  note: the page {shown(one['from'])} would itself be {shown(one['to'])}")
    yield from some(under["origins"], origin_line)
    yield from group_lines(under, is_brief)
    yield from some(under["refused"],
                    lambda one: f"  refused all the same: entry {one['entry']}, {shown(one['url'])}: {one['why']}")
    if not is_brief:
        yield from some(under["frames"] + under["notes"], lambda note: f"  note: {note}")


def hsts_outcome(under: dict[str, Any]) -> str:
    """How many requests break, and how many only go over https."""
    failing = sum(len(one["entries"]) for one in under["origins"] if one["fails"])
    asked = sum(len(one["entries"]) for one in under["origins"]) - failing
    broken = sum(one["kind"] == "broken" for one in under["differences"])
    told = [f"{number} {what}" for number, what in (
        (broken, "would be refused"), (failing, "would fail over https"), (asked, "would be asked over https"))
            if number]
    verdict = "something breaks" if broken or failing else "nothing breaks"
    return f"{verdict}: " + (", ".join(told) if told else "nothing comes otherwise")


def origin_line(one: dict[str, Any]) -> str:
    """What the requests to an http origin come to, and what the recording shows of it over https."""
    port = " (the port stays)" if one["port_stays"] else ""
    what = "fail over https" if one["fails"] else "be asked over https"
    answered = f"entry {one['answered']} is an https answer" if one["answered"] is not None else ""
    failed = f"entry {one['failed']} failed there: {one['why']}" if one["failed"] is not None else ""
    told = "; ".join(filter(None, [failed, answered])) or "whether it answers is not recorded"
    return f"  {count(len(one['entries']), 'request')} to {one['from']} would {what}: {one['to']}{port}: {told}"


def safe_line(one: dict[str, Any]) -> str:
    """The header of a host that is safe to send by what is recorded, or why none is."""
    sent = f" ({one['host']} sends `{one['sent']}`)" if one["sent"] else ""
    more = len(one["why"]) - MOST_REASONS
    why = "; ".join(one["why"][:MOST_REASONS] + ([f"and {more} reasons more"] if more > 0 else []))
    if one["header"] is None:
        return f"{one['host']}: no {NAME} is safe to send by what is recorded{sent}: {why}"
    alone = f"; not with its subdomains: {why}" if why else ""
    return f"{one['host']}: `{NAME}: {one['header']}` is safe to send by what is recorded{sent}{alone}"
