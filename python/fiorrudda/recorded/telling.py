"""What is printed of a judged recording: for each page the verdict first, then what failed or never came, why, what
to change, and how sure that is."""
from __future__ import annotations

from typing import Any, Iterator, Optional

from fiorrudda.commands.verdicts import shown
from fiorrudda.recorded.differences import STANDARDS
from fiorrudda.recorded.kinds import WITHOUT
from fiorrudda.recorded.verdicts import WORDS

MOST = 20  # lines of a kind
TOLD = tuple(WORDS)
KINDS = {"broken": "would be refused", "goes with it": "would not be asked any more", "reported": "would be reported",
         "mended": "would be mended", "upgraded": "would be asked over https",
         "sent otherwise": "would be sent otherwise"}
BY = {"broken": "would be refused by {}", "reported": "would be reported by {}",
      "mended": "would pass, which {} refuses now", "sent otherwise": "would have another {}"}
SURE = {"sure": "sure", "if": "likely", "supposed": "supposed"}


def lines(found: dict[str, Any], is_brief: bool) -> Iterator[str]:
    """All that is said of a recording."""
    if "changes" in found:
        yield from changed_lines(found, is_brief)
        return
    for page in found["pages"]:
        yield heading(page)
        for finding in told_of(page):
            yield from finding_lines(finding, is_brief)
        yield from (f"  in all: {policy}" for policy in page["policies"])
        if not is_brief:
            yield from rest_of_page(page)
    if not found["pages"]:
        what = "has no entry that could be read" if found["entries"] else "is empty"
        yield f"no page: the recording {what}"
    yield from bad_lines(found)


def heading(page: dict[str, Any]) -> str:
    frame = f", a frame of {shown(page['top'])}" if page["top"] else ""
    entries = "1 entry" if page["entries"] == 1 else f"{page['entries']} entries"
    return f"page {shown(page['url'])}{frame} ({entries}): {page['verdict']}"


def count(number: int, word: str) -> str:
    return f"{number} {word}{'' if number == 1 else 's'}"


def told_of(page: dict[str, Any]) -> list[dict[str, Any]]:
    """The findings that are told: those that did not pass, by their kind."""
    found = [one for one in page["findings"] if one["verdict"] in TOLD]
    return sorted(found, key=lambda one: (TOLD.index(one["verdict"]), one["entry"]))


def finding_lines(finding: dict[str, Any], is_brief: bool) -> Iterator[str]:
    why, is_parted = finding["why"], finding["verdict"] == "parted"
    yield f"  {WORDS[finding['verdict']]}: {name_of(finding)}: {said_of(finding, is_brief)}"
    if is_brief:
        yield from in_all(why) if why and not is_parted else ()
        return
    if why:
        yield from why_lines(finding, why)
    if is_parted:
        yield "    " + rule_of(finding["rule"])
    if finding["how_sure"]:
        yield f"    {SURE[finding['certainty']]}: {finding['how_sure']}"
    yield f"    recorded: entry {finding['entry']}, {finding['recorded']}"
    yield from (f"    note: {note}" for note in finding["notes"])


def said_of(finding: dict[str, Any], is_brief: bool) -> str:
    """What is said of it first."""
    if finding["verdict"] == "parted" or not finding["why"]:
        return str(finding["told"])
    return str(finding["brief"] if is_brief else finding["why"]["condition"])


def name_of(finding: dict[str, Any]) -> str:
    led = f", redirected to {shown(finding['redirected_to'])}" if finding["redirected_to"] else ""
    return f"{finding['method']} {shown(finding['url'])} ({finding['kind']}){led}"


def why_lines(finding: dict[str, Any], why: dict[str, Any]) -> Iterator[str]:
    if finding["verdict"] == "parted":
        yield f"    the standards: {finding['result']}: {why['condition']}"
        return
    if why["header"]:
        yield f"    header: {why['header']}" + (f": {why['value']}" if why["value"] is not None else " is not there")
        if why["misspelt"]:
            yield f"    header: is `{why['misspelt']}` meant for it?"
    yield f"    change: {why['change']}"
    yield from in_all(why)
    for policy in finding["policies"]:
        yield f"    policy: {policy['condition']}"
        yield f"    change: {policy['change']}"
    yield f"    rule: {why['rule']} ({why['way']})"


def in_all(why: dict[str, Any]) -> Iterator[str]:
    """All that CORS wants of the answers."""
    return (f"    in all: {line}" for line in why["in_all"])


def rest_of_page(page: dict[str, Any]) -> Iterator[str]:
    """Where recording and standards part, what was guessed, and what was left out."""
    errors = [one for one in page["findings"] if one["verdict"] == "passed" and one["status"] >= 400]
    yield from some(errors, lambda one: f"  answered with {one['status']}, and the page saw it: {name_of(one)}")
    yield from some(page["parts"], part_line)
    guesses = [(one, guess) for one in page["findings"] for guess in one["guesses"] if guess != WITHOUT]
    yield from some(guesses, lambda pair: f"  guessed: entry {pair[0]['entry']}, {name_of(pair[0])}: {pair[1]}")
    notes = [(one, note) for one in page["findings"] for note in one["notes"] if one["verdict"] == "passed"]
    yield from some(notes, lambda pair: f"  note: entry {pair[0]['entry']}, {name_of(pair[0])}: {pair[1]}")
    yield from some(page["left_out"],
                    lambda one: f"  left out: entry {one['entry']}, {shown(one['url'])}: {one['why']}")
    yield from some(page["warnings"], lambda warning: f"  warning: {warning}")
    yield from (f"  note: {note}" for note in page["notes"])


def part_line(part: dict[str, Any]) -> str:
    return (f"  parts: entry {part['entry']}, {shown(part['url'])}: {part['what']}: the standards have "
            f"{part['standard']}, and the recording {part['browser']} ({rule_of(part['rule'])})")


def rule_of(rule: Optional[str]) -> str:
    return f"rule: docs/BROWSERS.md, `{rule}`" if rule else "open: no rule of docs/BROWSERS.md explains it"


def some(found: list[Any], line_of: Any) -> Iterator[str]:
    """A line for each, of many the first."""
    yield from map(line_of, found[:MOST])
    if len(found) > MOST:
        yield f"  and {len(found) - MOST} more of these, which --json lists"


def bad_lines(found: dict[str, Any]) -> Iterator[str]:
    yield from some(found["bad"], lambda one: f"left out: {one['sentence']}")
    yield from (f"note: {note}" for note in found["notes"])


# ---- what if

def changed_lines(found: dict[str, Any], is_brief: bool) -> Iterator[str]:
    """The verdict on changes, and the groups of what they change."""
    yield from (f"with {change}" for change in found["changes"])
    yield outcome(found)
    yield from (f"  warning: {warning}" for warning in found["warnings"])
    yield from (f"  {moved_line(moved)}" for moved in found["moved"])
    yield from group_lines(found, is_brief)
    yield from bad_lines(found)


def moved_line(moved: dict[str, str]) -> str:
    return f"note: the page {shown(moved['from'])} would itself be {shown(moved['to'])}"


def group_lines(found: dict[str, Any], is_brief: bool) -> Iterator[str]:
    """The groups of differences, each with those that are in it."""
    for group in found["groups"]:
        own = [found["differences"][place] for place in group["differences"]]
        yield f"  {count(group['count'], 'request')} to {group['host']} {kind_of(group)}"
        if not is_brief:
            yield from some(own, difference_line)


def suggested_lines(found: dict[str, Any], is_brief: bool) -> Iterator[str]:
    """The least policy; and which request each of its words is for."""
    yield f"Content-Security-Policy: {found['policy']}"
    if is_brief:
        return
    yield f"  under it {count(found['requests'], 'request')} passed that came"
    yield from (f"  {one['directive']} {one['word']}: {needed_for(one, found)}" for one in found["words"])
    yield from (f"  refused all the same: entry {one['entry']}, {shown(one['url'])}: {one['why']}"
                for one in found["broken"])
    yield from (f"  note: {note}" for note in found["notes"])


def needed_for(word: dict[str, Any], found: dict[str, Any]) -> str:
    """What a word of the policy is for."""
    of = f" of {found['recordings'][word['recording']]}" if "recording" in word else ""
    entry, url = f"entry {word['entry']}{of}", shown(word["url"])
    return f"for {word['inline']} of {entry}, {url}" if "inline" in word else f"without it {entry} is refused, {url}"


def outcome(found: dict[str, Any]) -> str:
    counts = {kind: sum(one["kind"] == kind for one in found["differences"]) for kind in KINDS}
    told = [f"{number} {KINDS[kind]}" for kind, number in counts.items() if number]
    verdict = "something breaks" if counts["broken"] else "nothing breaks"
    return f"{verdict}: " + (", ".join(told) if told else "nothing comes otherwise")


def difference_line(one: dict[str, Any]) -> str:
    return f"    {one['method']} {shown(one['url'])} ({one['load']}): {reason_of(one)}"


def kind_of(one: dict[str, Any]) -> str:
    """What a difference is, or the group that has it, in words."""
    return BY.get(one["kind"], KINDS[one["kind"]]).format(one["directive"])


def reason_of(one: dict[str, Any]) -> str:
    """Why something comes otherwise."""
    said = f"entry {one['cause']} is refused, which asked for it" if "cause" in one else one["told"] or one["why"]
    guessed = f" ({', '.join(one['guesses'])})" if one["guesses"] else ""
    lets = "the browser lets it pass: " if one.get("by") == STANDARDS else ""
    rule = f" ({lets}docs/BROWSERS.md, `{one['rule']}`)" if one.get("rule") else ""
    asker = f"; entry {one['asked_by']}, which asked for it, is refused too" if "asked_by" in one else ""
    return f"{said or one['directive']}{guessed}{rule}{asker}"
