"""The words of bin/har, and what it does by them."""
from __future__ import annotations

import argparse
import gc
import os
from typing import Any, Iterable

from fiorrudda.commands import play_text, running, streams
from fiorrudda.commands.ask_words import POLICIES, jobs, known_host
from fiorrudda.commands.scenario import origin_of
from fiorrudda.recorded import (changes, differences, har, judging, progress, redacting, telling, telling_suggested,
                                writing)
from fiorrudda.recorded.cors_headers import NoPage
from fiorrudda.recorded.known_hosts import is_domain
from fiorrudda.recorded.least import BY

GOOD, BAD, WRONG, FAILED = range(4)
KEPT: list[Any] = []  # what is large: to give it back piece by piece takes a tenth of the time
# The words of changes, and whether each has a value.
CHANGES = {"csp": True, "csp-report-only": True, "no-csp": False, "referrer-policy": True, "hsts": True,
           "upgrade": False, "set": True, "unset": True, "origin": True}


def typed(read: Any, *more: Any) -> Any:
    """What argparse calls for a word: its ValueError has a sentence that is told."""
    def of_word(word: str) -> Any:
        try:
            return read(word, *more)
        except ValueError as error:
            raise argparse.ArgumentTypeError(str(error)) from None
    return of_word


def words_of_file(path: str) -> list[str]:
    """The words that a file of changes has."""
    try:
        with open(path, encoding="utf-8") as file:
            return words_of_lines(file, path)
    except (OSError, UnicodeDecodeError) as error:
        raise argparse.ArgumentTypeError(f"{path}: {getattr(error, 'strerror', None) or error}") from None


def words_of_lines(lines: Iterable[str], path: str) -> list[str]:
    """The words that lines of changes have, of which a complaint says where they stand."""
    found: list[str] = []
    for number, line in enumerate(map(str.strip, lines), 1):
        name, _, value = line.partition(" ")
        if not line or line.startswith("#"):
            continue
        if name not in CHANGES:
            raise argparse.ArgumentTypeError(f"{path}:{number}: {name} is none of {', '.join(CHANGES)}")
        found += ["--" + name] + ([value.strip()] if CHANGES[name] else [])
    return found


def domain(word: str) -> tuple[str, bool]:
    host, has_subdomains = known_host(word)
    if not is_domain(host):
        raise argparse.ArgumentTypeError("a known host is a domain: no URL, no port, no address, no localhost")
    return host, has_subdomains


def origin(word: str) -> str:
    bare = word.strip().rstrip("/")
    if origin_of(bare) != bare:
        raise argparse.ArgumentTypeError("an origin is written as https://shop.example, without a path")
    return bare


def policy(word: str) -> str:
    if any(sign in word for sign in "\r\n\0"):
        raise argparse.ArgumentTypeError("a policy stands in one line")
    return word.strip()


def add_suggestions(parser: argparse.ArgumentParser) -> None:
    """The words that ask what is to be sent; one of them at a time."""
    group = parser.add_argument_group("what to send")
    one = group.add_mutually_exclusive_group()
    one.add_argument("--suggest-csp", action="store_true", help="the least policy under which all that came passes")
    one.add_argument("--suggest-cors", metavar="ORIGIN", type=origin,
                     help="the least headers by which the requests pass that CORS refuses pages of this origin")
    one.add_argument("--suggest-hsts", action="store_true",
                     help="what breaks under Strict-Transport-Security of the pages' hosts, and which one is safe")
    group.add_argument("--inline", action="store_true",
                       help="the policy lets pass what stands in the recorded HTML, by 'unsafe-inline'")
    group.add_argument("--by", choices=BY, default="host",
                       help="what the words of the policy name: host (as it is), path, or scheme")


def check_together(parser: argparse.ArgumentParser, given: argparse.Namespace) -> None:
    """Ends the program where words do not stand together."""
    if given.many is None and (given.jobs or given.dask or given.out):
        parser.error("--jobs, --dask and --out stand with --many")
    if given.jobs and given.dask:
        parser.error("--jobs stands without --dask")
    if given.many is not None and any((given.recording, given.json, given.brief, given.scenario, given.html,
                                       given.redact, given.suggest_csp, given.suggest_cors, given.suggest_hsts)):
        parser.error("--many stands without RECORDING, --json, --brief, --scenario, --html, --redact and the words "
                     "that suggest")
    if given.no_csp and (given.csp is not None or given.csp_report_only is not None):
        parser.error("--no-csp stands without --csp and --csp-report-only")
    if not given.suggest_csp and (given.more or given.inline):
        parser.error("several recordings, and --inline, stand with --suggest-csp")
    if given.suggest_csp and changes_of(given):
        parser.error("--suggest-csp stands without changes")
    for word, is_there in (("--suggest-csp", given.suggest_csp), ("--suggest-cors", given.suggest_cors),
                           ("--suggest-hsts", given.suggest_hsts)):
        if is_there and (given.redact or given.scenario or given.html):
            parser.error(f"{word} stands without --redact, --scenario and --html")
    if given.redact and (given.scenario or given.html):
        parser.error("--redact stands without --scenario and --html")


def add_changes(parser: argparse.ArgumentParser) -> None:
    """The words of changes."""
    asked = parser.add_argument_group("what if", "the recording is played with these, and what comes otherwise is told")
    asked.add_argument("--csp", metavar="TEXT", type=policy,
                       help="the pages' policy, in the place of those that they have")
    asked.add_argument("--csp-report-only", metavar="TEXT", type=policy,
                       help="one that only reports, in the place of such")
    asked.add_argument("--no-csp", action="store_true", help="no policy")
    asked.add_argument("--referrer-policy", metavar="P", choices=POLICIES, help="the pages' referrer policy")
    asked.add_argument("--hsts", metavar="HOST[,subdomains]", action="append", type=domain, default=[],
                       help="a host that is known to want https")
    asked.add_argument("--upgrade", action="store_true", help="upgrade-insecure-requests, beside the pages' policies")
    asked.add_argument("--set", metavar="'URL-PATTERN Name: value'", action="append", default=[],
                       type=typed(changes.header_change, True),
                       help="a header of answers, those of the pages too; * stands for any text")
    asked.add_argument("--unset", metavar="'URL-PATTERN Name'", action="append", default=[],
                       type=typed(changes.header_change, False),
                       help="a header that goes")
    asked.add_argument("--origin", metavar="OLD=NEW", action="append", type=typed(changes.move), default=[],
                       help="a site that moves to another origin")
    asked.add_argument("--changes", metavar="FILE", type=words_of_file, default=[],
                       help="a file of these words, one a line: a name without --, a blank, and its value")


def add_output(parser: argparse.ArgumentParser) -> None:
    """The words for what is printed, and for the files that are written."""
    printed = parser.add_argument_group("what is printed and written")
    form = printed.add_mutually_exclusive_group()
    form.add_argument("--brief", action="store_true", help="a line for each verdict alone")
    form.add_argument("--json", action="store_true", help="JSON")
    printed.add_argument("--scenario", metavar="DIR", help="write a scenario for each page, for bin/why")
    printed.add_argument("--html", metavar="OUT",
                         help="write a page to look at: the requests by host and time, why they were refused, and with "
                              "changes what they come to")
    printed.add_argument("--redact", metavar="OUT",
                         help="write the recording without cookies, Authorization and bodies, and play nothing")


def add_many(parser: argparse.ArgumentParser) -> None:
    """The words for many recordings."""
    many = parser.add_argument_group("many recordings", "a line of JSON for each, and what all of them come to")
    many.add_argument("--many", metavar="LIST|FOLDER",
                      help="a list of files, one a line (- for standard input); or a folder with *.har, *.har.gz and "
                           "*.flow; or a file *.jsonl or *.jsonl.gz with a recording in each line")
    many.add_argument("--jobs", metavar="N", type=jobs, help="recordings side by side (1)")
    many.add_argument("--dask", metavar="SCHEDULER",
                      help="the workers of this Dask scheduler, as tcp://host:8786, in the place of this machine")
    many.add_argument("--out", metavar="FILE", help="where the lines go; a run that was stopped goes on from there")


def parser_of(self: str) -> argparse.ArgumentParser:
    """All words, as --help explains them."""
    parser = argparse.ArgumentParser(
        prog=self, allow_abbrev=False,
        usage="%(prog)s RECORDING [changes] [--json|--brief] [--scenario DIR] [--html OUT]\n"
              "       %(prog)s RECORDING [changes] --suggest-cors ORIGIN|--suggest-hsts [--json|--brief]\n"
              "       %(prog)s RECORDING.. --suggest-csp [--by host|path|scheme] [--inline] [--json|--brief]\n"
              "       %(prog)s RECORDING --redact OUT\n"
              "       %(prog)s --many LIST|FOLDER [changes] [--jobs N|--dask SCHEDULER] [--out FILE]",
        description="says what came of each request of a recording (HAR), why, and what changes would change",
        epilog="status: 0 nothing failed (with changes: nothing breaks), 1 something did, 2 wrong words or no HAR, "
               "3 no play")
    parser.add_argument("recording", metavar="RECORDING", nargs="?",
                        help="a HAR file, or a flow file of mitmproxy, plain or packed by gzip; standard input where "
                             "it is left out")
    parser.add_argument("more", metavar="RECORDING", nargs="*", help="more recordings of the site, for --suggest-csp")
    for add in (add_changes, add_suggestions, add_output, add_many):
        add(parser)
    return parser


def read_words(self: str, words: list[str]) -> argparse.Namespace:
    """What the words say; wrong words end the program with the status 2."""
    parser = parser_of(self)
    given = parser.parse_args(words)
    if given.changes:
        given = parser.parse_args([*given.changes, *words])
    check_together(parser, given)
    return given


def changes_of(given: argparse.Namespace) -> changes.Changes:
    return changes.Changes(given.csp, given.csp_report_only, given.no_csp, given.referrer_policy, tuple(given.hsts),
                           given.upgrade, (*given.set, *given.unset), tuple(given.origin))


def main(self: str, words: list[str]) -> int:
    given = read_words(self, words)
    if given.many is not None:
        from fiorrudda.recorded import many  # what it needs takes a play's time to read
        return many.run(self, given.many, given.jobs or 1, given.out, changes_of(given), given.dask)
    gc.disable()  # nearly all that is made stays to the end, and looking through it again and again doubles the time
    name = given.recording or "standard input"
    folder = next((path for path in (given.recording, *given.more) if path and os.path.isdir(path)), None)
    if folder:
        return streams.complain(WRONG, f"{self}: {folder} is a folder: name a HAR file in it")
    try:
        data = streams.read(given.recording)
        progress.begin(self)
        if given.redact:
            return redact(self, data, given)
        recordings = [har.read(data)]
        for name in given.more:
            recordings.append(har.read(streams.read(name)))
        return told(self, recordings, given)
    except OSError as error:
        return complain(WRONG, f"{self}: {name}: {error.strerror}")
    except har.NoHar as error:
        return complain(WRONG, f"{self}: {name}:{error.line}:{error.column}: {error.sentence}")
    except (running.Failed, play_text.NoPlay) as error:
        return complain(FAILED, f"{self}: {error}")
    finally:
        progress.end()


def complain(status: int, sentence: str) -> int:
    progress.end()
    return streams.complain(status, sentence)


def redact(self: str, data: bytes, given: argparse.Namespace) -> int:
    log = har.log_of(data)
    wrong = redacting.write(given.redact, log)
    if wrong:
        return complain(WRONG, f"{self}: {wrong}")
    streams.write_lines([f"{given.redact} is the recording without cookies, Authorization and bodies",
                         *(f"note: {note}" for note in redacting.notes(log))])
    return GOOD


def suggested(recordings: list[Any], given: argparse.Namespace) -> int:
    found = judging.suggest(recordings[0], given.by, given.inline, recordings[1:])
    if given.more:
        found["suggested"]["recordings"] = [given.recording, *given.more]
    write(found, telling.suggested_lines(found["suggested"], given.brief), given)
    return BAD if found["suggested"]["broken"] else GOOD


def suggested_cors(self: str, recording: Any, given: argparse.Namespace) -> int:
    try:
        found = judging.suggest_cors(recording, given.suggest_cors, changes_of(given))
    except NoPage as error:
        return complain(WRONG, f"{self}: --suggest-cors: {error}")
    own = found["suggested_cors"]
    write(found, telling_suggested.cors_lines(own, given.brief), given)
    return BAD if own["refused"] else GOOD


def suggested_hsts(recording: Any, given: argparse.Namespace) -> int:
    found = judging.suggest_hsts(recording, changes_of(given))
    own = found["suggested_hsts"]
    write(found, telling_suggested.hsts_lines(own, given.brief), given)
    return GOOD if any(one["header"] for one in own["hosts"]) else BAD


def write(found: dict[str, Any], lines: Iterable[str], given: argparse.Namespace) -> None:
    progress.end()
    if given.json:
        streams.write_json(found)
    else:
        streams.write_lines(lines)


def told(self: str, recordings: list[Any], given: argparse.Namespace) -> int:
    recording = recordings[0]
    if given.suggest_csp:
        return suggested(recordings, given)
    if given.suggest_cors is not None:
        return suggested_cors(self, recording, given)
    if given.suggest_hsts:
        return suggested_hsts(recording, given)
    return judged(self, recording, changes_of(given), given)


def judged(self: str, recording: Any, made: changes.Changes, given: argparse.Namespace) -> int:
    """What came of all requests, and the files that are asked for."""
    written, wrong = writing.write(given.scenario, recording, made) if given.scenario else ([], None)
    if wrong:
        return complain(WRONG, f"{self}: {wrong}")
    found = judging.judge(recording, made)
    KEPT.extend((recording, found))
    if given.html:
        from fiorrudda.recorded import waterfall  # what it needs takes a play's time to read
        wrong = waterfall.write(given.html, os.path.basename(given.recording or "standard input"), found, recording)
        if wrong:
            return complain(WRONG, f"{self}: {wrong}")
        written.append(given.html)
    progress.end()
    if given.json:
        streams.write_json(found)
    else:
        streams.write_lines(telling.lines(found, given.brief))
        streams.write_lines(f"wrote {path}" for path in written)
    is_bad = differences.breaks(found) if made else judging.fails(found)
    return BAD if is_bad else GOOD
