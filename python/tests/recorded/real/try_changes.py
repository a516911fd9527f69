"""Tries what bin/har says of real applications (applications.py) in Chromium, with python/addon.py in mitmdump
between them, which serves each change:

    recorded/real/try_changes [APPLICATION..]

- What if: for each change of CHANGES the pages of PAGES are visited with it. What Chromium refuses then is what bin/har
  says, by the recording of a visit without changes: no request more, none less, except what a refused one asks for, as
  bin/har tells, and for icons, which it asks for once; and what is told to go with these is not asked for.
- The least policy of --suggest-csp --inline, of a recording of all steps, and Firefox's that is kept, with what its
  notes name of the own origin: the steps are done again under it, in Firefox too, and no violation is reported.

It needs what recorded/real/record needs, and the program that FETCHPLAY names."""
from __future__ import annotations

import json
import os
import re
import shutil
import sys
import tempfile
import urllib.request
from typing import Any

from fiorrudda.places import ROOT
from fiorrudda.recorded import differences, har, judging, kinds, served
from fiorrudda.recorded.model import Recording
from tests.recorded.real import applications, proxy, steps
from tests.recorded.real.chromium import Chromium
from tests.recorded.real.firefox import Firefox
from tests.recorded.real.record import Browser

HERE = os.path.join(ROOT, "recorded", "real")

PAGES = {"dokuwiki": ["/doku.php?id=start"], "mediawiki": ["/index.php"], "phpmyadmin": ["/index.php"]}
ALL = "default-src * data: 'unsafe-inline' 'unsafe-eval'; "
CHANGES = [
    ["csp " + ALL + "img-src 'none'"], ["csp " + ALL + "script-src 'none'"], ["csp " + ALL + "style-src 'none'"],
    ["csp " + ALL + "manifest-src 'none'"], ["csp " + ALL + "img-src 'self'"], ["csp " + ALL + "img-src data:"],
    ["csp " + ALL + "script-src-elem https:"], ["csp " + ALL + "font-src 'none'; connect-src 'none'"],
    ["csp " + ALL + "style-src http://other.test; img-src http://localhost:*"],
    ["csp default-src 'self' 'unsafe-inline' 'unsafe-eval'"], ["csp default-src 'none'"],
    ["csp-report-only default-src 'none'"],
    ["set http://localhost:*/* X-Content-Type-Options: nosniff"],
    ["set http://localhost:*/* Cross-Origin-Resource-Policy: same-origin"],
    ["set http://localhost:*.css* Content-Type: text/plain", "set http://localhost:* X-Content-Type-Options: nosniff"],
    ["referrer-policy no-referrer"]]
FAULTS: list[str] = []


def say(port: int, changes: list[str]) -> None:
    """Tells the proxy which changes are tried from now on."""
    opener = urllib.request.build_opener(urllib.request.ProxyHandler({"http": f"http://127.0.0.1:{port}"}))
    opener.open(f"http://{proxy.CHANGES_HOST}/", json.dumps(changes).encode()).close()


def named(url: str) -> str:
    """A URL as two visits have it: numbers that are times are none."""
    return re.sub("[0-9]{6,}", "N", url.partition("#")[0])


def visited(browser: Chromium, application: applications.Application) -> tuple[dict[str, Any], set[str], set[str]]:
    """The pages' recording, what was asked for, and what was refused."""
    browser.ask("Network.clearBrowserCache")
    browser.events.clear()
    for path in PAGES[application.name]:
        browser.visit(application.origin + path)
    recording = browser.har()
    refused = {named(url) for url, why in browser.failures().items()
               if why != "net::ERR_ABORTED" and not url.endswith(served.REPORTS)}
    return recording, {named(entry["request"]["url"]) for entry in recording["log"]["entries"]}, refused


def predicted(recording: Recording, changes: list[str]) -> tuple[set[str], set[str], set[str]]:
    """What bin/har says that is refused under changes, of these what refused ones alone ask for, and what is not asked
    for any more."""
    found = judging.judge(recording, served.changes_of(changes))["differences"]
    broken = [one for one in found if one["kind"] == differences.BROKEN]
    first, behind = ({named(one["url"]) for one in broken if ("asked_by" in one) == is_behind}
                     for is_behind in (False, True))
    return first | behind, behind - first, {named(one["url"]) for one in found if one["kind"] == differences.WITH}


def icons_of(recording: Recording) -> set[str]:
    """What Chromium asks for by itself, and once: it calls that other."""
    return {named(entry.url) for entry in recording.entries
            if entry.resource_type == "other" and kinds.kind_of(entry, None)[0] == "image"}


def try_what_if(browser: Chromium, application: applications.Application, port: int) -> int:
    """How many changes came as they were foretold."""
    say(port, [])
    base, _, failed = visited(browser, application)
    recording = har.read(json.dumps(base).encode())
    same, icons = 0, icons_of(recording)
    for changes in CHANGES:
        say(port, changes)
        _, asked, refused = visited(browser, application)
        wanted, behind, gone = predicted(recording, changes)
        unmade = (behind | icons) & wanted - asked
        told = {"refused, and not foretold": refused - failed - wanted,
                "foretold, and not refused": wanted - refused - unmade,
                "asked for, and told to go with what is refused": gone & asked - wanted}
        same += not any(told.values())
        print(f"{application.name}, {'; '.join(changes)}: {len(wanted)} foretold, {len(refused)} refused, "
              f"{len(unmade)} not made (of refused requests, or icons); {len(gone)} go with these", flush=True)
        FAULTS.extend(f"{application.name}, {changes}: {what}: {[url[:100] for url in sorted(urls)[:5]]}"
                      for what, urls in told.items() if urls)
    return same


def stored(application: applications.Application) -> list[Recording]:
    """The recording of Firefox, where it is kept."""
    path = os.path.join(HERE, application.name + ".firefox.har.gz")
    if not os.path.exists(path):
        return []
    with open(path, "rb") as file:
        return [har.read(file.read())]


def with_failed(found: dict[str, Any]) -> str:
    """The policy with what the notes name: requests of the pages' own origin that failed, as they were left."""
    policy = {name: words for name, *words in map(str.split, found["policy"].split(";"))}
    for one in found["failed"]:
        if one["word"] == "'self'":
            policy.setdefault(one["directive"], []).append("'self'")
    return "; ".join(" ".join([name, *words]) for name, words in policy.items())


def suggested(browser: Chromium, application: applications.Application, port: int) -> str:
    """The policy that is suggested."""
    say(port, [])
    browser.events.clear()
    steps.do(browser, application)
    recordings = [har.read(json.dumps(browser.har()).encode()), *stored(application)]
    found = judging.suggest(recordings[0], "host", True, recordings[1:])["suggested"]
    policy = with_failed(found)
    print(f"{application.name}: Content-Security-Policy: {policy}", flush=True)
    return policy


def try_policy(browser: Browser, application: applications.Application, port: int, violations: str,
               policy: str) -> None:
    """Does the steps under a policy; how many requests were made where that is known."""
    say(port, ["csp " + policy])
    begin = os.path.getsize(violations)
    steps.do(browser, application)
    with open(violations, encoding="utf-8") as file:
        file.seek(begin)
        told = sorted({served.sentence_of(json.loads(line)) for line in file})
    entries = len(browser.har()["log"]["entries"])
    print(f"{application.name}: {entries} requests of {browser.name} under its policy: {len(told)} violations",
          flush=True)
    FAULTS.extend(f"{application.name}, under its policy in {browser.name}: {one}" for one in told)


def try_chromium(application: applications.Application, port: int, violations: str) -> str:
    """The policy that is suggested, and all changes."""
    browser = Chromium(port)
    try:
        policy = suggested(browser, application, port)
        browser.ask("Network.clearBrowserCache")
        browser.ask("Network.clearBrowserCookies")
        browser.events.clear()
        try_policy(browser, application, port, violations, policy)
        FAULTS.extend(f"{application.name}, under its policy: {one}" for one in browser.violations())
        same = try_what_if(browser, application, port)
        print(f"{application.name}: {same} of {len(CHANGES)} changes came as they were foretold", flush=True)
        return policy
    finally:
        browser.close()


def try_firefox(application: applications.Application, port: int, violations: str, policy: str) -> None:
    browser = Firefox(port)
    try:
        try_policy(browser, application, port, violations, policy)
    finally:
        browser.close()


def try_application(application: applications.Application) -> None:
    with tempfile.TemporaryDirectory() as room, applications.served(application, room):
        violations = os.path.join(room, "violations")
        open(violations, "w").close()
        with proxy.proxy(room, *proxy.tried([], violations), "-s", proxy.CONTROL) as port:
            policy = try_chromium(application, port, violations)
            if shutil.which("firefox-esr"):
                try_firefox(application, port, violations, policy)
            else:
                print(f"{application.name}: not tried in Firefox, which is not installed")


def main() -> int:
    names = sys.argv[1:]
    for name in names or applications.ALL:
        try:
            try_application(applications.ALL[name])
        except applications.NotThere as error:
            print(f"{name}: {error}")
    for fault in FAULTS:
        print("recorded/real/try_changes: " + fault, file=sys.stderr)
    return 1 if FAULTS else 0
