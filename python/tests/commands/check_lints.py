"""Checks the lints of policies, CORS, HSTS, referrer policies and integrity texts.

- Each has a scenario that has it, and it alone, and one that nearly has it, and none. Each sentence says what to write.
- Each directive and each keyword of CSP's grammar, as the standards have them, is taken without a lint; misspelt, or
  without its quotes, it is told, with the right word; and each that was taken out of the standards is told.
- What one slip makes often is told twice, and counted.
- What a policy means is known of each of its lints, or there is a reason why not; mended, it has none.
- Headers as servers send them have none. What is advised of HSTS keeps what was meant, and a page's own field has its
  lint, or the host that a scenario is to name.
- What is said of HSTS, of origins and of integrity texts is what the program makes of them.
- The scenarios of the gallery and of examples have the lints that lint_cases.py lists with a reason, and no other.
- A text that is made to cost much is looked at in little time.
- bin/why, --json, --net and --lints, and bin/expect with and without --strict.

It needs python3 (3.9 or later). Plays are made by bin/fetchplay, or by the program that FETCHPLAY names."""
from __future__ import annotations

import copy
import glob
import json
import os
import re
import subprocess
from typing import Any

from fiorrudda.commands import asking, doubts, json_text, lints
from fiorrudda.commands.lints import grammar
from fiorrudda.commands.lints.entry import Finding, Lint
from fiorrudda.commands.scenario import Scenario
from fiorrudda.commands.told import Told
from fiorrudda.places import ROOT
from tests import base
from tests.commands import advice, cases, lint_cases, net_peers
from tests.commands.cases import Data
from tests.commands.lint_cases import PAGE, csp_of, page

# What the standards have: CSP 3, Trusted Types and fenced frames; and keywords, with Speculation Rules.
DIRECTIVES = """child-src connect-src default-src font-src frame-src img-src manifest-src media-src object-src
    script-src script-src-elem script-src-attr style-src style-src-elem style-src-attr webrtc worker-src base-uri
    sandbox form-action frame-ancestors report-uri report-to upgrade-insecure-requests trusted-types
    require-trusted-types-for fenced-frame-src""".split()
KEYWORDS = """none self unsafe-inline unsafe-eval strict-dynamic unsafe-hashes report-sample wasm-unsafe-eval
    trusted-types-eval report-sha256 report-sha384 report-sha512 inline-speculation-rules""".split()
GONE = """block-all-mixed-content plugin-types referrer reflected-xss navigate-to prefetch-src require-sri-for
    disown-opener""".split()
FIXES = ("write ", "send ", "take ", "put ", "add ", "make ", "list ", "name ", "ask ", "to check it, ")


def ran(command: str, *words: str, **more: Any) -> subprocess.CompletedProcess[bytes]:
    path = os.path.join(ROOT, "bin", command)
    return subprocess.run([path, *words], stdout=subprocess.PIPE, stderr=subprocess.PIPE, **more)


def found_in(text: str) -> list[Finding]:
    return [finding for _, finding in lints.in_scenario(Scenario(json_text.read(text)))]


def told_of(data: Data) -> list[Any]:
    """The sentences of the lints that a scenario has, each with what slip it is of."""
    return [(one.told(), one.slip) for one in found_in(json.dumps(data))]


def names_in(data: Data, notes: bool = False) -> list[str]:
    """The lints that a scenario has, by their names; of what a play does not look at where notes are asked for."""
    return sorted({one.lint.name for one in found_in(json.dumps(data)) if notes or not one.lint.is_note})


# ---- the grammar

def policy_lints(value: str) -> list[Finding]:
    return [one for one in found_in(json.dumps(csp_of(value))) if not one.lint.is_note]


def mended(data: Data) -> Any:
    return scenario_of(data).mended_policies(0)


def scenario_of(data: Data) -> Scenario:
    return Scenario(json_text.read(json.dumps(data)))


def mend_all(data: Data, own: Any, unread: Any) -> None:
    """Puts the mended texts in the place of a document's policies."""
    advice.change_policies(data["documents"][0], lambda number, _: str(own[number].text))
    for one in unread:
        data["documents"][0]["headers"][one.at] = [one.name, one.mended.text]


def played(data: Data) -> Told:
    return asking.played(json.dumps(data).encode())[2]


class Checks(base.Checks):
    # ---- the table

    def test_table(self) -> None:
        names = [lint.name for lint in lints.table()]
        self.compare("lints that stand twice", sorted({name for name in names if names.count(name) > 1}), [])
        self.compare("lints without a case, and cases without a lint", sorted(set(names) ^ set(lint_cases.CASES)), [])
        for lint in lints.table():
            if lint.name in lint_cases.CASES:
                self.check_case(lint, *lint_cases.CASES[lint.name])

    def check_case(self, lint: Lint, has: Data, near: Data) -> None:
        self.compare(lint.name + ": what has it", names_in(has, lint.is_note), [lint.name])
        self.compare(lint.name + ": what nearly has it", names_in(near, lint.is_note), [])
        for finding in found_in(json.dumps(has)):
            says = any(": " + verb in finding.sentence for verb in FIXES)
            self.compare(lint.name + ": what to write: " + finding.sentence, says, True)

    def test_star(self) -> None:
        """In the place of `*` before requests with credentials the origins of the pages that send them are named, and
        nothing else would do (Fetch, "CORS check")."""
        star, include = [lint_cases.ORIGIN, "*"], cases.INCLUDE
        font = cases.load("font", crossorigin="use-credentials")
        rows = [
            ([cases.fetch(**include)], "send `https://shop.test` in its place, where the server trusts it", "leave"),
            ([cases.fetch(**include, **cases.PUT)], "send `https://shop.test` in its place", "leave"),
            ([font], "send `https://shop.test` in its place", "leave"),
            ([cases.load("image")], "or leave Access-Control-Allow-Credentials out", "shop.test"),
            ([cases.fetch(mode="no-cors", **include)], "or leave Access-Control-Allow-Credentials out", "shop.test"),
            ([cases.fetch()], "or leave Access-Control-Allow-Credentials out", "shop.test"),
        ]
        for asks, part, other in rows:
            told = [one.sentence for one in found_in(json.dumps(lint_cases.answer(star, cases.TRUE, asks=asks)))]
            self.compare(f"`*`, asked by {asks}: {told}", [part in one and other not in one for one in told], [True])
        data = lint_cases.answer(star, cases.TRUE, asks=lint_cases.WITH)
        data["documents"].append({"url": "https://news.test/", "script": lint_cases.WITH})
        told = [one.sentence for one in found_in(json.dumps(data))]
        part = "send `https://shop.test` or `https://news.test`, the one that asks, in its place, where the server"
        self.compare(f"`*`, asked by two: {told}", [part in one for one in told], [True])

    def test_codings(self) -> None:
        """A coded answer that caches keep lacks a Vary, which is told with what is there."""
        for headers, options, wanted in lint_cases.CODED:
            data = lint_cases.answer(*headers, asks=[cases.fetch(**options)])
            told = [one.sentence for one in found_in(json.dumps(data)) if one.lint.name == "coding/vary-missing"]
            says = [f"send `Vary: {wanted}` with every answer of this URL" in one for one in told]
            self.compare(f"{headers}, asked with {options}: {told}", says, [True] if wanted else [])

    def test_whole_values(self) -> None:
        """What is advised for a value of Strict-Transport-Security keeps what it says besides, and has no fault; it is
        said once."""
        for value, *right in lint_cases.HSTS_MEANT:
            found = found_in(json.dumps(lint_cases.hsts(value)))
            own = [one.sentence for one in found if not one.lint.name.startswith("hsts/preload")]
            says = [f"`{one}`" in sentence for sentence in own for one in right]
            self.compare(f"{value}: {[finding.sentence for finding in found]}", says, [True] * len(right))
            for one in right:
                left = set(names_in(lint_cases.hsts(one)))
                self.compare(f"{one}: what is left", sorted(left - set(names_in(lint_cases.hsts(value)))), [])
        # as the bytes of a real answer are read
        data = lint_cases.hsts("max-age=\u00e2\u0080\u009c600\u00e2\u0080\u009d")
        self.compare("quotes that came as bytes", names_in(data), ["hsts/typographic-quotes"])
        for value, name in lint_cases.HSTS_JOINED.items():
            self.compare(value, names_in(lint_cases.hsts(value)), [name])
        for values, counts in lint_cases.HSTS_TWICE:
            found = found_in(json.dumps(lint_cases.answer(*([lint_cases.HSTS, own] for own in values))))
            twice = [one.sentence for one in found if one.lint.name == "hsts/sent-twice"]
            self.compare(f"{values}", [one.partition("counts: ")[2] for one in twice], [counts])
        for value, meant in lint_cases.HSTS_PRELOADED.items():
            sentences = [finding.sentence for finding in found_in(json.dumps(lint_cases.hsts(value)))]
            self.compare(f"{value}: {sentences}", [f"write `{meant}`" in one for one in sentences], [True])
            self.compare(f"{meant}: what is left", names_in(lint_cases.hsts(meant)), [])

    def test_order(self) -> None:
        """What is wrong in a field is told in the order in which one mends it, by all commands; preload comes last."""
        for (origin, value), wanted in lint_cases.HSTS_ORDER.items():
            data = lint_cases.hsts(value, origin)
            found = found_in(json.dumps(data))
            told = [one.lint.removeprefix("hsts/") for one in doubts.doubts(scenario_of(data), None, False)]
            self.compare(f"{origin}, {value}", [one.lint.name.removeprefix("hsts/") for one in found], wanted)
            self.compare(f"{origin}, {value}: bin/why", told, wanted)
            last = found[-1].sentence
            words = ["take `preload` out", "served over https", "includeSubDomains; preload`"]
            places = [last.find(word) for word in words]
            self.compare(f"preload comes last: {last}", (-1 in places, places), (False, sorted(places)))

    def test_pages(self) -> None:
        """A page's own field: what is wrong with it, or the host as the scenario is to name it, if it does not yet."""
        for url, values, wanted in lint_cases.HSTS_PAGES:
            data = page(*([lint_cases.HSTS, value] for value in values), url=url)
            self.compare(f"{values} of a page {url}", names_in(data, True), wanted)
        data = page([lint_cases.HSTS, "max-age=600; includeSubDomains"])
        for is_wide, wanted in [(True, []), (False, ["hsts/on-the-page"])]:
            known = {"host": "shop.test", "subdomains": is_wide, "until": 9}
            self.compare(f"a page whose host is named, {is_wide}", names_in({**data, "hsts": [known]}, True), wanted)
        wide = '`{"host": "shop.test", "subdomains": true, "until": 9999999999}`'
        self.compare("the host of a page", [wide in one.sentence for one in found_in(json.dumps(data))], [True])

    def test_grammar(self) -> None:
        self.compare("the directives", sorted(grammar.SOURCES + grammar.OTHERS), sorted(DIRECTIVES))
        self.compare("the directives that are gone", sorted(grammar.OBSOLETE), sorted(GONE))
        self.compare("the keywords", sorted(grammar.KEYWORDS), sorted(KEYWORDS))
        words = set()
        for value in lint_cases.RIGHT:
            words |= set(re.split(r"[\s;]+", value))
            self.compare("a policy that is right: " + value, [one.sentence for one in policy_lints(value)], [])
        for data in (lint_cases.answer(*lint_cases.RIGHT_HEADERS), page(*lint_cases.RIGHT_HEADERS)):
            self.compare("headers that are right", names_in(data), [])
        self.compare("directives and keywords without a policy that is right",
                     sorted({*DIRECTIVES, *(f"'{one}'" for one in KEYWORDS)} - words), [])

    def test_misspelt(self) -> None:
        """Each directive with a letter too few, and each keyword so and without its quotes, is told with the right
        word."""
        for name in DIRECTIVES:
            wrong = name[:3] + name[4:]
            told = policy_lints(f"{wrong} 'self'; font-src 'self'")
            self.compare("the directive " + wrong, [(f"`{name}`") in one.sentence for one in told], [True])
        for word in KEYWORDS:
            where = "img-src" if word in ("none", "self") else "script-src"
            wrong = word[:-2] + word[-1]
            bare = [one for one in policy_lints(f"{where} {word}") if f"`'{word}'`" in one.sentence]
            near = [one for one in policy_lints(f"{where} '{wrong}'") if f"`'{word}'`" in one.sentence]
            self.compare(f"the keyword {word}, without quotes and misspelt", (len(bare), len(near)), (1, 1))

    def test_names_behind(self) -> None:
        """Words that end in the name of a directive: where it begins another it is told, and else not."""
        for word, source in lint_cases.BEFORE_NAME.items():
            self.compare("what stands before a name in " + word, grammar.before_name(word), source)
            if source and source not in grammar.NO_WORDS:
                told = {one.lint.name: one.sentence for one in policy_lints(f"default-src 'self'; media-src {word}")}
                says = f"put a semicolon behind `{source}`" in told.get("csp/name-behind-source", "")
                self.compare(f"{word}: {told}", says, True)
        self.compare("words of report-to", policy_lints("img-src 'self'; report-to 'a'img-src"), [])

    def test_commas(self) -> None:
        """A comma that is meant for a semicolon, and where it is told; two policies that are meant are left."""
        for value, name in lint_cases.COMMAS.items():
            text = json.dumps(csp_of(value))
            told = [(text[place - 2:place], finding)
                    for place, finding in lints.in_scenario(Scenario(json_text.read(text)))
                    if place is not None and finding.lint.name == "csp/comma-for-semicolon"]
            self.compare(value + ": where", [before for before, _ in told], [", "] if name else [])
            for _, finding in told:
                self.compare(value + ": what", f"`{name}` does not widen `default-src`" in finding.sentence, True)

    def test_spelt(self) -> None:
        for data, part in lint_cases.SPELT:
            told = [one.sentence for one in found_in(json.dumps(data))]
            self.compare(f"{part}: {told}", [part in one for one in told], [True])

    def test_places(self) -> None:
        """The place of each word in the text of a scenario, where escapes stand before it."""
        value = "font-src \u00e9\";\t img-src self,, \U0001f600; script-src a.test self, style-src a.testimg-src self"
        for is_ascii in (True, False):
            text = json.dumps(csp_of(value), ensure_ascii=is_ascii)
            places = [place for place, finding in lints.in_scenario(Scenario(json_text.read(text)))
                      if finding.lint.name in ("csp/keyword-unquoted", "csp/name-behind-source")]
            words = [text[place:].split()[0].strip(",;\\\"") for place in places]
            self.compare(f"places of words, in ASCII: {is_ascii}", (words, len(set(places))),
                         (["self", "self", "img-src"], 3))

    # ---- what is meant

    def test_mending(self) -> None:
        """Each lint of a policy is mended, or has a reason why not; then none is left. Nothing that is right
        changes."""
        names = {lint.name for lint in lints.table() if lint.name.startswith("csp/") and not lint.is_note}
        known = set(lint_cases.UNMENDED)
        self.compare("reasons of lints that are none", sorted(known - names), [])
        for name in sorted(names):
            data = copy.deepcopy(lint_cases.CASES[name][0])
            own, unread = scenario_of(data).mended(0)
            told = [one.slips > 0 for one in own + [one.mended for one in unread]]
            self.compare(name + ": is it mended", told, [name not in known] * max(1, len(told)))
            if name not in known:
                mend_all(data, own, unread)
                self.compare(f"{name}: what is left of it: {own}", names_in(data), [])
        for value in lint_cases.RIGHT:
            self.compare("what is right is left as it is", [one.text for one in mended(csp_of(value))], [value])
        for data, once in lint_cases.TOLD_ONCE:
            self.compare("what one change mends is told once", names_in(data), [once] if once else [])
        for value, wanted in lint_cases.MENDED.items():
            self.compare("what is meant by " + value, [one.text for one in mended(csp_of(value)) if one.text], [wanted])

    # ---- what is counted

    def test_alike(self) -> None:
        """What one slip makes often is told twice, and counted then, also where its header stands again; with one more
        it is told whole."""
        for value, count in lint_cases.ALIKE.items():
            data = csp_of(value)
            rows = told_of(data)
            self.compare(f"{value}: how many", len(rows), count)
            lines = [line for line, _ in lints.told_once(rows)]
            more = f"; {count - 2} more like it"
            self.compare(f"{value}: {lines}", [line.endswith(more) for line in lines],
                         [False, True] if count > 3 else [False] * count)
            again = {**data, "documents": data["documents"] * 6}
            lines = [line for line, _ in lints.told_once(told_of(again))]
            self.compare(f"{value}, six times: {lines}",
                         len([line for line in lines if line.endswith(" more like it")]), len(set(names_in(data))))
        other = {**csp_of("img-src self"), "servers": lint_cases.hsts("max-age=1h")["servers"]}
        self.compare("two slips", [end for end in lints.ends([slip for _, slip in told_of(other)])], ["", ""])

    # ---- what comes of it

    def test_plays(self) -> None:
        """What a lint says of a field, an origin and an integrity text is what the program makes of it."""
        meant = {value: [lint_cases.hsts(value)] for value, *_ in lint_cases.HSTS_MEANT}
        for name, pair in {**lint_cases.HSTS_CASES, **meant}.items():
            for data in pair if name not in ("hsts/header-misspelt", "hsts/on-the-page") else pair[1:]:
                found = [finding.sentence for finding in found_in(json.dumps(data))]
                says = [sentence for sentence in found if sentence.startswith("the header is ignored")]
                noted = any(line.startswith("call note ") for line in played(data).play.lines)
                self.compare(f"{name}: {says}: noted", noted, not says)
        wrong = set(lint_cases.CORS_ORIGINS) - {"cors/origin-null", "cors/star-beside-credentials", "cors/vary-missing"}
        for name in sorted(wrong):
            results = [case.result.short() for case in played(lint_cases.CORS_ORIGINS[name][0]).cases]
            self.compare(name + ": what comes of it", results, ["12 CorsCheck"])
        for name, pair in lint_cases.INTEGRITY_CASES.items():
            for data in (one for one in pair if "fetch" in one["documents"][0]["script"][0]):
                server = {"origin": cases.PAGE, "rules": [cases.rule(200, body="another")]}
                passes = played({**data, "servers": [server]}).cases[0].result.type == "basic"
                is_blank = data["documents"][0]["script"][0]["fetch"]["integrity"].isspace()
                self.compare(name + ": another body passes", passes,
                             is_blank or "integrity/nothing-fits" in names_in(data))

    # ---- stored scenarios, and what costs much

    def test_stored(self) -> None:
        seen = {}
        paths = [glob.glob(os.path.join(ROOT, form)) for form in ("gallery/*/scenario.json", "examples/*.json")]
        for path in sum(paths, []):
            with open(path, encoding="utf-8") as file:
                text = file.read()
            if "refused" not in os.path.basename(path) and '"documents"' in text:
                name = os.path.relpath(path, ROOT).replace("/scenario.json", "")
                seen[name] = sorted({one.lint.name for one in found_in(text)})
        listed = {name: sorted(own) for name, own in lint_cases.ON_PURPOSE.items()}
        for name in sorted({*seen, *listed}):
            self.compare(name + ": its lints", seen.get(name, []), listed.get(name, []))
        self.counted(f"{len(seen)} stored scenarios")

    def test_costs(self) -> None:
        rows = [
            ("a policy of 18,000 words", csp_of("img-src " + "a.test " * 18000)),
            ("one of 14,000 directives", csp_of("; ".join(f"scrpt{number % 97}" for number in range(14000)))),
            ("200 words behind many escapes", csp_of("img-src " + "a.test\u00a0 " * 9000 + "self; img-src " * 200)),
            ("one that is too long", csp_of("img-src " + "a.test " * 400000)),
            ("30,000 headers", page(*([f"C-Security-Policy-{number}", "a"] for number in range(30000)))),
            ("30,000 fields of HSTS", lint_cases.answer(*[[lint_cases.HSTS, "max-age=1"]] * 30000)),
            ("one that stands twice 90,000 times", lint_cases.hsts("max-age=1;" * 90000)),
            ("one with quotes that do not close", lint_cases.hsts('max-age=\\"' * 90000)),
            ("10,000 rules", cases.scenario([cases.fetch()] * 1000, [cases.rule(200, [["Vary", "a"]])] * 10000)),
        ]
        for name, data in rows:
            scenario = Scenario(json_text.read(json.dumps(data)))
            with self.within(name, 2):
                found = lints.in_scenario(scenario)
            self.compare(name + ": findings", len(found) <= 200, True)

    # ---- the commands

    def test_why(self) -> None:
        data = lint_cases.CASES["csp/unknown-directive"][0]
        told = ran("why", input=json.dumps(data, indent=1).encode()).stdout.decode().splitlines()
        says = told[0].startswith("# warning: standard input:") and "`script-scr` is no directive" in told[0]
        self.compare(f"bin/why: {told[:1]}", says, True)
        line, column = map(int, told[0].split(":")[2:4])
        row = json.dumps(data, indent=1).splitlines()[line - 1]
        self.compare("the place", row[column - 1:].startswith("script-scr 'self'"), True)
        both = (told[0].endswith(" (csp/unknown-directive)"), f": {cases.POLICY} of {PAGE}/: `script" in told[0])
        self.compare(f"bin/why: the lint, the header and the URL: {told[:1]}", both, (True, True))
        warnings = json.loads(ran("why", "--json", input=json.dumps(data).encode()).stdout)["warnings"]
        self.compare("--json", ["`script-scr`" in one["sentence"] for one in warnings], [True])
        self.compare("--json: the lint, the header and the URL",
                     [(one["lint"], one["header"], one["url"]) for one in warnings],
                     [("csp/unknown-directive", cases.POLICY, PAGE + "/")])
        told = ran("why", "--lints").stdout.decode().splitlines()
        names = [lint.name for lint in lints.table()]
        self.compare("--lints: a line for each", [line.partition(" ")[0] for line in told], names)
        self.compare("--lints: what is left of the table's own words", [line for line in told if "{" in line], [])
        listed = [re.match(r"(\S+) \((.*?)\): ", line).groups() for line in told]
        self.compare("--lints: what each looks at", listed, [(lint.name, lint.looks_at) for lint in lints.table()])

    def test_net(self) -> None:
        head = b"HTTP/1.1 200 OK\r\nAccess-Control-Allow-Origin: %s\r\nContent-Length: 0\r\n%s\r\n"
        with net_peers.Peer(head % (b"https://shop.test", b"")) as peer:
            told = ran("why", "--net", input=json.dumps(peer.scenario()).encode()).stdout.decode()
            self.compare("bin/why --net: " + told,
                         "# warning: https://api.test/x: Access-Control-Allow-Origin: " in told
                         and "send `Vary: Origin` with every answer of this URL, also a refusal "
                             "(cors/vary-missing)\n" in told,
                         True)
        with net_peers.Peer(head % (b"https://shop.test", b"vary: Accept, Origin\r\n")) as peer:
            told = ran("why", "--net", input=json.dumps(peer.scenario()).encode()).stdout.decode()
            self.compare("with Vary", "# warning" in told, False)
        with net_peers.Peer(b"HTTP/1.1 304 Not Modified\r\nAccess-Control-Allow-Origin: *\r\n\r\n") as peer:
            told = ran("why", "--net", input=json.dumps(peer.scenario()).encode()).stdout.decode()
            part = "# warning: https://api.test/x: status: 304 answers a request with If-None-Match or If-Modified-Since"
            self.compare("a 304 that was not asked for: " + told, part in told, True)
        rows: list[tuple[list[str], int]] = [([], 0), (["--strict"], 1)]
        for words, status in rows:
            wrong = b"Access-Control-Allow-Orgin: *\r\nVary: Origin\r\n"
            with net_peers.Peer(head % (b"https://shop.test", wrong)) as peer:
                test = {"scenario": peer.scenario(), "expect": {"fetch 0": "read"}}
                met = ran("expect", "--net", *words, input=json.dumps(test).encode())
            says = b"write `Access-Control-Allow-Origin`" in met.stdout
            self.compare(f"bin/expect --net {words}: {met.stdout!r}", (met.returncode, says), (status, True))

    def test_expect(self) -> None:
        """Without --strict a fault warns alone; with it the test is not met, except what a play does not look at."""
        wrong, unplayed = (cases.scenario(cases.fetch(), [cases.rule(200, [cases.OK])], headers=[[cases.POLICY, value]])
                           for value in ("conect-src 'self'", "frame-ancestors 'none'"))
        for data, words, status, part in [
                (wrong, (), 0, "\nok 1 - it\n# warning: standard input:"),
                (wrong, ("--strict",), 1, "\nnot ok 1 - it\n# all came as expected; --strict alone makes it `not ok`"),
                (unplayed, (), 0, "# warning: "), (unplayed, ("--strict",), 0, "# warning: ")]:
            test = json.dumps({"name": "it", "scenario": data, "expect": {"fetch 0": "read"}})
            told = ran("expect", *words, input=test.encode())
            text = told.stdout.decode()
            self.compare(f"bin/expect {words}: {text}", (told.returncode, part in text, text.count("no directive") < 2),
                         (status, True, True))
        told = json.loads(ran("expect", "--json", input=test.encode()).stdout)
        self.compare("bin/expect --json", (told[0]["ok"], len(told[0]["warnings"])), (True, 1))

    def test_notes(self) -> None:
        """What bin/ask says of its words and of an answer, once."""
        data = cases.scenario([cases.fetch()] * 2, [cases.rule(200, [cases.OK, ["Access-Control-Max-Age", "one"]])],
                              headers=[[cases.POLICY, "conect-src 'self'; img-src *"]])
        self.compare("the notes of bin/ask", [re.sub(": .*", "", one) for one, _ in lints.noted(played(data))],
                     ["`conect-src` is no directive, and is skipped", "`one` is no number of seconds",
                      "https://api.test/x", "https://api.test/x"])

    def test_counts(self) -> None:
        self.counted(f"{len(lints.table())} lints, each with a case that has it and one that nearly has it")
        self.counted(f"{len(DIRECTIVES + KEYWORDS + GONE)} directives and keywords of CSP's grammar")


def main() -> int:
    return base.main("commands/check_lints", __name__)
