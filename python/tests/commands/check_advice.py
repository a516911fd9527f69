"""Checks that what bin/why advises helps.

- Each change that it names for the scenarios of cases.py and advice_cases.py is made by advice.py, and played: the
  fetch must come further, by the order of steps in advice.py, or the policy must be violated no more.
- Followed to the end the first change of each leads to an answer that is read within a few rounds, or to a way of
  UNMADE, for which no table can name a change; no header of one answer, and no directive for one URL, is named twice on
  the way.
- Bad ports and mixed content are mended by what is advised once.
- An answer with all that the lines `in all` say is read at the second run; what is named after an `or` for CORS comes
  as far alone. `Vary: Origin` is named where its lint wants it.
- What a server or a policy has already is kept, no item is written twice, and no page of https is advised http.
- What is said is what the data say. No verdict is told as such. What is dropped and what is upgraded has its note.
- Policies with all changes of their loads let all of them pass, in the fewest words, and have no slip that is warned of
  and whose right text is known.
- csp.py matches as the engine does, and by CSP 3 where the engine loads nothing; needs.py hides the headers that it
  hides.

It needs python3 (3.9 or later). Plays are made by bin/fetchplay, or by the program that FETCHPLAY names."""
from __future__ import annotations

import concurrent.futures
import glob
import json
import os
import re
from typing import Any, Callable, Iterable, Iterator, Optional
from urllib.parse import urlsplit

from fiorrudda.commands import (asking, changes, csp, edits, expectations, explanations, guards, json_text, lints,
                                results, running, verdicts)
from fiorrudda.commands.case import Case, Violation
from fiorrudda.commands.explanations import Explanation
from fiorrudda.commands.needs import TOKEN, items_of, unseen
from fiorrudda.commands.scenario import Scenario, origin_of
from fiorrudda.commands.shapes import Edit
from fiorrudda.commands.told import Told
from fiorrudda.commands.urls import is_trustworthy
from fiorrudda.places import ROOT
from tests import base
from tests.commands import advice, advice_cases, cases, lint_cases
from tests.commands.cases import Data

JOBS = 4
ROUNDS = 6
LISTS: dict[str, Callable[[str], str]] = {
    "access-control-allow-methods": str, "access-control-allow-headers": str.lower,
    "access-control-expose-headers": str.lower}
CORS_WAYS = {way.name for way in explanations.CORS_CHECK + explanations.PREFLIGHTS}
# What is not taken out, since nothing else stands in the policy.
LEFT = {"browsers/corpus/upgrades/insecure-requests-report-only.json": ["csp/report-only-ignores"]}


def setUpModule() -> None:
    """Builds the program where it must be, and then calls it without what looks whether it is new."""
    if "FETCHPLAY" not in os.environ:
        running.played(b'{"format":1,"documents":[]}')
        os.environ["FETCHPLAY"] = os.path.join(ROOT, "crates", "fetchplay", "out", "fetchplay")


def told_of(data: Data) -> Told:
    return asking.played(json.dumps(data).encode("utf-8"))[2]


def case_of(data: Data, which: Optional[str] = None) -> Case:
    return next(one for one in told_of(data).cases if which in (None, one.fetch.name))


def side_by_side(work: Callable[..., Any], rows: Iterable[tuple[Any, ...]]) -> list[Any]:
    with concurrent.futures.ThreadPoolExecutor(JOBS) as pool:
        found: Iterator[Any] = pool.map(lambda row: work(*row), rows)
        return list(found)


# ---- advice

def scenarios() -> Iterator[tuple[str, Data, Optional[str]]]:
    """Each by its name, with the name of the fetch that it is about."""
    for name, text, which in cases.scripted():
        yield name, json.loads(text), which
    for name, data in advice_cases.scripted():
        yield name, data, None


def way_of(case: Case) -> str:
    return case.explanation.way if case.explanation else case.result.short()


def edits_of(answer: dict[str, Any]) -> list[Edit]:
    """All that one answer needs."""
    is_asked = answer["method"] == "OPTIONS"
    status = [edits.preflight(answer["url"], "status", 204)] if is_asked else []
    return status + [edits.preflight(answer["url"], *pair) if is_asked else
                     edits.answer(answer["method"], answer["url"], *pair) for pair in answer["headers"].items()]


def leads_on(why: Explanation, after: Case) -> bool:
    """Whether the lines say what else stands in the way of the next URL, or the last answer leads to a login or back:
    what follows is then not said."""
    others = [line for line in why.in_all if not line.startswith(("the answer to ", "where the script "))]
    last = [line for line in why.in_all if line.startswith("the answer to ")][-1]
    return others != [] or ", which redirects (" in last and len(after.chain) > 0


def lints_of(told: Told) -> set[str]:
    """The names of the lints of the policies of a play, without those of what a play does not look at."""
    found = [one.lint for _, one in lints.in_scenario(told.scenario)]
    return {lint.name for lint in found if lint.name.startswith("csp/") and not lint.is_note}


def values_of(request: Any, name: str) -> list[str]:
    return [value for own, value in request.headers if own.lower() == name.lower()]


def lints_in(data: Data) -> set[str]:
    return {finding.lint.name for _, finding in lints.in_scenario(Scenario(json_text.read(json.dumps(data))))}


def gallery() -> Iterator[tuple[str, Data]]:
    for path in sorted(glob.glob(os.path.join(ROOT, "gallery", "*", "scenario.json"))):
        with open(path, encoding="utf-8") as file:
            yield os.path.relpath(path, ROOT), json.load(file)


def stored() -> Iterator[tuple[str, Data]]:
    """The scenarios of the gallery and of browsers/corpus that have policies."""
    for path in sorted([*glob.glob(os.path.join(ROOT, "gallery", "*", "scenario.json")),
                        *glob.glob(os.path.join(ROOT, "browsers", "corpus", "*", "*.json"))]):
        with open(path, encoding="utf-8") as file:
            data = json.load(file)
        if "documents" in data and re.search("content-security-policy", json.dumps(data), re.I):
            yield os.path.relpath(path, ROOT), data


def slips() -> Iterator[tuple[str, Data]]:
    """Each policy that a lint has a case for, on a page that loads something of each kind."""
    for name, pair in lint_cases.CASES.items():
        for data in pair if name.startswith("csp/") and "not-played" not in name else []:
            document = {**data["documents"][0], "script": data["documents"][0]["script"] + advice_cases.EACH_KIND}
            yield name, {**data, "documents": [document]}


class Checks(base.Checks):
    def follow(self, name: str, data: Data, which: Optional[str]) -> int:
        """Makes what is advised, again and again, and looks at each step. The number of changes that were played."""
        named: set[Any] = set()
        known: dict[str, int] = {}
        played = 0
        for number in range(ROUNDS):
            case = case_of(data, which)
            told = f"{name}, round {number + 1} ({way_of(case)})"
            known = {**known, **advice.places(case, known.get(case.hops[0].asked, 0))}
            if not advice.advised(case):
                self.check_end(told, case)
                return played
            played += self.check_changes(told, data, case, which, known)
            self.check_alone(told, data, case, which, known)
            self.check_words(told, case)
            again = set(advice.names_of(advice.advised(case), case.url))
            self.compare(told + ": named twice", sorted(map(str, again & named)), [])
            named |= again
            data = advice.made(data, case, advice.advised(case))
        self.fault(f"{name}: the advice does not end: {way_of(case)}")
        return played

    def check_end(self, name: str, case: Case) -> None:
        """An answer that is read, no verdict, or a way for which there is no change."""
        is_good = case.verdict == "read" and (case.explanation is None or way_of(case) in advice.UNMADE)
        self.compare(name + ": the end", is_good or case.verdict == "none" or way_of(case) in advice.UNMADE, True)

    def check_changes(self, name: str, data: Data, case: Case, which: Optional[str], known: dict[str, int]) -> int:
        """Each change of the explanation helps, together with those of the other policies, and each of a policy."""
        policies = [edit for policy in case.policies_told for edit in policy.edits]
        before = advice.rank(case, known.get(case.hops[0].asked, 0))
        changes = [case.explanation.edits, *case.explanation.others] if case.explanation and case.explanation.edits else []
        for change in changes:
            after = case_of(advice.made(data, case, change + policies), which)
            now = advice.rank(after, known.get(after.hops[0].sent or after.hops[0].asked, 0))
            self.compare(f"{name}: {change} helps: {before}, then {now} ({way_of(after)})", now > before, True)
        for policy in case.policies_told:
            after = case_of(advice.made(data, case, advice.advised(case)), which)
            left = [one.policy for one in after.violations if one.url == policy.url]
            told = f"{name}: policy {policy.policy} is violated no more: {policy.edits}"
            self.compare(told, policy.policy in left, False)
        return len(changes) + len(case.policies_told)

    def check_alone(self, name: str, data: Data, case: Case, which: Optional[str], known: dict[str, int]) -> None:
        """What is named after an `or` comes as far as all changes of the answers together."""
        why = case.explanation
        if why is None or not why.others or why.way not in CORS_WAYS:
            return
        ranks = [advice.rank(after, known.get(after.hops[0].sent or after.hops[0].asked, 0)) for after in (
            case_of(advice.made(data, case, change), which) for change in [why.edits + why.exposing, *why.others])]
        self.compare(f"{name}: what would not do alone: {why.others}", [one for one in ranks if one < ranks[0]], [])

    def check_first_screen(self, name: str, data: Data, which: Optional[str] = None) -> bool:
        """Where the lines `in all` stand, an answer that has all of them is read, with all headers that were missed."""
        case = case_of(data, which)
        why = case.explanation
        if why is None or not why.chain:
            return False
        # Where a detour took the origin, the first change is another way: the page asks for the last URL itself.
        asks = [edit for edit in why.edits if edit.get("set") in ("method", "headers")] if why.needs else []
        answers = [edit for one in why.chain for edit in edits_of(one)]
        after = case_of(advice.made(data, case, asks + answers + why.exposing), which)
        is_there = after.verdict == "read" and way_of(after) in (f"cors {after.status}", *advice.UNMADE)
        told = f"{name}: an answer with all that is said `in all`: {way_of(after)}: {why.in_all}"
        self.compare(told, is_there or leads_on(why, after), True)
        return True

    def check_words(self, name: str, case: Case) -> None:
        """What is said is what the data say, what is there is kept, and nothing of http is said to a page of https."""
        self.compare(name + ": data that are not said", advice.unsaid(case), [])
        others = case.explanation.others if case.explanation else []
        for edit in advice.advised(case) + [edit for change in others for edit in change]:
            is_policy = "policy" in edit
            words = edit["value"].split() if is_policy or edit.get("set") in ("url", "Location") else []
            plain = [word for word in words if word.startswith("http://") and not is_trustworthy(word)]
            told = f"{name}: http is advised to a page of https: {edit}"
            self.compare(told, case.is_secure and [word for word in plain if word not in str(case.policies)] != [],
                         False)
            if is_policy:
                self.check_kept(name, case.mended[edit["policy"]], edit, words)
            if edit["at"] in ("answer", "preflight") and str(edit.get("set")).lower() in LISTS:
                self.check_list(name, case, edit)

    def check_kept(self, name: str, policy: dict[str, list[str]], edit: Edit, words: list[str]) -> None:
        """The words of a directive, mended, or of default-src where it is new: all but 'none', those that the change
        rewrites, and those of scripts where it is of none. default-src is mended at most."""
        own = policy.get(edit["set"], policy.get("default-src", []))
        if edit["set"] not in policy and edit["set"] not in ("script-src", "style-src"):
            own = [word for word in own if word == "'self'" or not word.startswith("'")]
        rewritten = [word for word in own if word.endswith("/*") or ":80" in word or word in csp.SCHEMES]
        lost = [word for word in own if word not in words + rewritten + ["'none'"]]
        self.compare(f"{name}: words that are not kept: {words}", lost, [])
        is_wider = edit["set"] == "default-src" and words != own
        self.compare(f"{name}: default-src is not made wider", is_wider, False)

    def check_list(self, name: str, case: Case, edit: Edit) -> None:
        fold = LISTS[edit["set"].lower()]
        items = [fold(item) for item in items_of(edit["value"])]
        head = case.own_head if edit["at"] == "answer" else case.head
        is_here = edit["url"] == case.asked_url and head is not None
        there = [fold(item) for item in items_of(head.get(edit["set"]) if is_here else "") if TOKEN.fullmatch(item)]
        self.compare(f"{name}: {edit} twice", len(items), len(set(items)))
        # a cache that keeps it lets later ones pass
        gone = {"*"} if case.includes and edit["at"] == "preflight" else set()
        self.compare(f"{name}: {edit} keeps what is there", sorted(set(there) - set(items) - gone), [])
        self.compare(f"{name}: {edit}: a star, and credentials", bool(gone & set(items)), False)
        self.compare(f"{name}: {edit}: blanks alone", edit["value"] == ", ".join(items_of(edit.get("replaces"))), False)

    def check_whole(self, name: str, data: Data) -> Told:
        """What the lines `in all` say, alone: then no policy is violated, and nothing of the policies that a lint has
        told and whose right text is known is told again."""
        told = told_of(data)
        after = told_of(advice.made_whole(data, told))
        for case in after.cases:
            self.compare(f"{name}: {case.fetch.name}: what violates a policy with all its changes", case.violations, [])
        left = lints_of(after) & lints_of(told) - set(lint_cases.UNMENDED)
        self.compare(f"{name}: what is warned of still", sorted(left), LEFT.get(name, []))
        return after

    def test_wholes(self) -> None:
        """The policies with all changes are minimal, and said at the end, once each."""
        for name, (data, wanted) in advice_cases.WHOLE.items():
            said = asking.Said(json.dumps(data).encode("utf-8"), False, 20)
            texts = {one["policy"]: one["value"] for one in said.data()["policies_in_all"]}
            self.compare(f"{name}: the policies in all", texts, wanted)
            after = self.check_whole(name, data)
            self.compare(f"{name}: what is refused",
                         [case.fetch.name for case in after.cases if case.result.number == 4], [])
            lines = [line for _, own in said.told.pieces() for line in own if line.startswith("# in all: ")]
            several = [one.line() for one in said.told.whole_policies[0] if one.is_told]
            self.compare(f"{name}: the lines of those with several changes", lines, ["# " + line for line in several])
        told = told_of(advice_cases.WHOLE["a site's loads"][0])
        form = r"in all: let policy 0 be `default-src 'self'; .*"
        for name, lines in [("above the play", verdicts.heading(told)), ("--brief", verdicts.brief(told))]:
            self.compare(f"a policy with all its changes, {name}: {lines[-1]}", bool(re.fullmatch(form, lines[-1])),
                         True)
        self.check_let_in()
        told = told_of(advice_cases.WHOLE["three policies"][0])
        several = [one.policy for one in told.whole_policies[0] if one.is_told]
        self.compare("which policies have several changes", several, [0, 2])

    def check_let_in(self) -> None:
        """A policy with all its changes names what it lets in anew: a host of it may be an attacker's."""
        wanted = "; leave out what the page does not mean to load"
        rows = [
            ([cases.load("script", "https://evil.test/a.js"), cases.load("image", "data:,a"),
              cases.load("script", "/a.js")],
             "script-src https://cdn.test; img-src 'self'", ": it lets in https://evil.test and data:" + wanted),
            ([cases.fetch("/x"), cases.load("script", "/a.js")], "default-src 'none'", ""),
            ([cases.fetch(f"https://h{number}.test/x") for number in range(20)], "connect-src 'self'",
             f": it lets in {', '.join(f'https://h{number}.test' for number in range(12))} and 8 more{wanted}"),
        ]
        for script, policy, end in rows:
            line = verdicts.policies_in_all(told_of(cases.scenario(script, headers=[[cases.POLICY, policy]])))[0]
            self.compare(f"what a policy lets in anew: {line}", line.partition("`")[2].partition("`")[2], end)

    def test_unmade(self) -> None:
        """Each way has a change, or a reason why none is named."""
        made = {way.name for way in explanations.TABLE if way.changes is not changes.nothing}
        ways = {way.name for way in explanations.TABLE}
        self.compare("ways without a change and without a reason", sorted(ways - made - set(advice.UNMADE)), [])
        self.compare("ways with a change and a reason", sorted(set(advice.UNMADE) & made), [])

    # ---- what is said of some cases

    def test_sentences(self) -> None:
        """Parts of what is said of a case, and parts that are not."""
        groups = {name: data for name, data, _ in scenarios()}
        rows = [
            ("one name of two", "`Access-Control-Allow-Headers: content-type, authorization`",
             "Headers: authorization`"),
            ("cors/no-rule", "https://shop.test`; or ask for a path that has one\n", "does not send"),
            ("no rule for OPTIONS", "# change: add a rule for this request: answer OPTIONS at", "or ask for a path"),
            ("seen/no-rule", "; or ask for a path that has one\n", None),
            ("methods of others", "`Access-Control-Allow-Methods: GET, POST, PUT, DELETE`", None),
            ("exposed names of others", "`Access-Control-Expose-Headers: x-page, X-Total, X-Rest`", None),
            ("a preflight before headers that are not exposed",
             "# in all: where the script is to see these headers too, the answer to PUT at https://api.test/x needs "
             "`Access-Control-Expose-Headers: X-Total, ETag`\n", "Date"),
            ("a preflight before a header that is asked for",
             "; and since the script reads X-Next, `Access-Control-Expose-Headers: X-Next` with the answer to PUT\n",
             None),
            ("a refused answer with headers",
             "GET at https://api.test/x needs `Access-Control-Expose-Headers: X-Page, X-Total` in place of `X-Page`",
             None),
            ("a refused answer that exposes all", "send `Access-Control-Allow-Origin: https://shop.test`", "Expose-"),
            ("a bare redirect to a slash", "ask for https://api.test/x/", "with the redirect"),
            ("a bare redirect to a login that any page may read", "# why: the preflight is answered by a redirect "
             "(302) to /login, and no redirect of a preflight is followed, whatever headers it has; a preflight never "
             "carries a cookie or Authorization\n", "ask for"),
            ("a bare redirect to a login that any page may read",
             "# change: let OPTIONS pass before the login is asked for: answer OPTIONS at https://api.test/x with "
             "204, ",
             "look for"),
            ("a redirect to a login, with CORS headers", "# change: let OPTIONS pass before the login is asked for: "
             "answer OPTIONS at https://api.test/x with 204 ", "ask for h"),
            ("a bare redirect to a login, of a GET",
             "; it leads to a login: look whether the cookie that this waits for is sent\n", "or ask for"),
            ("a redirect without a Location", "; look for a login, or what else redirects before OPTIONS is answered\n",
             "look for https"),
            ("a bare 404 and JSON with credentials",
             "answer OPTIONS at https://api.test/x with 204, `Access-Control-Allow-O",
             None),
            ("an image that is upgraded", "`img-src 'self' https://img.test`", "http://img.test`"),
            ("localhost without its scheme", "let policy 0 say `connect-src http://localhost:3000`\n",
             "https://localhost"),
            ("headers of answers, and a PUT", "`Access-Control-Allow-Headers: x-a`\n",
             "access-control-allow-origin, x-a"),
            ("default-src alone",
             "let policy 0 say `connect-src 'self' https://cdn.test https://api.test` beside its `default-src`", None),
            ("default-src alone: script", "let policy 0 say `script-src 'self' https://api.test`", None),
            ("a script of a data URL", "made anew for each answer; or serve the script as a file\n",
             "script-src 'self' data:"),
            ("a page of an address", "let policy 0 say `connect-src https://cdn.test 'self'`",
             "give the server a name"),
            ("policy/quotes", "`self` lacks its quotes (`'self'`)", "https://shop.test"),
            ("strict-dynamic without quotes", "; then no host counts for scripts", None),
            ("none without quotes", "`none` lacks its quotes", "then no host"),
            ("a scheme without its colon", "let policy 0 say `img-src 'self' data:`", None),
            ("preflight/method-in-another-case", "use the method PATCH", "the answer to patch"),
            ("preflight/header-of-answers",
             "leave `access-control-allow-origin`, a header of answers, out of the request",
             "the answer to OPTIONS at"),
            ("preflight/user-agent",
             "# change: leave `user-agent` out of the request; or send `Access-Control-Allow-Headers: user-agent` with",
             "299, `Access-Control-Allow-Origin: https://shop.test`, "),
            ("a User-Agent beside a Cookie", "# change: leave `user-agent` out of the request; or send",
             "let the script"),
            ("three policies", "# policy: policy 1 has `connect-src 'none'`", None),
            ("a report of what is read", "# policy: policy 0 (report-only) has `connect-src 'self'`", "# why"),
            ("mixed/ip-address", "with a certificate that names the address, since HSTS never applies to one; or give",
             "HSTS does not help"),
            ("an error page in the place of a script", "; but first look why it is 404", None),
            ("type/nosniff", "`Content-Type: text/javascript` in place of `text/plain`, once", "look why"),
            ("a star for a request with a cookie",
             "needs `Access-Control-Allow-Origin: https://shop.test` in place of `*`, `",
             None),
            ("a star for a request with a cookie",
             "in place of `*` and `Access-Control-Allow-Credentials: true` with the answer "
             "to PUT", None),
            ("headers at the wrong answer", "# why: the request has credentials, and the answer to the preflight has "
             "no Access-Control-Allow-Credentials (that to PUT has it)\n", "or ask with"),
            ("cors/preflight-not-handled", "# why: the answer to the preflight is 405, without", "has it\n# header"),
            ("headers at the wrong answer",
             "`Access-Control-Allow-Headers: authorization, content-type` with the answer to "
             "OPTIONS; now that to OPTIONS has: a status of 204, Access-Control-Allow-Origin; lacks: ", None),
            ("headers at the wrong answer", "PUT at https://api.test/x needs `Access-Control-Allow-Origin: "
             "https://shop.test`, `Access-Control-Allow-Credentials: true`, and has that\n", None),
            ("cors/credentials-absent", "or ask with `credentials` `same-origin`, where the server needs no cookie",
             None),
            ("a star in three lists, and credentials",
             "`Access-Control-Allow-Methods: PUT` in place of `*` (with credentials never send `*` here)",
             "Headers: *"),
            ("a star in two lists, and credentials", "list the method in its place: send "
             "`Access-Control-Allow-Methods: PUT` in place of `*` (with credentials never send `*` here) and "
             "`Access-Control-Allow-Headers: authorization, content-type` in place of `*` (with", "`*` beside"),
            ("a star and Authorization", "`Access-Control-Allow-Headers: *, authorization` in place of `*`",
             "never send"),
            ("methods without blanks", "`Access-Control-Allow-Origin: https://shop.test`", "in place of `GET,PUT`"),
            ("two pages that put", "where the server trusts this origin; pages of", "Vary"),
            ("cors/other-origin", "trusts this origin; one that trusts both sends the one that asks; and `Vary: "
             "Origin`, where several origins ask\n", None),
            ("a PUT of another origin",
             "where the server trusts this origin; one that trusts both sends the one that asks\n", "Vary"),
            ("methods without blanks",
             "OPTIONS at https://api.test/x needs a status of 200 to 299, `Access-Control-Allow-Origin: "
             "https://shop.test` in place of `https://other.test`, `Access-Control-Allow-Methods: GET,PUT`, where the "
             "server trusts this origin; one that trusts both sends the one that asks\n", None),
            ("methods without blanks",
             "# in all: the answer to PUT at https://api.test/x needs `Access-Control-Allow-Origin: https://shop.test` "
             "in place of `https://other.test`, where the server trusts this origin; one that trusts both", None),
            ("an origin with a slash, JSON and credentials", "in all: ", "trusts"),
            ("a star for a request with a cookie", "in all: ", "trusts"),
            ("preflight/status", "in all: ", "trusts"),
            ("max-age=0 of a host that was not known", "# note: http://shop.test/x stays http: the "
             "Strict-Transport-Security of shop.test said max-age=0, and that makes no known host\n",
             "was a known host"),
            ("mixed content, and no CORS over https", "# change: ask for https://api.test/x; or serve the page",
             "OPTIONS"),
            ("mixed content, and no CORS over https", "# in all: the answer to GET at https://api.test/x needs "
             "`Access-Control-Allow-Origin: https://shop.test` in place of `https://other.test`, where the server "
             "trusts this origin; one that trusts both sends the one that asks\n", "OPTIONS"),
            ("mixed content, and no preflight over https",
             "# in all: the answer to OPTIONS at https://api.test/x needs a status of 200 to 299, "
             "`Access-Control-Allow-Origin: https://shop.test`, `Access-Control-Allow-Methods: PUT`\n",
             "the answer to PUT"),
            ("mixed content beside a known host", "# change: ask for https://api.shop.test/x", "in all"),
            ("mixed/ip-address",
             "; or give the server a name, let it answer over https under that name, and ask by it\n", "change: give"),
            ("policy/ip-address", "; or give the server a name\n", "change: give"),
            ("a star over Authorization, with credentials", "(preflight/header-star-with-credentials)",
             "does not cover"),
            ("preflight/redirect",
             "a redirect (301) to /x/, which differs by a slash at its end alone, and no", "look for"),
            ("a parent that covers no name below it",
             "# note: http://www.shop.test/x stays http: shop.test is a known host "
             "(HSTS), but without includeSubDomains, which would cover www.shop.test\n", "became"),
            ("such a parent, and no server over http",
             "# why: shop.test is a known host (HSTS), but without includeSubDomains, "
             "which would cover www.shop.test; so http was asked, and the scenario has no server http://www.shop.test: "
             "of this "
             "host it has https://www.shop.test\n", "# note"),
            ("a field without its semicolon",
             "stays http: the Strict-Transport-Security of shop.test is ignored: `max-age=600 "
             "includeSubDomains`\n", None),
            ("a field that came over http",
             "the Strict-Transport-Security of shop.test came over http, where it is ignored\n",
             None),
            ("two fields, of which the first is ignored",
             "# note: http://shop.test/x stays http: the first Strict-Transport-Security of shop.test, which alone "
             "counts of 2, is ignored: `includeSubDomains`\n", "includeSubDomains, max-age"),
            ("a field with a quote that does not close, and no includeSubDomains",
             "the Strict-Transport-Security of shop.test is ignored: `max-age=\"600`, and it has no "
             "includeSubDomains\n", None),
            ("a field with typographic quotes", "is ignored: `max-age=\u201c600\u201d`\n", None),
            ("the same, and includeSubDomains", "is ignored: `max-age=\"600; includeSubDomains`\n", None),
            ("the same of the host itself", "is ignored: `max-age=\"600`\n", None),
            ("one without includeSubDomains that came over http",
             "came over http, where it is ignored, and it has no includeSubDomains\n", None),
            ("two fields, of which the first is max-age=0",
             "stays http: the first Strict-Transport-Security of shop.test, which alone counts of 2, said max-age=0, "
             "and that makes no known host\n", None),
            ("two fields over http, which leads to one of max-age=0",
             "stays http: the Strict-Transport-Security of shop.test said max-age=0, and that makes", None),
            ("the same of a known host", "shop.test was a known host (HSTS) until an answer said max-age=0 in the "
             "first Strict-Transport-Security, which alone counts of 2\n", None),
            ("a script of a known host at a bad port", "(port/bad)", "HSTS"),
            ("a bad port of a known host", "its host is a known one (HSTS), but bad ports are looked at first\n", None),
            ("mixed content of another origin, and a server of http alone",
             "# in all: the answer to OPTIONS at https://api.test/x needs `Access-Control-Allow-Methods: PUT`\n# in "
             "all: the answer to PUT at https://api.test/x needs `Access-Control-Allow-Origin: https://shop.test`\n",
             None),
            ("another origin, and a server of http alone", "# in all: the answer to GET at https://api.test/x needs "
             "`Access-Control-Allow-Origin: https://shop.test`\n", "OPTIONS"),
            ("an image, and a server of http alone", "(head/no-server)", "in all"),
            ("mixed content of another origin, and no server", "# in all: the answer to GET at https://api.test/x "
             "needs `Access-Control-Allow-Origin: https://shop.test`\n", None),
            ("a host beside a known one", "note: http://www.shop.test/x stays http: api.shop.test is a known host "
             "(HSTS), and www.shop.test is neither that nor below it\n", None),
            ("mixed content beside a known host", "so nothing is sent to it\n", "neither"),
            ("a host that is forgotten",
             "note: http://shop.test/x stays http: shop.test was a known host (HSTS) until an answer "
             "said max-age=0\n", None),
            ("an answer behind a preflight",
             "# change: send `Access-Control-Allow-Origin: https://shop.test` with the answer to "
             "PUT\n", None),
            ("a term that has ended", "www.shop.test was a known host (HSTS) until second 10, and it is second 20\n",
             None),
            ("mixed content beside an own URL", "by which all that it loads over http is asked for over https: "
             "http://localhost:3000/x too, which has no https server\n", "add a server"),
            ("mixed content beside an own URL over https", "is asked for over https\n", "no https server"),
            ("mixed content beside two own URLs", "http://localhost:3000/x and http://127.0.0.1/y too, which have no "
             "https server\n", None),
            ("mixed content beside an own URL that is refused", "is asked for over https\n", "no https server"),
            ("a known host, and mixed content",
             "so nothing is sent to it; its host is a known one (HSTS), but mixed content is "
             "looked at first\n", "HSTS does not help"),
            ("a host that is forgotten, below a known one",
             "# note: http://www.shop.test/x became https://www.shop.test/x: shop.test is a known host (HSTS) with its "
             "subdomains, which covers www.shop.test\n", "its host is a known one"),
            ("a host that is known again, below a known one",
             "http://www.shop.test/x became https://www.shop.test/x: its host is a known one (HSTS)\n", "which covers"),
            ("a host below a known one, and mixed content",
             "so nothing is sent to it; shop.test is a known host (HSTS) with its subdomains, which covers "
             "www.shop.test, but mixed content is looked at first\n", "HSTS does not help"),
            ("a page below a known host, mode same-origin",
             "# why: shop.test is a known host (HSTS) with its subdomains, which covers www.shop.test, so the URL "
             "becomes https, which is another origin than http://www.shop.test; and the mode is same-origin\n",
             "its host is"),
            ("mixed/page",
             "; or serve the page with `Content-Security-Policy: upgrade-insecure-requests`, by which all that "
             "it loads over http is asked for over https, and add a server https://api.test\n", "known"),
            ("mixed/ip-address", "`Content-Security-Policy: upgrade-insecure-requests`", "known"),
            ("an own address that is upgraded",
             "in a browser http://127.0.0.1:8080/x may stay http: Chromium and Firefox", None),
            ("a fetch that is upgraded", "became https", "may stay http"),
            ("a URL that is upgraded to no server",
             "# why: the URL became https (upgrade-insecure-requests), and the scenario has "
             "no server https://api.test: of this host it has http://api.test\n", None),
            ("two pages that ask", "in place of `https://other.test` and `Vary: Origin`, where the server trusts this "
             "origin; pages of the other origins go on to get theirs\n", "and `Vary: Origin`, where several"),
            ("a fetch that is upgraded",
             "# note: http://api.test/x became https://api.test/x: a policy of the page has", None),
            ("an image that is upgraded", "became https://img.test/i.png: a secure page asks", None),
            ("same-origin/known-host", "became https://shop.test/x: its host is a known one (HSTS)", None),
            ("mixed/page", "# change: ask for https://api.test/x", "HSTS"),
            ("two that lead to each other", "leads back to https://api.test/x: such a chain has no end", "ask for"),
            ("preflights that lead to each other", "# change: answer OPTIONS at https://api.test/x with 204",
             "ask for"),
            ("a POST that leads to itself as a GET", "(cors/absent-on-redirect)", "no end"),
            ("a report of what is upgraded", "; or let policy 0 say `img-src https://img.test http://img.test`, which "
             "it needs while it only reports: without `http://img.test` once it is enforced, and the page itself has the "
             "https URL, since Firefox asks it about the http one\n", None),
            ("policy/path", "let policy 0 say `connect-src https://api.test/UI/ https://api.test/ui/3.2/`",
             "no word of it"),
            ("mixed content of a host that was known", "; api.test was a known host (HSTS) until second 10, and it is "
             "second 20; HSTS does not help, since known hosts are looked up after", None),
            ("no-verdict/data", "the page's policies do not let it: policy 0 has `img-src 'self'`", None),
            ("a data URL that nothing hinders", "and the page has no policy", None),
            ("no-verdict/websocket", "and the page's policies let it", None),
            ("a WebSocket that is upgraded", "# note: ws://api.test/x became wss://api.test/x: a policy of the page "
             "has `upgrade-insecure-requests`\n# why: no verdict: this engine opens no WebSocket; a browser would, by "
             "`new WebSocket`, and the page's policies let it\n# change: nothing is", "no browser opens"),
            ("a WebSocket that is upgraded, and refused", "no word of it matches wss://api.test:8000/x\n",
             "no browser opens"),
            ("a WebSocket of this machine that is upgraded", "became wss://localhost:8000/x: a policy",
             "may stay http"),
            ("a report of a WebSocket that is upgraded", "has `connect-src wss://api.test`, and no word of it matches "
             "ws://api.test/x: a policy that only reports is asked before", "policy 0 has"),
            ("a report of a WebSocket that is mixed content", "policy 1 (report-only) has `connect-src "
             "wss://api.test`, and no word of it matches ws://api.test/x", "policy 0 has"),
            ("a WebSocket under a report of upgrades", "no browser opens this WebSocket", "became"),
            ("a file", "a browser refuses it too", None),
            ("Authorization that is led on", "# in all: the answer to GET at https://api.test/1, which redirects (307) "
             "to /2, needs `Access-Control-Allow-Origin: https://shop.test`\n# in all: the answer to OPTIONS at "
             "https://api.test/2 needs a status of 200 to 299, `Access-Control-Allow-Origin: https://shop.test`, "
             "`Access-Control-Allow-Headers: authorization`\n# in all: the answer to GET at https://api.test/2 needs "
             "`Access-Control-Allow-Origin: https://shop.test`\n", "Origin: null"),
            ("Authorization that is led on", "# change: answer OPTIONS at https://api.test/1 with 204, ", "null"),
            ("a redirect behind its preflight", "# change: send `Access-Control-Allow-Origin: https://shop.test` with "
             "the answer to PUT at https://api.test/1; or ask for https://api.test/2, and answer OPTIONS at "
             "https://api.test/2 with 204, ", None),
            ("a redirect behind its preflight", "# in all: the answer to OPTIONS at https://api.test/2 needs a status "
             "of 200 to 299, `Access-Control-Allow-Origin: https://shop.test`, `Access-Control-Allow-Methods: PUT`, "
             "`Access-Control-Allow-Headers: content-type`\n", None),
            ("a header that is led away", "# in all: the answer to OPTIONS at https://cdn.test/2, which is asked with "
             "`Origin: null`, needs a status of 200 to 299, `Access-Control-Allow-Origin: *`, "
             "`Access-Control-Allow-Headers: x-a`\n",
             "authorization, x-a`\n# in all: the answer to GET at https://cdn"),
            ("a cookie that is led away", "# in all: the redirect to https://cdn.test/2 leads from one foreign origin "
             "to another, so the request says `Origin: null`, which no server should allow: let the page ask for "
             "https://cdn.test/2 itself, or redirect within one origin\n# in all: then the answer to GET at "
             "https://cdn.test/2 needs `Access-Control-Allow-Origin: https://shop.test`, "
             "`Access-Control-Allow-Credentials: true`\n", "Allow-Origin: null"),
            ("away, further away", "# in all: the answer to GET at https://cdn.test/2, which is asked with "
             "`Origin: null`, needs `Access-Control-Allow-Origin: *` in place of `https://shop.test`\n",
             "Origin: null`, needs `Access-Control-Allow-Origin: https"),
            ("a PUT that is led away", "# in all: the answer to OPTIONS at https://cdn.test/2, which is asked with "
             "`Origin: null`, needs a status of 200 to 299, `Access-Control-Allow-Origin: *` in place of "
             "`https://shop.test`, `Access-Control-Allow-Methods: PUT`\n# in all: the answer to PUT at "
             "https://cdn.test/2, which is asked with `Origin: null`, needs `Access-Control-Allow-Origin: *`", None),
            ("away, further away, with credentials", "# in all: the redirect to https://cdn.test/2 leads from one "
             "foreign origin to another, so the request says `Origin: null`, which no server should allow: let "
             "the page ask for https://cdn.test/2 itself, or redirect within one origin\n# in all: then the answer to "
             "GET at https://cdn.test/2 needs `Access-Control-Allow-Origin: https://shop.test`, "
             "`Access-Control-Allow-Credentials: true`", "Allow-Origin: null"),
            ("a script of another host", "; or let policy 0 say `script-src 'self' 'nonce-r4nd0m'`, and give the "
             "element the nonce `r4nd0m`, made anew for each answer\n", "let policy 0 say `script-src 'self'`"),
            ("a style of default-src 'none'", "# change: let policy 0 say `style-src https://api.test` beside its "
             "`default-src`; or let policy 0 say `style-src 'nonce-r4nd0m'` beside its `default-src`, and give the "
             "element the nonce `r4nd0m`, made anew for each answer\n", None),
            ("a script beside inline ones",
             "# change: let policy 0 say `script-src 'unsafe-inline' https://api.test`\n", "nonce"),
            ("default-src alone: font", "`font-src 'self' https://api.test`", "nonce"),
            ("a PUT that a slash leads on", "; or ask for https://api.test/1/, and answer OPTIONS at "
             "https://api.test/1/ with 204, `Access-Control-Allow-Origin: https://shop.test`", None),
            ("a PUT that is led to another host",
             "# change: ask for https://cdn.test/1; or redirect within one origin\n", None),
            ("a header that is hidden, and read", "# why: the script does not see these headers of the answer: X-Next, "
             "and it reads X-Next\n", None),
            ("a JSON POST that becomes a GET", "# in all: the answer to GET at https://api.test/2 needs",
             "OPTIONS at https://api.test/2"),
            ("a chain of three", "# in all: the answer to PUT at https://api.test/3 needs", None),
            ("a chain of three, with a header at its end", "; and where the script is to see these headers, "
             "`Access-Control-Expose-Headers: X-Page, X-Total` in place of `X-Page` with the answer to PUT at "
             "https://api.test/2\n", None),
            ("a redirect to http behind a preflight", "# in all: the redirect at https://api.test/1 is to lead to "
             "https://api.test/2: a secure page asks for nothing over http\n", None),
            ("a redirect that a policy refuses", "# in all: policy 0 does not let https://cdn.test/2 pass, where the "
             "redirect leads: let policy 0 say `connect-src https://api.test https://cdn.test`; the path", None),
            ("a redirect with a user's name", "is to lead to https://api.test/2, without a user name and a password\n",
             None),
            ("a preflight, and a redirect to a login", ", which redirects (302) to /login, needs `Access-",
             "OPTIONS at https://api.test/login"),
            ("a refused answer with headers", "`Access-Control-Expose-Headers: X-Page, X-Total` in place of `X-Page`\n",
             None),
            ("a policy and a header", "# in all: the answer to OPTIONS at https://api.test/x needs a status of 200 to "
             "299, `Access-Control-Allow-Origin: https://shop.test`, `Access-Control-Allow-Credentials: true`, "
             "`Access-Control-Allow-Methods: PUT`, `Access-Control-Allow-Headers: authorization, content-type`\n"
             "# in all: the answer to PUT at https://api.test/x needs `Access-Control-Allow-Origin: "
             "https://shop.test`, `Access-Control-Allow-Credentials: true`\n", None),
            ("three policies", "# policy: policy 1", "in all: the answer"),
            ("a report of what is read", "# policy: policy 0 (report-only) has `connect-src 'self'`", "in all: the"),
            ("a page that wants to be of one origin, and no headers", "# in all: the answer to GET at "
             "https://api.test/x needs `Access-Control-Allow-Origin: https://shop.test`\n", "OPTIONS"),
            ("one name of two", "; now that to OPTIONS has: a status of 204, Access-Control-Allow-Origin, "
             "Access-Control-Allow-Methods; lacks: authorization in Access-Control-Allow-Headers\n", None),
            ("a 401 with all but the status", "; now that to OPTIONS has: Access-Control-Allow-Origin, "
             "Access-Control-Allow-Methods; lacks: a status of 200 to 299\n", None),
            ("a 500 with lists of others", "; now that to OPTIONS has: Access-Control-Allow-Origin; lacks: a status of "
             "200 to 299, PUT in Access-Control-Allow-Methods, authorization, content-type in "
             "Access-Control-Allow-Headers\n", None),
            ("cors/preflight-not-handled", "# change: ", "lacks: "),
            ("an answer behind a preflight", "# change: ", "lacks: "),
        ]
        for name, part, other in rows:
            lines = [line for _, own in told_of(groups[name]).pieces() for line in own]
            text = "".join(f"{line}\n" for line in lines if line.startswith("#"))
            self.compare(f"{name}: {part} in {text}", part in text, True)
            self.compare(f"{name}: {other} not in {text}", other is not None and other in text, False)

    def test_targets(self) -> None:
        """The page asks first for where a preflight is led, where that is likely the same resource; else OPTIONS is to
        be answered, and of a login nothing is asked for."""
        asked = "http://api.test/orders/7?a=1"
        rows = [
            ("https://api.test/orders/7?a=1", "itself", "differs by its scheme alone"),
            ("/orders/7/?a=1", "itself", "differs by a slash at its end alone"),
            ("/Orders/7?a=1", "itself", "differs by the case of its path alone"),
            ("https://www.api.test/orders/7/?a=1", "itself", "by a slash at its end, its scheme and its host alone"),
            ("http://api.test:8080/orders/7?a=1", "itself", "differs by its port alone"),
            ("http://api.test:80/orders/7/?a=1", "itself", "differs by a slash at its end alone"),
            *((url, "else", "look for a login, or what else redirects before OPTIONS is answered") for url in (
                "/v2/orders/7?a=1", "/", "/orders/7", "/catalog-in/blogin", "/author/7", "/start?next=/orders/8")),
            *((url, "login", "let OPTIONS pass before the login is asked for: answer OPTIONS") for url in (
                "/login", "/user_login.php", "/Account/LogOn", "/UserLogin", "/users/sign_in", "/sign-in/", "/auth",
                "/SSO/x", "/oauth2/authorize", "/session/new", "https://accounts.other.test/",
                "https://login.test/orders/7?a=1", "/start?next=%2Forders%2F7",
                "https://id.test/?u=1&back=http%3A%2F%2Fapi.test%2Forders%2F7%3Fa%3D1")),
        ]
        side_by_side(lambda *row: self.check_target(asked, *row), rows)
        self.check_target("http://auth.test/session/7", "/session/7/", "itself", "differs by a slash")
        self.check_target("http://auth.test/session/7", "/session/8", "else", "look for a login, or what")

    def check_target(self, asked: str, location: str, wanted: Any, part: str) -> None:
        urls = [asked] + ([location] if "://" in location else [])
        servers = [{"origin": one, "rules": [advice_cases.led(location, method="OPTIONS", path=urlsplit(asked)._replace(
            scheme="", netloc="").geturl()), cases.rule()]} for one in dict.fromkeys(map(origin_of, urls))]
        case = case_of(cases.scenario(cases.fetch(asked, **cases.PUT), page="http://shop.test/", servers=servers))
        why = case.explanation
        first = [edit["at"] for edit in why.edits][:1] == ["request"]
        told = "itself" if first else "else" if why.others else "login"
        text = "\n".join(why.lines())
        self.compare(f"{asked}, led to {location}: {text}", (told, part in text), (wanted, True))
        self.compare(f"{text}: the redirect's URL is asked for", "ask for h" in text, wanted != "login")

    def test_slips(self) -> None:
        """A change of a policy with a slip mends that too: nothing is warned of where it is made, and --brief says
        it."""
        for text, command, wanted, part in advice_cases.SLIPS:
            data = cases.policed(text, command)
            told = told_of(data)
            after = advice.made(data, told.cases[0], advice.advised(told.cases[0]))
            self.compare(f"{text}: the change", after["documents"][0]["headers"], [[cases.POLICY, wanted]])
            self.compare(f"{text}: what is warned of still", sorted(lints_of(told_of(after))), [])
            line = verdicts.brief(told)[0]
            self.compare(f"{text}: {part} in {line}", part in line, True)

    def test_once(self) -> None:
        """What is advised is said so, and an answer is read when it is followed once."""
        for name, (data, part) in advice_cases.ONCE.items():
            case = case_of(data)
            text = f"{case.explanation.change}\n"
            self.compare(f"{name}: {part} in {text}", part in text, True)
            for change in [case.explanation.edits, *case.explanation.others]:
                after = case_of(advice.made(data, case, change))
                self.compare(f"{name}: followed once: {change}", after.verdict, "read")
        own = told_of(dict(advice_cases.scripted())["an own address that is upgraded"])
        says = "; in a browser http://127.0.0.1:8080/x may stay http" in verdicts.brief(own)[0]
        self.compare(f"--brief, of an own address that is upgraded: {verdicts.brief(own)}", says, True)

    def test_lengths(self) -> None:
        """A directive is told whole, also one that is replaced, and of a long value that is replaced the beginning."""
        words = " ".join(f"https://a{number}.test" for number in range(100))
        self.compare("a long directive", edits.shortened(words), words)
        told = edits.phrase([edits.policy(0, "img-src", ["*"], before="img-scr " + words)])
        self.compare("a long directive that is replaced", told,
                     f"let policy 0 say `img-src *` in place of `img-scr {words}`")
        told = edits.told({"set": "Vary", "value": "Origin", "replaces": "x" * 100})
        self.compare("a long value that is replaced", told, f"`Vary: Origin` in place of `{'x' * 80}..`")

    def test_notes(self) -> None:
        """What a script may not set, and what is sent in its place."""
        rows = [
            ("Cookie", "a=1", "cors", "the cookies that it keeps"),
            ("Origin", "https://a.test", "cors", "the origin of the page"),
            ("accept-encoding", "gzip", "cors", "the codings that it decodes"),
            ("Sec-Fetch-Mode", "cors", "cors", "itself"),
            ("Proxy-Authorization", "a", "cors", "its proxy"),
            ("Host", "a.test", "cors", "the host of the URL"),
            ("X-HTTP-Method-Override", "put, trace", "cors", "a method that scripts may not use"),
            ("X-HTTP-Method-Override", "PUT", "cors", None),
            ("User-Agent", "curl/8", "cors", "browsers send their own"),
            ("User-Agent", "curl/8", "no-cors", "browsers send their own"),
            ("X-A", "1", "no-cors", "in mode no-cors"),
            ("X-A", "1", "cors", None),
            ("Content-Type", "application/json", "no-cors", "in mode no-cors"),
            ("Content-Type", "text/plain", "no-cors", None),
            ("Range", "bytes=0-", "no-cors", "in mode no-cors"),
        ]
        for name, value, mode, part in rows:
            case = case_of(cases.scenario(cases.fetch(mode=mode, headers=[[name, value]]),
                                          [cases.rule(200, [cases.OK])]))
            told = "; ".join(case.notes)
            self.compare(f"the note on {name}: {value} in mode {mode}: {told}", part in told if part else told == "",
                         True)
            asked = case.asked_headers if case.request else ""
            kept = guards.kept([(name, value)], mode)
            is_sent = name.lower() in asked or value in [own for request, _ in case.chain
                                                         for own in values_of(request, name)]
            self.compare(f"{name}: {value} in mode {mode} is kept", bool(kept), is_sent)
            self.compare(f"{name}: {value} asks for a preflight", guards.unsafe_names(kept), [asked] if asked else [])

    def test_what_stays_behind(self) -> None:
        """Authorization goes on within an origin, and not to another; each is said once."""
        allowed = [["Access-Control-Allow-Origin", "*"], ["Access-Control-Allow-Headers", "authorization"]]
        for where, wanted in (("https://b.test/y", ["Authorization did not go on to https://b.test: a redirect to "
                                                    "another origin drops it"]), ("https://a.test/y", [])):
            led = {"path": "/x", "method": "GET", "status": 302, "headers": [["Location", where], *allowed]}
            data = {"format": 1, "servers": [{"origin": origin, "rules": [led, {"status": 200, "headers": allowed}]}
                                             for origin in ("https://a.test", "https://b.test")],
                    "documents": [{"url": "https://page.test/", "script": [
                        {"fetch": {"url": "https://a.test/x", "headers": [["Authorization", "Bearer 1"]]}}]}]}
            self.compare(f"a redirect to {where}", case_of(data).notes, wanted)

    def test_local_networks(self) -> None:
        """A public page's first request to this machine or a local network is told (Local Network Access, section
        2)."""
        rows = [
            ("https://shop.test/", "http://127.0.0.1:8000/x", "127.0.0.1"),
            ("https://shop.test/", "http://localhost/x", "localhost"),
            ("http://shop.test/", "http://192.168.0.1/x", "192.168.0.1"),
            ("http://203.0.113.5/", "http://10.0.0.1/x", "10.0.0.1"),
            ("http://shop.test/", "http://[fd00::1]/x", "fd00::1"),
            ("https://shop.test/", "https://printer.local/x", "printer.local"),
            ("http://shop.test/", "http://172.32.0.1/x", None), ("http://shop.test/", "http://203.0.113.5/x", None),
            ("http://10.0.0.2/", "http://192.168.0.1/x", None), ("http://localhost/", "http://127.0.0.1/x", None),
            ("https://shop.test/", "http://192.168.0.1/x", None),  # which is mixed content, and not sent
        ]
        for page, url, host in rows:
            told = told_of(cases.scenario([cases.fetch(url)] * 10, page=page))
            notes = [note for case in told.cases for note in case.notes if "local network access" in note]
            says = [f"{host} is this machine or of a local network: " in note for note in notes]
            self.compare(f"{page} asks {url}: {notes}", says, [True] if host else [])

    def test_many_notes(self) -> None:
        """Headers that are dropped stand in one note, by their reasons, and credentials come first."""
        headers = [[name, "1"] for name in ("Sec-A", "Origin", "Sec-B", "Cookie")]
        notes = case_of(cases.scenario(cases.fetch(headers=headers), [cases.rule(200, [cases.OK])])).notes
        form = r"dropped, [^`]*: `Cookie` \(.*\); `Sec-A`, `Sec-B` \(.*\); `Origin` \(.*\)"
        self.compare(f"four headers that are dropped: {notes}", [bool(re.fullmatch(form, note)) for note in notes],
                     [True])

    def test_verdicts(self) -> None:
        rows = [("a WebSocket that is upgraded", "none"), ("a WebSocket of an http page that is upgraded", "none"),
                ("a WebSocket that is upgraded, and refused", "refused"), ("no-verdict/data", "refused"),
                ("a data URL that nothing hinders", "none"), ("no-verdict/coded", "none"),
                ("no-verdict/websocket", "none"), ("mixed/websocket", "refused"),
                ("cors/absent", "refused"), ("seen/opaque", "hidden"), ("seen/hidden-headers", "read"),
                ("request/no-url", "refused")]
        groups = {name: data for name, data, _ in scenarios()}
        for name, verdict in rows:
            told = told_of(groups[name])
            self.compare("the verdict of " + name, told.data()[0]["verdict"], verdict)
            self.compare("no-verdict, of " + name, results.is_met("no-verdict", told.cases[0].result),
                         verdict == "none")
            self.compare("refused, of " + name, results.is_met("refused", told.cases[0].result), verdict == "refused")
        data = told_of(groups["two policies, and one that reports"]).data()[0]
        self.compare("policies in JSON", [(one["policy"], one["enforced"], one["way"]) for one in data["policies"]],
                     [(1, False, "policy/nothing-allowed"), (2, True, "policy/no-word")])
        edit = {"at": "page", "policy": 0, "set": "connect-src", "value": "'self' https://api.test"}
        self.compare("edits in JSON", data["why"]["edits"], [edit])
        told = told_of(groups["a data URL that nothing hinders"])
        self.compare("bin/expect: no-verdict", list(expectations.differences({"load 0": "no-verdict"}, told, [])), [])
        self.compare("bin/expect: refused", len(list(expectations.differences({"load 0": "refused"}, told, []))) > 0,
                     True)
        self.compare("the word no-verdict", results.unknown_word("no-verdict"), None)

    # ---- what is computed here, and by the engine

    def check_exposed(self, path: str, data: Data) -> None:
        """needs.py and the engine say the same of the headers that a script sees of another origin."""
        for case in told_of(data).cases:
            if case.result.type == "cors":
                names = [name for name, _ in case.head.headers if name.lower() not in ("set-cookie", "set-cookie2")]
                hidden = unseen(names, case.get("Access-Control-Expose-Headers"), case.includes)
                self.compare(f"{path}: {case.fetch.name}: the headers that are seen",
                             [name for name, _ in case.result.headers], [one for one in names if one not in hidden])

    def test_test_asks(self) -> None:
        """What a test wants the script to see is among what is to be exposed."""
        data = cases.scenario(cases.fetch(**cases.PUT), [cases.rule(404)])
        told = list(expectations.differences({"fetch 0": {"result": "read", "sees": {"X-Total": "4"}}}, told_of(data),
                                             []))
        is_said = any("`Access-Control-Expose-Headers: X-Total`" in line for line in told)
        self.compare(f"a header that a test wants: {told}", is_said, True)

    def test_vary(self) -> None:
        """Where the lint wants `Vary: Origin` the change that is named has it, and else it has not."""
        groups = dict(advice_cases.scripted())
        for name, data, wanted in [("two pages", groups["two pages that ask"], True),
                                   ("two pages that put", groups["two pages that put"], False),
                                   ("one page", cases.CORS["cors/other-origin"], False)]:
            case = case_of(data)
            after = advice.made(data, case, advice.advised(case))
            without = advice.made(data, case, [edit for edit in advice.advised(case) if edit["set"] != "Vary"])
            self.compare(f"Vary, of {name}: what the lints say with it and without",
                         [lints_in(after), lints_in(without)], [set(), {"cors/vary-missing"} if wanted else set()])
            self.compare(f"Vary, of {name}: is named", after != without, wanted)

    def test_matcher(self) -> None:
        """By CSP 3, of URLs that this engine does not load: those of WebSockets are asked for over http or https."""
        page = "https://shop.test/"
        rows = [
            ("*", "data:,a", False), ("data:", "data:,a", True), ("DATA:", "data:,a", True),
            ("*", "blob:https://shop.test/1", False), ("'self'", "blob:https://shop.test/1", False),
            ("blob:", "blob:https://shop.test/1", True), ("data:", "blob:https://shop.test/1", False),
            ("*", "wss://api.test/x", True), ("wss:", "wss://api.test/x", True), ("ws:", "wss://api.test/x", True),
            ("wss:",
             "ws://api.test/x", False), ("'self'", "wss://shop.test/x", True), ("'self'", "ws://shop.test/x", False),
            ("'self'", "wss://shop.test:8443/x", False), ("wss://api.test", "wss://api.test/x", True),
            ("https://api.test", "wss://api.test/x", True), ("http://api.test", "ws://api.test/x", True),
            ("api.test", "wss://api.test/x", True), ("api.test", "ws://api.test/x", False),
            ("https://api.test", "wss://api.test:8443/", False),
        ]
        for word, url, wanted in rows:
            asked = csp.Asked(url, page, "fetch", "", "", True, False)
            self.compare(f"{word} matches {url}", csp.passes([word], asked), wanted)

    def check_against_engine(self, path: str, data: Data) -> int:
        """csp.py and the engine say the same of each enforced policy, for each fetch of one URL."""
        count = 0
        for case in told_of(data).cases:
            if case.result.is_fault or case.result.number in (1, 2, 3) or len(case.hops) > 1:
                continue
            told = {event.policy for event in case.fetch.of("violation") if event.enforced}
            asked = case.asked_of(Violation(0, True, "", case.upgraded(case.hops[0]), False, False))
            for number, (enforced, policy) in enumerate(case.policies):
                if enforced and case.result.number != 19:
                    name, words = csp.deciding(policy, csp.EFFECTIVE[case.kind])
                    is_violated = name in policy and not csp.passes(words, asked)
                    self.compare(f"{path}: policy {number} of {asked.url}: {words}", number in told, is_violated)
                    count += 1
        return count

    def test_advice_to_its_end(self) -> None:
        played = side_by_side(self.follow, scenarios())
        self.counted(f"{len(played)} scenarios, whose advice was followed to its end; {sum(played)} changes, each of "
                     "which helped")

    def test_first_screens(self) -> None:
        side_by_side(self.check_first_screen, scenarios())

    def test_whole_policies(self) -> None:
        side_by_side(self.check_whole, [*stored(), *((name, data) for name, data, _ in scenarios()), *slips()])

    def test_exposed(self) -> None:
        side_by_side(self.check_exposed, [*gallery(), *((name, data) for name, data, _ in scenarios())])

    def test_against_the_engine(self) -> None:
        matched = side_by_side(self.check_against_engine, [*stored(), *((name, data) for name, data, _ in scenarios())])
        self.counted(f"{sum(matched)} policies of which csp.py and the engine say the same")


def main() -> int:
    return base.main("commands/check_advice", __name__)
