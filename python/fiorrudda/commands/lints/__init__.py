"""Lints: what the headers of a scenario or of a server's answers, or an integrity text, say and surely mean otherwise.
Each is an entry of a table; `bin/why --lints` lists them."""
from __future__ import annotations

import functools
import importlib
import re
from collections import Counter
from itertools import islice
from typing import TYPE_CHECKING, NamedTuple

from fiorrudda.commands import answers
from fiorrudda.commands.lints.entry import ANSWER, COMMAND, DOCUMENT, Finding
from fiorrudda.commands.lints.reading import TOPICS, Ask, Budget, Headers, Options, Status
from fiorrudda.commands.play_text import is_preflight

if TYPE_CHECKING:
    from collections.abc import Iterable, Iterator, Sequence
    from typing import Any

    from fiorrudda.commands.answers import Head
    from fiorrudda.commands.case import Case
    from fiorrudda.commands.json_text import Node
    from fiorrudda.commands.lints.entry import Lint
    from fiorrudda.commands.play_text import Send
    from fiorrudda.commands.scenario import Scenario
    from fiorrudda.commands.shapes import Headed, Object, Path, Thing
    from fiorrudda.commands.told import Told

MOST_FOUND = 200
MOST_ALIKE = 2  # warnings of one slip that are told


@functools.lru_cache(None)
def table_of(topic: str) -> list[Lint]:
    """A table is read where something comes that it looks at: most scenarios need one or two."""
    found: list[Lint] = importlib.import_module("fiorrudda.commands.lints." + topic).TABLE
    return found


def table() -> list[Lint]:
    return [lint for topic in TOPICS for lint in table_of(topic)]


@functools.lru_cache(1024)
def lints_of(topics: tuple[str, ...], kinds: tuple[str, ...], where: str) -> list[Lint]:
    """The lints that look at a thing, in a place."""
    tables = [lint for topic in topics for lint in table_of(topic)]
    return [lint for lint in tables if lint.looks_at.lower() in kinds and where in lint.among]


def found_in(things: Iterable[Thing]) -> Iterator[Finding]:
    """All findings in things; the last ones of a thing where it has no other."""
    for it in things:
        lints = lints_of(it.topics, it.kinds, it.where)
        own = list(told(it, [lint for lint in lints if not lint.is_last]))
        if all(one.lint.is_note for one in own):
            own += told(it, [lint for lint in lints if lint.is_last])
        yield from own


def told(it: Thing, lints: list[Lint]) -> Iterator[Finding]:
    for lint in lints:
        sentence = lint.sentence(it)
        if sentence is not None:
            yield Finding(lint, it, sentence)


def ends(slips: Sequence[object]) -> Iterator[str | None]:
    """How the line of each warning ends, by what slip it is of, or None; and None where it is counted at another's."""
    counts, seen = Counter(slips), Counter[object]()
    for slip in slips:
        seen[slip] += 1
        more = 0 if slip is None else counts[slip] - MOST_ALIKE
        if more < 2 or seen[slip] < MOST_ALIKE:
            yield ""
        else:
            yield f"; {more} more like it" if seen[slip] == MOST_ALIKE else None


def lines() -> list[str]:
    """Each lint in a line, as `bin/why --lints` lists it."""
    return [lint.line() for lint in table()]


# ---- scenarios

class Place:
    """A thing of a scenario, and the path to what it stands in: the list of headers, the raw answer, or the command."""

    def __init__(self, path: Path, things: Iterable[Thing], url: str) -> None:
        self.path = path
        self.things = things
        self.url = url

    def of(self, finding: Finding, root: Node | None) -> int | None:
        """The place of the text, whose tree is `root`; None of a scenario without a text."""
        if root is None:
            return None
        node = root.at(self.path)
        if node.kind in ("string", "number"):
            return node.start
        if node.kind == "object":
            return (node.member("integrity") or node).start
        value = node.items[int(finding.at)].items[0 if finding.is_name else 1]
        if finding.start is not None:
            return value.place_of(finding.start)
        part = finding.text and re.search(rf'(?<![^\s;,"]){re.escape(finding.text)}(?![^\s;,"])', value.text)
        return value.start + (part.start() if part else 0)


def in_scenario(scenario: Scenario) -> list[tuple[int | None, Finding]]:
    """Findings, each with its place in the text; of what a play does not look at the first alone."""
    found = islice(without_repeats(places(scenario, Budget())), MOST_FOUND)
    return [(place.of(finding, scenario.root), finding) for place, finding in found]


def without_repeats(found: Iterator[Place]) -> Iterator[tuple[Place, Finding]]:
    notes = set()
    for place in found:
        for finding in found_in(place.things):
            finding.url = place.url
            if finding.sentence not in notes:
                yield place, finding
            if finding.lint.is_note:
                notes.add(finding.sentence)


def places(scenario: Scenario, budget: Budget) -> Iterator[Place]:
    asks = list(map(asks_of, scenario.documents()))
    for number in scenario.untrusted:
        for ask in asks[number]:
            ask.includes = False  # its origin is not to be named
    known = [(one["host"], one["subdomains"]) for one in scenario.data.get("hsts", []) if one["until"]]
    for number, document in enumerate(scenario.documents()):
        path = ["documents", number]
        if "headers" in document:
            own = asks_of_policies(scenario, number)
            headers = Headers(DOCUMENT, document["headers"], document["url"], own, known=known)
            yield Place([*path, "headers"], headers.things(budget), document["url"])
        yield from command_places(document, path, budget)
    yield from answer_places(scenario, [ask for own in asks for ask in own], budget)


def asks_of(document: Object) -> list[Ask]:
    """What a document's script asks for, as far as its text says it: without what templates put in."""
    return [Ask(document["url"], given["kind"] if kind == "load" else "fetch", given["url"],
                [name for name, _ in given.get("headers", [])], given.get("method"), includes(given))
            for _, kind, given in commands(document["script"]) if "${" not in given["url"]]


def includes(given: Object) -> bool:
    """Whether the options of a fetch or a load ask in mode cors, with credentials."""
    is_of_cors = given.get("mode", "cors") == "cors"
    return given.get("crossorigin") == "use-credentials" or given.get("credentials") == "include" and is_of_cors


def asks_of_policies(scenario: Scenario, number: int) -> list[Ask]:
    """The same and what a test wants the document's policies to let pass."""
    document = scenario.documents()[number]
    return asks_of(document) + [Ask(document["url"], *one) for one in scenario.more_asks.get(number, [])]


def command_places(document: Object, path: Path, budget: Budget) -> Iterator[Place]:
    for own, kind, given in commands(document["script"], [*path, "script"]):
        if given.get("integrity"):
            yield Place(own, [Options(document["url"], given, kind == "load")], given["url"])
        if given.get("headers"):
            headers = Headers(COMMAND, given["headers"], given["url"])
            yield Place([*own, "headers"], headers.things(budget), given["url"])


def commands(script: list[Object], path: Sequence[Any] = ()) -> Iterator[tuple[Path, str, Object]]:
    """The fetches and loads of a script, in the lists of others too: of each the path to it, its kind, and its
    options."""
    for index, command in enumerate(script):
        for key, value in command.items():
            if key in ("fetch", "load"):
                yield [*path, index, key], key, value
            elif key in ("do", "then", "else"):
                yield from commands(value, [*path, index, key])


class Rules:
    """The rules of a server, with the requests that each of them answers: those themselves, and their preflights."""

    def __init__(self, rules: list[Object], asks: list[Ask]) -> None:
        self.first: dict[tuple[str | None, str | None], int] = {}
        for index, rule in enumerate(rules):
            self.first.setdefault((rule.get("method"), rule.get("path")), index)
        self.asks: dict[int | None, list[Ask]] = {}
        self.preflights: dict[int | None, list[Ask]] = {}
        for ask in asks:
            self.asks.setdefault(self.index_of(ask.method, ask.target), []).append(ask)
            self.preflights.setdefault(self.index_of("OPTIONS", ask.target), []).append(ask)

    def index_of(self, method: str, target: str) -> int | None:
        """The first rule that takes a request, or None."""
        keys = [(one, path) for one in (method, None) for path in (target, None)]
        return min((self.first[key] for key in keys if key in self.first), default=None)


def answer_places(scenario: Scenario, asks: list[Ask], budget: Budget) -> Iterator[Place]:
    by_origin: dict[str | None, list[Ask]] = {}
    for ask in asks:
        by_origin.setdefault(ask.origin, []).append(ask)
    for number, server in enumerate(scenario.servers()):
        rules = Rules(server["rules"], by_origin.pop(server["origin"], []))
        for index, rule in enumerate(server["rules"]):
            status, pairs = status_and_headers(rule)
            headers = Headers(ANSWER, pairs, server["origin"] + rule.get("path", "/"), rules.asks.get(index, []),
                              rules.preflights.get(index, []))
            path = ["servers", number, "rules", index]
            yield Place([*path, "raw" if "raw" in rule else "status"], [Status(status, headers.asks)], headers.url)
            if pairs:
                yield Place([*path, "raw" if "raw" in rule else "headers"], headers.things(budget), headers.url)


def status_and_headers(rule: Object) -> tuple[int, Headed]:
    if "raw" not in rule:
        return rule["status"], rule.get("headers", [])
    head = answers.parsed(answers.data_of(rule))[1]
    return (head.status, head.headers) if head else (0, [])


# ---- what real servers answered

class Warned(NamedTuple):
    """A finding in what a real server answered."""
    url: str
    header: str
    sentence: str
    lint: str
    slip: tuple[str, str, str]

    def told(self) -> str:
        return f"{self.url}: {self.header}: {self.sentence} ({self.lint})"


def of_answers(told_play: Told) -> list[Warned]:
    """Each finding in what real servers answered, once."""
    found: dict[Warned, None] = {}
    budget = Budget()
    for case in told_play.cases:
        for request, answer in case.exchanges:
            if answer is not None and answer.head is not None and len(found) < MOST_FOUND:
                headers = headers_of(case, request, answer.head)
                for finding in found_in([Status(answer.head.status, headers.asks), *headers.things(budget)]):
                    one = Warned(request.origin + request.target, finding.header, finding.sentence, finding.lint.name,
                                 finding.slip)
                    found[one] = None
    return list(found)


def headers_of(case: Case, request: Send, head: Head) -> Headers:
    is_named = case.command.options["mode"] == "cors" and case.fetch.document.number not in case.scenario.untrusted
    ask = Ask(case.document["url"], case.kind, case.command.url, [name for name, _ in case.command.headers],
              request.method, case.includes and is_named)
    asks: tuple[list[Ask], list[Ask]] = ([], [ask]) if is_preflight(request) else ([ask], [])
    return Headers(ANSWER, head.headers, request.origin + request.target, *asks, is_real=True)


def noted(told_play: Told) -> list[tuple[str, Any]]:
    """What bin/ask says of its words and of what was answered: pairs of a sentence with its lint's name and of what
    slip it is, each sentence once."""
    own = [finding for case in told_play.cases[:1] for _, finding in in_scenario(case.scenario)]
    found: dict[str, Any] = {f"{finding.sentence} ({finding.lint.name})": finding.slip for finding in own}
    return list({**found, **{one.told(): one.slip for one in of_answers(told_play)}}.items())


def told_once(rows: Sequence[tuple[str, Any]]) -> list[tuple[str, Any]]:
    """The lines that are told, among pairs of a line and its slip: two of many that are alike, and the second says how
    many more there are."""
    found = zip(rows, ends([slip for _, slip in rows]))
    return [(line + end, slip) for (line, slip), end in found if end is not None]
