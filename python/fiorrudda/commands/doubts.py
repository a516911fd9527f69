"""Warnings: what a scenario may say, and surely is meant otherwise. Each is a place of the text and a sentence. All of
them take time in proportion to the scenario and its play, however many rules, keys or origins these have."""
from __future__ import annotations

from collections import namedtuple
from typing import TYPE_CHECKING
from urllib.parse import urlsplit

from fiorrudda.commands import lints, slips, verdicts
from fiorrudda.commands.there import there
from fiorrudda.commands.urls import host_of, is_trustworthy

if TYPE_CHECKING:
    from collections.abc import Iterator
    from typing import Any

    from fiorrudda.commands.json_text import Node
    from fiorrudda.commands.lints.entry import Finding
    from fiorrudda.commands.play_text import Fetch, Play
    from fiorrudda.commands.scenario import Scenario
    from fiorrudda.commands.shapes import Object

METHODS = ("DELETE", "GET", "HEAD", "OPTIONS", "POST", "PUT")


# A place of the text, what is said of it, and that in data: the sentence alone, and of a lint its name, the header and
# the URL whose header it is; and of a lint of what slip it is.
Doubt = namedtuple("Doubt", "at told sentence lint header url slip", defaults=[None])


def plain(at: int, sentence: str) -> Doubt:
    return Doubt(at, sentence, sentence, None, None, None)


def doubts(scenario: Scenario, play: Play | None, is_net: bool) -> list[Doubt]:
    """All of them, by their places; of one place in the order of the lints. `play` is None where it was not played."""
    own = sorted(set(of_scenario(scenario, play, is_net)))
    found = [plain(*one) for one in own] + [of_finding(*one) for one in lints.in_scenario(scenario)]
    return sorted(found, key=lambda one: int(one.at))


def of_finding(at: Any, finding: Finding) -> Doubt:
    return Doubt(at, finding.told(), finding.sentence, finding.lint.name, finding.header, finding.url, finding.slip)


def of_scenario(scenario: Scenario, play: Play | None, is_net: bool) -> list[tuple[int, str]]:
    """Pairs of a place and a sentence."""
    found = [*double_keys(there(scenario.root)), *pages_of_known_hosts(scenario), *attributes_of_cookies(scenario)]
    if not is_net:
        found += rules_without_use(scenario)
        found += servers_without_use(scenario)
    if play is not None:
        found += hosts_as_paths(scenario, play)
        found += origins_without_server(scenario, play, is_net)
        found += cookies_elsewhere(scenario, play)
        if not is_net:
            found += rules_beside(scenario, play)
    return found


def nodes_of(root: Node) -> Iterator[Node]:
    """All nodes of a tree, in no order."""
    left = [root]
    while left:
        node = left.pop()
        yield node
        left += node.items
        left += [value for _, value in node.members]


def double_keys(root: Node) -> Iterator[tuple[int, str]]:
    for node in nodes_of(root):
        seen = set()
        for key, _ in node.members:
            if key.value in seen:
                yield key.start, f'the key "{key.value}" stands twice in this object: the last one counts'
            seen.add(key.value)


# ---- servers and rules

def servers_without_use(scenario: Scenario) -> Iterator[tuple[int, str]]:
    """Those behind another of the same origin."""
    nodes = there(scenario.root).member("servers")
    for index, server in enumerate(scenario.servers()):
        if scenario.server_of(server["origin"]) != index:
            yield there(nodes).items[index].start, (
                f"another server of {server['origin']} stands before this one, and answers all its requests")


def rule_nodes(scenario: Scenario, server: int) -> list[Node]:
    """The rules of a server, by its number, as they stand in the text."""
    return there(there(there(there(scenario.root).member("servers")).items[server]).member("rules")).items


def rules_without_use(scenario: Scenario) -> Iterator[tuple[int, str]]:
    """Those that no request can meet: behind a rule that takes all that they take, or of no request's form."""
    for number, server in enumerate(scenario.servers()):
        yield from without_use(server["rules"], rule_nodes(scenario, number))


def without_use(rules: list[Object], nodes: list[Node]) -> Iterator[tuple[int, str]]:
    # the number of the first rule with this method and this path; None is any
    first: dict[tuple[str | None, str | None], int] = {}
    for index, rule in enumerate(rules):
        method, path = rule.get("method"), rule.get("path")
        wider = [first[key] for key in {(method, path), (method, None), (None, path), (None, None)} if key in first]
        sentence = taken_by(min(wider)) if wider else no_use(rule.get("path", "/"), rule.get("method", "GET"))
        if sentence:
            yield nodes[index].start, sentence
        first.setdefault((method, path), index)


def taken_by(index: int) -> str:
    return f"rule {index} of this server takes all requests of this rule, which stands behind it"


def target_of(path: str) -> str:
    """The request target that was meant by a path without a slash at its beginning: of a whole URL its own."""
    if "://" not in path:
        return "/" + path
    return "/" + path.partition("://")[2].partition("#")[0].partition("/")[2]


def no_use(path: str, method: str) -> str | None:
    """Why no request has this path or this method; None where one may."""
    if not path.startswith("/"):
        return f'no request has the path "{path}": write "{target_of(path)}"'
    if "#" in path:
        before, _, _ = path.partition("#")
        return f'no request has a # in its path: write "{before}"'
    if method != method.upper() and method.upper() in METHODS:
        return f'no request has the method "{method}": write "{method.upper()}"'
    return None


def rules_beside(scenario: Scenario, play: Play) -> Iterator[tuple[int, str]]:
    """A rule that no request met, where a request to its server met none."""
    met: set[tuple[int, int]] = set()
    unmet: dict[int, dict[str, str]] = {}
    for request in play.requests():
        server = scenario.server_of(request.origin)
        index = None if server is None else scenario.rule_of(server, request)
        if server is not None and index is not None:
            met.add((server, index))
        elif server is not None:
            unmet.setdefault(server, {}).setdefault(folded(request.target), f"{request.method} {request.target}")
    for server, targets in unmet.items():
        yield from beside(scenario, server, targets, met)


def beside(scenario: Scenario, server: int, targets: dict[str, str],
           met: set[tuple[int, int]]) -> Iterator[tuple[int, str]]:
    """A server's rules that were not met, and whose path is nearly the target of a request."""
    nodes = rule_nodes(scenario, server)
    for index, rule in enumerate(scenario.servers()[server]["rules"]):
        target = targets.get(folded(rule.get("path", "")))
        if target is not None and (server, index) not in met:
            yield nodes[index].start, f"no request of this play meets this rule, and no rule takes {target}"


def folded(path: str) -> str:
    """A path without what is easily overlooked: a slash at the end, the query, the case of letters."""
    return path.partition("?")[0].rstrip("/").lower()


# ---- origins

def pages_of_known_hosts(scenario: Scenario) -> Iterator[tuple[int, str]]:
    """Documents over http whose host is a known one from the beginning."""
    hosts, now = scenario.data.get("hsts", []), scenario.data.get("now", 0)
    exact = {one["host"] for one in hosts if one["until"] > now}
    wide = {one["host"] for one in hosts if one["until"] > now and one["subdomains"]}
    for node, document in zip(there(there(scenario.root).member("documents")).items, scenario.documents()):
        labels = host_of(document["url"]).split(".")
        above = {".".join(labels[number:]) for number in range(1, len(labels))}
        is_known = ".".join(labels) in exact or above & wide
        if is_known and document["url"].lower().startswith("http:") and not is_trustworthy(document["url"]):
            yield there(node.member("url")).start, (
                "the host of this page is a known one (HSTS), and a browser opens it over https: write "
                f"\"https{document['url'][4:]}\"")


def origins_without_server(scenario: Scenario, play: Play, is_net: bool) -> Iterator[tuple[int, str]]:
    known = ([origin for origin, _ in scenario.data.get("routes", [])] if is_net
             else [one["origin"] for one in scenario.servers()])
    by_host = {host_of(one): one for one in reversed(known)}
    by_place = {urlsplit(one).netloc: one for one in reversed(known)}
    what = "route" if is_net else "server"
    told = set(known)
    for fetch in play.fetches():
        for request in fetch.of("send"):
            if request.origin not in told:
                told.add(request.origin)
                near = by_place.get(urlsplit(request.origin).netloc) or by_host.get(host_of(request.origin))
                more = ": there is one of " + near if near else ""
                name = verdicts.name_of(fetch, len(play.documents) > 1)
                yield place_of(scenario, fetch), f"{name} asks {request.origin}, and no {what} is of this origin{more}"


def hosts_as_paths(scenario: Scenario, play: Play) -> Iterator[tuple[int, str]]:
    """URLs without a scheme that begin with a host: they are paths of the page."""
    for fetch in play.fetches():
        sentence = slips.of_url(fetch.command.options["url"])
        if sentence:
            yield place_of(scenario, fetch), sentence


def place_of(scenario: Scenario, fetch: Fetch) -> int:
    node = there(scenario.root).at(fetch.command.path)
    return (node.member("url") or node).start


def attributes_of_cookies(scenario: Scenario) -> Iterator[tuple[int, str]]:
    """Cookies as Set-Cookie has them, with what browsers keep to themselves."""
    node = there(scenario.root).member("cookies")
    for index, (_, value) in enumerate(scenario.data.get("cookies", [])):
        sentence = slips.of_cookies(value)
        if sentence:
            yield there(node).items[index].start, sentence


def cookies_elsewhere(scenario: Scenario, play: Play) -> Iterator[tuple[int, str]]:
    """A cookie of an origin that is not asked, where another origin of its host is."""
    asked = {request.origin for request in play.requests()}
    by_host = {host_of(one): one for one in sorted(asked, reverse=True)}
    node = there(scenario.root).member("cookies")
    for index, (origin, _) in enumerate(scenario.data.get("cookies", [])):
        near = by_host.get(host_of(origin))
        if origin not in asked and near:
            yield there(node).items[index].start, (
                f"this cookie is of {origin}, and the requests go to {near}: a scenario's cookies have a scheme and a "
                "port")
