"""What is to be changed, so that a fetch comes further: of each way all that would do, the best first, as lists of
edits (edits.py). `c` is the case."""
from __future__ import annotations

import base64
import copy
import re
from typing import TYPE_CHECKING
from urllib.parse import unquote, urlsplit

from fiorrudda.commands import answers, chains, csp, edits, guards
from fiorrudda.commands.case import Request, Violation
from fiorrudda.commands.needs import EXPOSE_HEADERS, TOKEN, Needs, merged
from fiorrudda.commands.play_text import is_preflight
from fiorrudda.commands.scenario import joined, origin_of
from fiorrudda.commands.there import there
from fiorrudda.commands.urls import host_of, is_address, is_trustworthy, scheme_of, secure, without_user_info

if TYPE_CHECKING:
    from collections.abc import Callable, Iterable

    from fiorrudda.commands.answers import Head
    from fiorrudda.commands.case import Case
    from fiorrudda.commands.shapes import Edit, Object, Ways

GOOD_PORTS = {"https": (":8443", "", ":8080"), "http": (":8080", "", ":8000")}


def nothing(c: Case) -> Ways:
    return []


# ---- the URL

def over(url: str, c: Case) -> str:
    """A URL as the page may ask for it: over https where it prohibits mixed content."""
    return secure(url) if c.is_secure and scheme_of(url) in ("http", "ws") and not is_trustworthy(url) else url


def ask_for(url: str, c: Case) -> list[Edit]:
    """The page asks for this URL itself. Where the chain has changed the method by then, it asks with that one."""
    found = [edits.request("url", over(url, c))]
    if c.chain and not c.command.is_load and c.method != guards.normalised(c.command.options["method"]):
        found.append(edits.request("method", c.method))
        found += [edits.no_body()] if c.command.options["body"] is not None else []
    return found


def lead_to(url: str, c: Case) -> list[Edit]:
    """What leads to a URL leads to another one: the page, or the last answer that redirects."""
    if not c.is_redirected:
        return [edits.request("url", url)]
    request = c.chain[-1][0]
    return [edits.answer(request.method, c.whole(request), "Location", url)]


def missing_server(c: Case, url: str, rules: list[Object] | None = None) -> list[Edit]:
    """A server for a URL, where the scenario has none."""
    origin = origin_of(url) or ""
    is_there = c.is_net or c.scenario.server_of(origin) is not None
    return [] if is_there else [edits.server(origin, rules or c.scenario.rules_like(origin))]


def ask_secure_or_upgrade(c: Case) -> Ways:
    """Or the page has all its URLs upgraded, which says nothing against a server without https."""
    url = secure(c.url)
    server = missing_server(c, url)
    return [lead_to(url, c) + server, [edits.upgrade_policy(c.unserved), *server]]


def with_scheme(c: Case) -> Ways:
    url = "http://" + c.command.url.strip()
    return [[edits.request("url", over(url, c))]]


def other_port(c: Case) -> Ways:
    """Another port, over https where the URL would become one of https, or may be no other."""
    number = c.scenario.server_of(c.url_origin)
    rules = None if number is None else c.scenario.servers()[number]["rules"]
    url = good_url(c, secure(c.url) if c.is_to_be_secure else c.url)
    return [lead_to(url, c) + missing_server(c, url, rules)]


def good_url(c: Case, url: str) -> str:
    """The URL at a port that browsers do not block: one where the scenario answers, else one where it has no server."""
    parts = urlsplit(url)
    host = parts.netloc.rpartition("@")[2].rpartition(":")[0]
    urls = [parts._replace(netloc=host + port).geturl() for port in GOOD_PORTS[parts.scheme]]
    if c.is_net:
        return next((one for one in urls if c.scenario.route_of(origin_of(one))), urls[0])
    servers = [(one, c.scenario.server_of(origin_of(one))) for one in urls]
    answering = [one for one, server in servers
                 if server is not None and c.scenario.rule_of(server, Request(one, c.method)) is not None]
    return [*answering, *(one for one, server in servers if server is None), *urls][0]


# ---- CORS

def cors(c: Case) -> Ways:
    """All that the answers at this URL need: of a preflight that was refused both, behind what is to be left out of
    the request."""
    return [stray_headers(c) + c.needs.all_edits() if is_preflight(c.request) else c.needs.own_edits()]


def stray_headers(c: Case) -> list[Edit]:
    """The request without the headers of answers that a script has set there."""
    if not c.stray_names:
        return []
    return [without_headers(c, c.stray_names)]


def without_headers(c: Case, names: list[str]) -> Edit:
    left = [list(pair) for pair in c.command.options["headers"] if pair[0].lower() not in names]
    return {**edits.request("headers", left), "gone": names}


def cors_or_without_credentials(c: Case) -> Ways:
    """Or without credentials, where nothing else is missing then, and no test wants them to be sent."""
    needs = copy.copy(c.needs_told)
    needs.includes = False
    is_enough = not c.is_secret_wanted and not (needs.all_edits() if is_preflight(c.request) else needs.own_edits())
    return cors(c) + ([[without_credentials(c)]] if is_enough else [])


def without_credentials(c: Case) -> Edit:
    if c.command.is_load:
        return edits.request("crossorigin", "anonymous")
    return edits.request("credentials", "same-origin")


def cors_or_next_url(c: Case) -> Ways:
    """Or the page asks for the next URL, where it sends no header then that a redirect has taken away."""
    is_same = chains.headers_now(c) == guards.kept(c.command.headers, "cors")
    return cors(c) + (next_itself(c) if is_same else [])


def next_itself(c: Case) -> Ways:
    """The page asks for the next URL, which answers then as CORS wants it, as far as its answers are known."""
    found = next_url(c)
    url = found[0][0]["value"] if found else ""
    own = c.head_at(c.method, url) if origin_of(url) not in (None, c.page_origin) else None
    if own is None:
        return found
    names = guards.unsafe_names(guards.kept(c.command.headers, "cors"))
    needs = Needs(url, c.page_origin, c.includes, c.method, names, c.head_at("OPTIONS", url), own, c.has_listener,
                  c.asked_by_others(url))
    return [found[0] + needs.all_edits()]


def next_url_or_cors(c: Case) -> Ways:
    """The page asks first for a URL that is likely the same resource's. Where the scenario answers nothing there, that
    URL would not do."""
    if c.is_next_unanswered:
        return cors(c)
    return next_url(c) + cors(c) if c.next_differs else cors(c) + next_url(c)


def no_rule(c: Case) -> Ways:
    """A rule for the request, with what CORS wants of it."""
    if c.result.number not in (7, 12) or c.result.is_fault:
        return [[here(c, "status", 200)]]
    found = [] if is_preflight(c.request) else [here(c, "status", 200)]
    return [found + cors(c)[0]]


def here(c: Case, name: str, value: str | int) -> Edit:
    """At the last answer."""
    before = c.get(name)
    return (edits.preflight(c.asked_url, name, value, before) if is_preflight(c.request)
            else edits.answer(c.request.method, c.asked_url, name, value, before))


def origin_null(c: Case) -> Ways:
    """The page asks for the last URL itself, and is allowed there; or `*`, where no credentials go along."""
    names = guards.unsafe_names(guards.kept(c.command.headers, "cors"))
    needs = Needs(c.asked_url, c.page_origin, c.includes, c.method, names, c.preflight_head, c.own_head,
                  c.has_listener, c.varies)
    itself = ask_for(c.asked_url, c) + ([] if origin_of(c.asked_url) == c.page_origin else needs.all_edits())
    star = [{**edit, "value": "*"} if edit["value"] == "null" else edit for edit in cors(c)[0]]
    return ([] if leads_back(c) else [itself]) + ([] if c.includes else [star])


def leads_back(c: Case) -> bool:
    """Whether the last URL was asked for before, or its answer leads back."""
    return c.asked_url in [hop.sent for hop in c.hops[:-1]] or c.comes_back != ""


def method_in_another_case(c: Case) -> Ways:
    """The page's, where it says in small letters what the server lists in capitals; else the server's."""
    page = [edits.request("method", c.same_method), *c.needs_told.all_edits()]
    return ([page] if c.is_page_in_small else []) + cors(c)


def in_cors(c: Case) -> Ways:
    """The page asks in mode cors, or with `crossorigin`, for the last URL; and the server allows it."""
    names = guards.unsafe_names(guards.kept(c.command.headers, "cors"))
    includes = c.includes and not c.command.is_load
    needs = Needs(c.asked_url, c.page_origin, includes, c.method, names, c.preflight_head, c.head,
                  c.has_listener, c.varies)
    mode = edits.request("crossorigin", "anonymous") if c.command.is_load else edits.request("mode", "cors")
    return [(ask_for(c.asked_url, c) if len(c.chain) > 1 else []) + [mode] + needs.all_edits()]


def without_user_agent(c: Case) -> Ways:
    """The browser sends its own; or the server lists it."""
    return [[without_headers(c, ["user-agent"]), *c.needs_told.all_edits()]] + cors(c)


def mode_cors(c: Case) -> Ways:
    return [[edits.request("mode", "cors")]]


def expose(c: Case) -> Ways:
    return [[here(c, EXPOSE_HEADERS, exposing(c.head, c.hidden_names))]]


def expose_too(c: Case, needs: Needs) -> list[Edit]:
    """What is to be exposed besides, so that the script sees the headers of an answer that was refused, or of the one
    to which it leads: `needs` are those of that."""
    names = c.unexposed_names(needs.own)
    value = exposing(needs.own, names)
    before = needs.own.get(EXPOSE_HEADERS) if needs.own else None
    return [edits.answer(needs.method, needs.url, EXPOSE_HEADERS, value, before)] if names else []


def exposing(head: Head | None, names: list[str]) -> str:
    """The value that exposes names besides those that are exposed; the head is None where it is not known."""
    known = {name.lower() for name, _ in head.headers} if head else None
    return merged(head.get(EXPOSE_HEADERS) if head else None, names, True, known)


# ---- redirects

def redirect_within(c: Case) -> Ways:
    """In mode cors; or the redirect stays at the page's origin."""
    parts = urlsplit(c.url)
    return mode_cors(c) + [lead_to(c.page_origin + parts._replace(scheme="", netloc="").geturl(), c)]


def follow(c: Case) -> Ways:
    return [[edits.request("redirect", "follow")]]


def follow_or_next_url(c: Case) -> Ways:
    return follow(c) + next_url(c)


def follow_or_cors(c: Case) -> Ways:
    return follow(c) + mode_cors(c)


def next_url(c: Case) -> Ways:
    """The page asks for the URL to which the answer redirects, where that is another one, does not lead back and is no
    login."""
    url = over(without_user_info(c.next_url), c) if origin_of(c.next_url) else None
    is_other = url is not None and url not in [c.asked_url, *(hop.asked for hop in c.hops)]
    return [ask_for(url or "", c)] if is_other and not c.comes_back and not c.is_next_login else []


def location(value: Callable[[Case], str]) -> Callable[[Case], Ways]:
    """The Location is another."""
    return lambda c: [[here(c, "Location", value(c))]]


def first_location(c: Case) -> str:
    return c.head.values("Location")[0]


def location_without_credentials(c: Case) -> str:
    return without_user_info(c.next_url)


def secure_page(c: Case) -> Ways:
    """The page over https, and what it asks for too."""
    return [[edits.page("url", secure(c.document["url"]))] + ([edits.request("url", secure(c.asked_url))]
                                                             if scheme_of(c.command.url) == "http" else [])]


# ---- policies

def policy_edits(c: Case, words: list[str]) -> list[Edit]:
    """The directive of the violated policy, or where words are added the one that is to stand beside default-src, with
    these words that mean something in it; and where it stands among the words of another, or others among its own,
    since a semicolon is missing, all of these."""
    number = c.violated.policy
    decider, there = c.words_to_change
    name = decider if words == there else csp.written_for(decider, c.violated.directive)
    kept = list(dict.fromkeys(words if name == decider else csp.meaningful(words, name)))
    values = {**c.mended[number], **({decider: kept} if name == decider else {})}
    names, before = c.standing(decider)
    names = [one for one in names if one in values]
    if len(names) < 2:
        return [edits.policy(number, name, kept, name != decider, before if name == decider else None,
                             commas=c.joined_by(decider))]
    found = [edits.policy(number, one, values[one], False, None if at else before, names[at - 1] if at else None)
             for at, one in enumerate(names)]
    return found + ([] if name == decider else [edits.policy(number, name, kept, True)])


def source_of(c: Case) -> str:
    """The word that lets the URL pass, and no more than its origin; less where a test wants some of that kept out."""
    return next((word for word in sources_of(c) if not is_kept_out(c, word)), origin_source_of(c))


def is_kept_out(c: Case, word: str) -> bool:
    """Whether a word lets pass what a test wants to be kept out."""
    return any(csp.EFFECTIVE[asked.kind] == c.violated.directive and csp.matches(word, asked) for asked in c.kept_out)


def sources_of(c: Case) -> list[str]:
    """The words that let the URL pass: by its origin, its folder and its whole path."""
    path = there(re.match("[^?#]*", over(c.policy_url, c))).group().replace(";", "%3B").replace(",", "%2C")
    narrow = [path[:path.rindex("/") + 1], path] if path.count("/") > 2 else []
    return [origin_source_of(c), *filter(csp.HOST.fullmatch, narrow)]


def origin_source_of(c: Case) -> str:
    url = over(c.policy_url, c)
    if origin_of(url) == c.page_origin:
        return "'self'"
    if scheme_of(url) not in ("http", "https", "ws", "wss") or is_address(host_of(url)):
        return scheme_of(url) + ":"
    return scheme_and_host(url)


def scheme_and_host(url: str) -> str:
    """The origin of a URL, that of a WebSocket too."""
    return there(re.match(r"[^:]*://[^/?#]*", origin_of(url) or url)).group()


def filled(words: Iterable[str]) -> list[str]:
    """Without 'none', which stands alone."""
    return [word for word in words if word.lower() != "'none'"]


def own_words(c: Case) -> list[str]:
    """The words that are there, mended where they are warned of, and without 'none'."""
    words = c.words_to_change[1]
    changed = dict(csp.unquoted(words))
    return filled(changed.get(word, word) for word in words)


def with_words(c: Case, words: list[str]) -> list[Edit]:
    """The edits by which words let the element pass: as they are, or with the URL's, or by a nonce."""
    asked = c.policy_asked
    more = words if csp.passes(words, asked) else [*words, source_of(c)]
    if c.kind == "script" and not csp.passes(more, asked):
        return by_nonce(c, words)
    return policy_edits(c, more)


def by_nonce(c: Case, words: list[str], new: str = "r4nd0m") -> list[Edit]:
    """One nonce at the element and in all policies: a new one where there is none."""
    value = c.common_nonce or new
    words = words if value in csp.nonces(words) else [*words, f"'nonce-{value}'"]
    more = policy_edits(c, words) if words != c.directive[1] else []
    return more + ([edits.request("nonce", value)] if value != c.nonce else [])


def nonce(c: Case) -> Ways:
    return [by_nonce(c, own_words(c))]


def add_source(c: Case) -> Ways:
    return [with_words(c, own_words(c))]


def add_source_or_nonce(c: Case) -> Ways:
    """The URL's word; or for a script or a style a nonce, where the policy has none yet, no word that a nonce takes the
    meaning from ('unsafe-inline'), and no test wants others to be kept out, which asks of URLs without elements."""
    words = own_words(c)
    is_of_proofs = csp.nonces(words) or {"'strict-dynamic'", "'unsafe-inline'"}.intersection(map(str.lower, words))
    may_have_one = c.kind in ("script", "style") and not c.kept_out
    is_new = may_have_one and not is_of_proofs and not csp.passes(words, c.policy_asked)
    own = [c.nonce] if csp.NONCE.fullmatch(f"'nonce-{c.nonce}'") else []
    return add_source(c) + ([by_nonce(c, words, *own)] if is_new else [])


def put_quotes(c: Case) -> Ways:
    """And the policy's nonce at the element, where it has another one."""
    words = own_words(c)
    if c.is_before_upgrade:
        return before_upgrade(c)
    is_other = c.kind in ("script", "style") and csp.nonces(words) and not csp.passes(words, c.policy_asked)
    return ([by_nonce(c, words)] if is_other else []) + [with_words(c, words)]


def nonce_or_inserted(c: Case) -> Ways:
    return add_hashes(c) + [by_nonce(c, own_words(c)), [edits.request("parser", False)]]


def nonce_or_source(c: Case) -> Ways:
    return [by_nonce(c, own_words(c))] + add_source(c)


def add_hashes(c: Case) -> Ways:
    """The digests of the element's integrity text; nothing where it has none."""
    tokens = csp.digests(c.command.options["integrity"])
    return [policy_edits(c, own_words(c) + [f"'{token}'" for token in tokens])] if tokens else []


def rewrite(c: Case) -> Ways:
    """The word that comes near, as it was meant. It stays beside that, unless it is no good for anything."""
    words = own_words(c)
    near = c.near_in(words)
    if not near.word or csp.passes(words, c.policy_asked) or is_kept_out(c, near.written):
        return [with_words(c, words)]
    if near.fault in ("path-star", "colon"):
        return [policy_edits(c, [near.written if word == near.word else word for word in words])]
    return [policy_edits(c, [*words, near.written])]


def secure_or_rewrite(c: Case) -> Ways:
    is_of_machine = is_trustworthy(c.policy_url)
    is_plain = scheme_of(c.policy_url) == "http" and not c.violated.redirected and not is_of_machine
    asked = [lead_to(secure(c.policy_url), c)] if is_plain else []
    return asked + ([] if c.is_secure and not is_of_machine else rewrite(c))


def with_https(c: Case) -> Ways:
    """The URL with the scheme that it lacks."""
    url = "https://" + c.command.url.strip()
    return [[edits.request("url", url), *missing_server(c, url)]]


def before_upgrade(c: Case) -> Ways:
    """The page asks over https itself, and the policy lets that; or the policy has the URL as it is asked for."""
    case, words = of_secure(c), own_words(c)
    passes = csp.passes(c.directive[1], case.policy_asked)
    word = scheme_and_host(c.policy_url)
    plain = [edits.while_reporting(policy_edits(c, [*words, word]), word)] if c.is_upgraded_behind else []
    return [lead_secure(c) + ([] if passes else with_words(case, words)), *plain]


def of_secure(c: Case) -> Case:
    """The case of the violation that there would be over https."""
    return c.of_violation(c.violated._replace(url=secure(c.policy_url)))


def lead_secure(c: Case) -> list[Edit]:
    """The page asks for the URL of a violation over https, or the redirect leads there so."""
    url = secure(c.policy_url)
    return leading(c, url) if c.violated.redirected else [edits.request("url", url)]


def leading(c: Case, url: str) -> list[Edit]:
    """The redirect that led to the URL of a violation leads to this one."""
    index = next((number for number, hop in enumerate(c.hops) if hop.asked == c.policy_url), 0)
    request = c.chain[index - 1][0] if 0 < index <= len(c.chain) else None
    return [edits.answer(request.method, c.whole(request), "Location", url)] if request else []


def portless(words: list[str]) -> list[str]:
    """Words without the port 80, which an https URL has not."""
    return [re.sub(r":80(?=/|$)", "", word) for word in words]


def without_port(c: Case) -> Ways:
    return [policy_edits(c, portless(own_words(c)))]


# ---- answers

def header(name: str, value: Callable[[Case], str] | str) -> Callable[[Case], Ways]:
    """A header of the last answer, by a value of the case."""
    return lambda c: [[here(c, name, value(c) if callable(value) else value)]]


def resource_policy(c: Case) -> Ways:
    """For all; for the same site; or the request asks for CORS, and the server allows it."""
    name = "Cross-Origin-Resource-Policy"
    is_site = c.is_same_site() and c.get(name) == "same-origin" and (
        c.page_origin.startswith("https:") or c.request.origin.startswith("http:"))
    return [[here(c, name, "cross-origin")], *([[here(c, name, "same-site")]] if is_site else []), *in_cors(c)]


def resource_policy_or_secure_page(c: Case) -> Ways:
    return [[here(c, "Cross-Origin-Resource-Policy", "cross-origin")], *secure_page(c)]


def integrity(c: Case) -> Ways:
    """The digest anew, and in the policies that pass the element by it alone."""
    found, effective = [edits.request("integrity", c.right_digest)], csp.EFFECTIVE[c.kind]
    asked = c.asked_of(Violation(0, True, effective, c.asked_url, len(c.chain) > 1, False))
    for number, policy in enumerate(c.mended):
        name, own = csp.deciding(policy, effective)
        if name in policy and csp.passes(own, asked) and not csp.passes(own, asked._replace(integrity=c.right_digest)):
            found.append(edits.policy(number, csp.written_for(name, effective), [*own, f"'{c.right_digest}'"]))
    return [found]


def body_or_no_integrity(c: Case) -> Ways:
    """An answer that has a body; one to HEAD never has."""
    body = [] if c.request.method == "HEAD" else [[here(c, "status", 200)]]
    return body + [[edits.request("integrity", "")]]


def right_length(c: Case) -> Ways:
    """The length of what came, where the connection did not break and a length was what said how much is to come."""
    if c.is_net or c.get("Transfer-Encoding") is not None:
        return []
    return [[here(c, "Content-Length", str(len(c.answer.data) - c.head.end))]]


def uncoded(c: Case) -> Ways:
    return [[edits.without(c.request.method, c.asked_url, "Content-Encoding")]]


def greater_limit(c: Case) -> Ways:
    size = len(c.answer.body())
    return [[edits.body_limit(size)]] if c.body_limit < size <= 1048576 else []


def a_server(c: Case) -> Ways:
    return [[edits.server(c.request.origin, c.scenario.rules_like(c.request.origin))]]


def mended_head(c: Case) -> Ways:
    """The head without what makes it none, and the body behind it."""
    head, gap, body = c.answer.data.partition(b"\r\n\r\n")
    first, *lines = head.split(b"\r\n")
    good = [line for line in lines if answers.HEADER_LINE.fullmatch(line) and len(line) < 8192]
    text = b"\r\n".join([first, *good[:answers.MOST_LINES // 2]]) + b"\r\n\r\n" + (body if gap else b"")
    return [[here(c, "head", text.decode("utf-8", "replace"))]]


# ---- faults of a request

def without_user(c: Case) -> Ways:
    """The URL without user name and password, and these as a header."""
    parts = urlsplit(joined(c.command.url, c.document["url"]))
    user = f"{unquote(parts.username or '')}:{unquote(parts.password or '')}"
    secret = "Basic " + base64.b64encode(user.encode("utf-8")).decode("ascii")
    headers = [*map(list, c.command.options["headers"]), ["Authorization", secret]]
    return [[edits.request("url", without_user_info(parts.geturl())), edits.request("headers", headers)]]


def token_method(c: Case) -> Ways:
    return [[edits.request("method", "".join(TOKEN.findall(c.command.options["method"])) or "GET")]]


def plain_method(c: Case) -> Ways:
    return [[edits.request("method", c.plain_method)]]


def post_or_no_body(c: Case) -> Ways:
    return [[edits.request("method", "POST")], [edits.no_body()]]


def mended_header(c: Case) -> Ways:
    """The list of headers, each name and value mended, without those of which nothing is left."""
    headers = [["".join(TOKEN.findall(name)), re.sub("[\0\r\n]+", " ", value)]
               for name, value in c.command.options["headers"]]
    return [[edits.request("headers", [pair for pair in headers if pair[0]])]]


def secure_socket(c: Case) -> Ways:
    return [[edits.request("url", secure(c.url))]]
