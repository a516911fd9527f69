"""What is known of one fetch that was played: the command, the requests with their answers, and the result. The table
of explanations asks it, and its texts name its parts."""
from __future__ import annotations

import base64
import copy
import hashlib
import re
from functools import cached_property
from typing import TYPE_CHECKING, NamedTuple
from urllib.parse import urlsplit

from fiorrudda.commands import answers, csp, edits, guards, results
from fiorrudda.commands.known_hosts import AT_FIRST, KNOWN_ITSELF
from fiorrudda.commands.needs import (ALLOW_CREDENTIALS, ALLOW_HEADERS, ALLOW_METHODS, ALLOW_ORIGIN, EXPOSE_HEADERS,
                                      KEPT_METHODS, REDIRECTS, TOKEN, Needs, each_once, items_of, missed, unseen)
from fiorrudda.commands.play_text import Call, Send, Violated, header_of, is_preflight
from fiorrudda.commands.scenario import joined, origin_of
from fiorrudda.commands.there import there
from fiorrudda.commands.urls import (comes_from, differences, host_of, is_address, is_same_site, is_trustworthy,
                                     login_words, scheme_of, secure)
from fiorrudda.names import UPGRADEABLE_LOADS

if TYPE_CHECKING:
    from collections.abc import Iterator

    from fiorrudda.commands.answers import Answer, Head
    from fiorrudda.commands.codings import Cut
    from fiorrudda.commands.csp import Asked, Near
    from fiorrudda.commands.explanations import Explanation, PolicyExplanation
    from fiorrudda.commands.play_text import Fetch
    from fiorrudda.commands.scenario import Scenario
    from fiorrudda.commands.shapes import AnyRequest, Object, Pairs, Policies, Sent

ALGORITHMS = ("sha256", "sha384", "sha512")
DIGEST = re.compile(r"(?:^|\s)(sha256|sha384|sha512)-([A-Za-z0-9+/_-]+={0,2})(?=[\s?]|$)")
CHUNK_LINE = re.compile(rb"([0-9a-fA-F]{1,16})[^\r\n]*\r\n")
MOST_REDIRECTS = 20
# As browsers tell it of a fetch.
REFUSES = "in Chromium net::ERR_RESPONSE_HEADERS_MULTIPLE_CONTENT_LENGTH, in Firefox a NetworkError; "
GZIP = b"\x1f\x8b"
ARCHIVES = ("gzip", "/octet-stream", "tgz")  # ends of the types of files that are to stay packed
# Schemes that a browser loads by itself, and this engine does not.
LOCAL = ("data", "blob")
SOCKETS = ("ws", "wss")
# What made a URL one of https, in words.
MOST_UNSERVED = 3
CAUSES = {"hsts": "HSTS", "policy": "upgrade-insecure-requests", "mixed": "mixed content"}


class Violation(NamedTuple):
    """A policy that a request violates: its number and disposition, the effective directive, the URL that it was asked
    of, and whether a redirect led there, or it was that of the response."""

    policy: int
    enforced: bool
    directive: str
    url: str
    redirected: bool
    at_response: bool


class Hop:
    """One URL of a chain: as it was asked for, as it was sent (None where nothing was), the origin that was asked at
    all, and whether its host was a known one."""

    def __init__(self, asked: str) -> None:
        self.asked = asked
        self.sent: str | None = None
        self.origin: str | None = None
        self.is_known = False


class Request:
    """One that was not sent, as far as the rules of a scripted server look at it."""

    kind = "send"

    def __init__(self, url: str, method: str) -> None:
        parts = urlsplit(url)
        self.origin = origin_of(url) or ""
        self.target = (parts.path or "/") + ("?" + parts.query if parts.query else "")
        self.method = method
        self.headers: Pairs = []


class Case:
    """`exchanges` are pairs of a request and its answer, in order; the answer is None where it is not known. `is_net`
    says whether real servers answered, "direct" whether they were asked by their own names, over TLS where the URL says
    so."""

    explanation: Explanation | None  # told.py gives these three
    policies_told: list[PolicyExplanation]
    notes: list[str]

    def __init__(self, scenario: Scenario, fetch: Fetch, exchanges: list[Sent], is_net: bool | str = False) -> None:
        self.scenario = scenario
        self.fetch = fetch
        self.command = fetch.command
        self.result = fetch.result
        self.is_net = bool(is_net)
        self.is_direct = is_net == "direct"
        self.exchanges = exchanges
        # What is not there is asked for by nobody: the conditions of the ways see to it.
        self.request: Send = exchanges[-1][0] if exchanges else None  # type: ignore[assignment]
        self.answer: Answer = exchanges[-1][1] if exchanges else None  # type: ignore[assignment]
        self.chain = [(request, answer) for request, answer in exchanges if not is_preflight(request)]
        self.document = scenario.documents()[fetch.document.number]
        self.about: Violation | None = None
        self.plain_reasons: list[str] = []  # why the URLs of the chain stay http, as known_hosts.py has it
        self.ended = ""  # that the host of one that was refused as mixed content was a known one, and until when
        self.known_by: list[str] = []  # which known hosts theirs are, or are below
        self.asked_by_test: list[str] = []  # the headers that a test wants the script to see
        self.is_secret_wanted = False  # whether a test wants a cookie or Authorization to be sent
        self.kept_out: list[csp.Asked] = []  # what a test wants the page's policies to be violated by, as csp.Asked

    # ---- the page and the request

    @property
    def page_origin(self) -> str:
        return origin_of(self.document["url"]) or ""

    @property
    def top_origin(self) -> str:
        return self.scenario.top_of(self.document)

    @property
    def is_embedded(self) -> bool:
        return self.top_origin != self.page_origin

    def is_of_other_site(self, origin: str) -> bool:
        """Whether an origin is of another site than the page, or than the one at the top."""
        return not all(is_same_site(one, origin) for one in (self.page_origin, self.top_origin))

    @property
    def is_secure(self) -> bool:
        """Whether the page prohibits mixed content."""
        return is_trustworthy(self.page_origin) or is_trustworthy(self.top_origin)

    @property
    def origin(self) -> str:
        """As the request says it."""
        return (header_of(self.request, "Origin") if self.request else None) or self.page_origin

    @property
    def has_listener(self) -> bool:
        """Whether there is an upload listener, which asks for a preflight."""
        return self.command.options.get("upload", False)

    @property
    def includes(self) -> bool:
        return self.command.includes()

    @property
    def method(self) -> str:
        """The request's own method, as the preflight asks for it."""
        asked = header_of(self.request, "Access-Control-Request-Method") if self.request else None
        return asked or (self.request.method if self.request else self.command.options["method"])

    @property
    def refused_before(self) -> bool:
        """Whether nothing was sent to the URL that is refused."""
        return 1 <= self.result.number <= 6 and not self.result.is_fault

    @property
    def is_redirected(self) -> bool:
        return len(self.chain) > 1 or (self.refused_before and bool(self.chain))

    @property
    def is_of_chain(self) -> bool:
        """Whether redirects lead to it or on from it, so that its answers are told by their URLs."""
        head = self.own_head if self.request else None
        is_behind = bool(self.chain) and is_preflight(self.request)
        return self.is_redirected or is_behind or head is not None and head.status in REDIRECTS

    @property
    def location(self) -> str | None:
        return self.head.get("Location") if self.head else None

    @property
    def whereto(self) -> str:
        """Where the answer redirects to, as it says it."""
        return self.location if self.location is not None else "nowhere (it has no Location)"

    @property
    def next_url(self) -> str:
        """The whole URL of the Location."""
        return joined(self.location, self.asked_url) if self.location else ""

    @cached_property
    def new_login_words(self) -> set[str]:
        """The words of a login that the URL of the Location has, and the one that was asked for has not."""
        return login_words(self.next_url) - login_words(self.asked_url) if origin_of(self.next_url) else set()

    @property
    def next_differs(self) -> str:
        """How little that URL differs from the one that was asked for; an empty text where it is more."""
        is_known = origin_of(self.next_url) and not self.new_login_words
        found = differences(self.asked_url, self.next_url) if is_known else None
        return f", which differs by {edits.listed(found)} alone" if found else ""

    @property
    def is_next_login(self) -> bool:
        """Whether the redirect leads to a login, as far as its URL says so."""
        is_known = origin_of(self.next_url) and not self.next_differs
        return bool(is_known and (self.new_login_words or comes_from(self.next_url, self.asked_url)))

    @property
    def no_cookie(self) -> str:
        """Why a preflight is led to a login."""
        return "; a preflight never carries a cookie or Authorization" if self.is_next_login else ""

    @property
    def before_login(self) -> str:
        return "let OPTIONS pass before the login is asked for: " if self.is_next_login else ""

    @property
    def look_for(self) -> str:
        """Why a server redirects, where that is not seen."""
        if self.next_differs:
            return ""
        if is_preflight(self.request):
            return "" if self.is_next_login else "; look for a login, or what else redirects before OPTIONS is answered"
        return "; it leads to a login: look whether the cookie that this waits for is sent" if self.is_next_login else (
            "; look for a login")

    @property
    def url(self) -> str:
        """The URL that the result is about."""
        if self.result.number == 4 and self.refused_before:
            return self.upgraded(self.hops[-1])
        if self.refused_before and self.chain:
            return joined(self.location or "", self.asked_url)
        return self.asked_url

    @property
    def asked_url(self) -> str:
        """That of the last request, or of the command where there is none."""
        if self.request is None:
            return joined(self.command.url, self.document["url"])
        return self.request.origin + self.request.target

    @property
    def url_origin(self) -> str:
        return origin_of(self.url) or self.url

    @property
    def where(self) -> str:
        return " (where the redirect leads)" if self.is_redirected and self.refused_before else ""

    @property
    def scheme(self) -> str:
        return scheme_of(self.url)

    @property
    def port(self) -> int | None:
        try:
            return urlsplit(self.url).port
        except ValueError:
            return None

    @property
    def is_known_host(self) -> bool:
        """Whether the host of the URL is a known one, and the page would be of its origin but for the scheme."""
        return self.hops[-1].is_known and origin_of(self.hops[-1].asked) == self.page_origin

    # ---- the URLs of the chain

    @cached_property
    def hops(self) -> list[Hop]:
        hops, left = [Hop(joined(self.command.url, self.document["url"]))], iter(self.exchanges)
        for event in self.fetch.events:
            if isinstance(event, Call) and event.op == "match":
                hops[-1].is_known |= event.reply == "yes"
            if isinstance(event, Send):
                request, answer = next(left, (event, None))
                hops[-1].origin = request.origin
                if not is_preflight(request):
                    hops[-1].sent = self.whole(request)
                    if self.is_followed(answer):
                        hops.append(Hop(joined(there(there(answer).head).get("Location") or "", hops[-1].sent)))
        is_led = hops[-1].origin is not None or self.refused_before or len(hops) == 1
        return hops if is_led else hops[:-1]

    def is_followed(self, answer: Answer | None) -> bool:
        head = answer.head if answer else None
        # an empty Location leads to its own URL
        is_redirect = head is not None and head.status in REDIRECTS and head.get("Location") is not None
        return is_redirect and self.command.options["redirect"] == "follow"

    def upgrade_of(self, hop: Hop) -> str | None:
        """What made the URL of a hop one of https: hsts, policy or mixed; None where nothing did."""
        if self.is_plain_socket:  # it is asked for over http, so the policy upgrades it
            return "policy" if self.upgrades_all else None
        if scheme_of(hop.asked) != "http" or (hop.origin or "https:").startswith("http:"):
            return None
        if hop.is_known:
            return "hsts"
        if hop.origin is None and (self.result.is_fault or self.result.number in (1, 3)):
            return None
        if self.upgrades_all:
            return "policy"
        is_upgradeable = self.kind in UPGRADEABLE_LOADS and self.is_secure and not is_trustworthy(hop.asked)
        return "mixed" if is_upgradeable and not is_address(host_of(hop.asked)) else None

    @property
    def upgrades_all(self) -> bool:
        """Whether a policy of the page has all URLs upgraded."""
        return any(enforced and "upgrade-insecure-requests" in policy for enforced, policy in self.policies)

    def upgraded(self, hop: Hop) -> str:
        """The URL of a hop as enforced policies are asked of it."""
        return secure(hop.asked) if self.upgrade_of(hop) in ("policy", "mixed") else hop.asked

    @property
    def is_upgradeable_address(self) -> bool:
        """Whether mixed content would upgrade it, were its host no IP address."""
        return self.kind in UPGRADEABLE_LOADS and is_address(host_of(self.url))

    # ---- the answer

    @property
    def head(self) -> Head:
        return self.answer.head if self.answer else None  # type: ignore[return-value]  # as `answer`

    @property
    def status(self) -> int:
        return self.head.status if self.head else 0

    @property
    def is_redirect(self) -> bool:
        return self.status in REDIRECTS

    def get(self, name: str) -> str | None:
        return self.head.get(name) if self.head else None

    @property
    def allowed_origin(self) -> str | None:
        return self.get(ALLOW_ORIGIN)

    @property
    def allows(self) -> str:
        """What the answer allows, as a verb has it."""
        return "has no " + ALLOW_ORIGIN if self.allowed_origin is None else f"allows `{self.allowed_origin}`"

    @property
    def allowed_credentials(self) -> str | None:
        return self.get(ALLOW_CREDENTIALS)

    @property
    def has_no_rule(self) -> bool:
        """Whether a server of the scenario answered without a rule."""
        return self.answer is not None and self.answer.server is not None and self.answer.rule is None

    @property
    def is_host_as_path(self) -> bool:
        """Whether the page's own server is asked, since the URL begins with a host and lacks its scheme."""
        from fiorrudda.commands import slips  # where no server answers
        return self.request.origin == self.page_origin and slips.of_url(self.command.url) is not None

    @property
    def nearest_rule(self) -> str:
        """A sentence on the rules that the server has."""
        told = self.scenario.told_rules(there(self.answer.server))
        is_twice = self.request.origin in self.scenario.origins_twice
        return ("its rules are for " + ", ".join(told) if told else "it has no rules") + (
            ", and another server of this origin, which is never asked, stands behind it" if is_twice else "")

    @property
    def or_path(self) -> str:
        """That another path would do, where the server has a rule for this method there."""
        rules = self.scenario.servers()[there(self.answer.server)]["rules"]
        is_there = any(rule.get("method", self.request.method) == self.request.method for rule in rules)
        return "; or ask for a path that has one" if is_there else ""

    @cached_property
    def needs(self) -> Needs:
        """What CORS wants of the answers at the URL of the last request."""
        is_asked = is_preflight(self.request)
        names = [name for name in self.asked_names if name not in self.stray_names] if is_asked else []
        is_sure = is_asked and (self.has_listener or not self.stray_names)
        return Needs(self.asked_url, self.origin, self.includes, self.method, names,
                     self.head if is_asked else None, self.own_head, is_sure, self.varies)

    @property
    def lacking_behind(self) -> list[str]:
        """What CORS will want of the answers to a request that was not sent yet: where https is asked for in the place
        of mixed content, a policy lets the URL pass, the mode is cors, or a server is added. That one answers as
        another one of its host; of real servers it is not known how they do."""
        url, options = self.unsent_url, self.command.options
        is_of_cors = self.would_be_cors and origin_of(url) not in (None, self.page_origin)
        is_unknown = self.result.number != 3 and self.scenario.server_like(origin_of(url) or "") is None
        if self.is_redirected or not is_of_cors or is_unknown and not self.is_net:
            return []
        method = guards.normalised(options["method"])
        names = guards.unsafe_names(guards.kept(self.command.headers, "cors"))
        if self.is_net:
            return Needs(url, self.page_origin, self.includes, method, names, always=self.has_listener,
                         varies=True).lines()
        asked, own = (answers.scripted_like(self.scenario, Request(url, one)).head for one in ("OPTIONS", method))
        needs = Needs(url, self.page_origin, self.includes, method, names, asked, own, self.has_listener)
        return needs.lacking() if own else []

    @property
    def unsent_url(self) -> str:
        """The URL as it will be asked for."""
        return {3: secure(self.url), 4: self.url}.get(self.result.number, self.asked_url)

    @property
    def would_be_cors(self) -> bool:
        """Whether it is in mode cors, or is to be."""
        return self.command.options["mode"] == "cors" or self.result.number == 5

    @property
    def varies(self) -> bool:
        """Whether pages of other origins ask for the URL of the last request too, or may."""
        return self.asked_by_others(self.whole(self.request))

    def asked_by_others(self, url: str) -> bool:
        """The same of a URL."""
        if self.is_net or len(self.scenario.documents()) < 2:
            return self.is_net
        origin = origin_of(url) or ""
        return len(self.scenario.askers.get((origin, url[len(origin):]), ())) > 1

    @property
    def and_others(self) -> str:
        """That an origin which is allowed now may ask on."""
        return ("; pages of the other origins go on to get theirs" if self.varies
                else "; one that trusts both sends the one that asks")

    @property
    def the_answer(self) -> str:
        return "the answer to the preflight" if is_preflight(self.request) else "the answer"

    @property
    def and_vary(self) -> str:
        is_said = self.varies or self.method not in KEPT_METHODS
        return "" if is_said else "; and `Vary: Origin`, where several origins ask"

    @property
    def preflight_head(self) -> Head | None:
        """The head that answered a preflight at this URL, or would by the scenario's servers; None where it is not
        known."""
        heads = [there(answer).head for request, answer in self.exchanges
                 if is_preflight(request) and self.whole(request) == self.asked_url]
        return heads[-1] if heads else self.head_of("OPTIONS")

    @property
    def preflighted_url(self) -> str | None:
        """The URL of the last request, where its preflight was answered; else None."""
        asked = [self.whole(request) for request, _ in self.exchanges[:-1] if is_preflight(request)]
        return self.asked_url if asked and asked[-1] == self.asked_url else None

    @property
    def is_page_in_small(self) -> bool:
        """Whether the page asks by a method in small letters that the server lists in capitals."""
        return self.same_method == self.method.upper() != ""

    @cached_property
    def needs_told(self) -> Needs:
        """The same, where the page asks as it should: by the method in capitals, and without a User-Agent of its
        own."""
        needs = copy.copy(self.needs)
        if self.result.number == 10 and self.is_page_in_small:
            needs.method = self.same_method
            needs.own = self.head_of(self.same_method)
        if self.result.number == 11 and self.result.detail == "user-agent":
            needs.names = [name for name in needs.names if name != "user-agent"]
        return needs

    def is_alike(self) -> bool:
        """Whether the allowed origin is the page's, written otherwise."""
        value = (self.allowed_origin or "").strip("\"' ")
        names = {value, "https://" + value, "http://" + value} if "://" not in value else {value}
        return self.origin in {origin_of(one) for one in names}

    # ---- lists of a preflight's answer

    def listed(self, name: str) -> list[str]:
        return items_of(self.get(name))

    @property
    def bad_item(self) -> tuple[str, str] | None:
        """The first item of the two lists that is no token, with the header's name; or None."""
        for name in (ALLOW_METHODS, ALLOW_HEADERS):
            for item in self.listed(name):
                if not TOKEN.fullmatch(item):
                    return name, item
        return None

    @property
    def list_name(self) -> str:
        return self.bad_item[0] if self.bad_item else ""

    @property
    def list_item(self) -> str:
        return self.bad_item[1] if self.bad_item else ""

    @property
    def methods(self) -> list[str]:
        return self.listed(ALLOW_METHODS)

    @property
    def names(self) -> list[str]:
        return self.listed(ALLOW_HEADERS)

    @property
    def same_method(self) -> str:
        """A listed method that is this one in another case, or an empty text."""
        return next((one for one in self.methods if one.lower() == self.method.lower() and one != self.method), "")

    # ---- the document's policies

    @cached_property
    def policies(self) -> Policies:
        """For each whether it is enforced, and its directives."""
        return csp.numbered(self.document.get("headers", []))

    @cached_property
    def mended(self) -> list[dict[str, list[str]]]:
        """The directives of each policy, with what is warned of in it mended; what is advised is built on them."""
        return [csp.directives(one.text) for one in self.scenario.mended_policies(self.fetch.document.number)]

    @property
    def words_to_change(self) -> tuple[str, list[str]]:
        """The name of the directive of the violated policy that is to be changed, and its words, mended."""
        name, words = csp.deciding(self.mended[self.violated.policy], self.violated.directive)
        return (name, words) if name in self.mended[self.violated.policy] else self.directive

    def standing(self, name: str) -> tuple[list[str], str | None]:
        """How the violated policy has a directive that is mended: the names of those in whose text it stands, since
        semicolons are missing, and that text, where it is no directive of this name as it is written; or None."""
        own = self.policies[self.violated.policy][1]
        if name in own and not csp.may_swallow(own[name]):
            return [name], None
        from fiorrudda.commands.lints import mending  # where there is a slip
        text = csp.texts(self.document.get("headers", []))[self.violated.policy][1]
        return mending.standing(text, name, name in own)

    def joined_by(self, name: str) -> list[str] | None:
        """Where commas stand for semicolons, and the violated policy has a directive behind one of them alone: the
        names that follow these commas; or None."""
        number = self.violated.policy
        if name in self.policies[number][1] or name not in self.mended[number]:
            return None
        count = self.scenario.mended_policies(self.fetch.document.number)[number].joined
        following = [policy for _, policy in self.policies[number + 1:number + 1 + count]]
        return [next(iter(policy)) for policy in following] if any(name in policy for policy in following) else None

    def under(self, policies: Policies) -> Case:
        """The same case, where the page has these policies: for each its disposition, and its directives."""
        case = copy.copy(self)
        case.policies, case.mended = policies, [policy for _, policy in policies]
        case.violations = distinct(case.would_violate())
        return case

    @property
    def is_of_slips(self) -> bool:
        """Whether it violates policies, and none of them once what is warned of in them is mended."""
        if not self.violations or not any(
                one.slips for one in self.scenario.mended_policies(self.fetch.document.number)):
            return False
        mended = [(enforced, policy) for (enforced, _), policy in zip(self.policies, self.mended)]
        return not self.under(mended).violations

    @cached_property
    def violations(self) -> list[Violation]:
        """Each violation that was told, once for each policy and URL; of a URL that is not loaded here those that
        were."""
        found: list[Violation] = []
        hops, number = self.hops, 0
        for event in self.fetch.events:
            if isinstance(event, Send) and not is_preflight(event):
                number += 1
            if isinstance(event, Violated):
                at_response = number == len(hops)
                index = number - 1 if at_response else number
                hop = hops[index]
                url = (hop.sent or "") if at_response else self.upgraded(hop) if event.enforced else hop.asked
                found.append(Violation(event.policy, event.enforced, event.directive, url, index > 0, at_response))
        return distinct(self.would_violate() if self.is_unloaded else found)

    def would_violate(self) -> list[Violation]:
        """The policies that refuse a URL of the chain, or report it."""
        return [one for one in self.questions() if self.is_violation(one)]

    def questions(self) -> Iterator[Violation]:
        """A violation that there may be for each URL of the chain and each policy. No enforced one is asked of what
        another rule refuses before."""
        effective, hops = csp.EFFECTIVE[self.kind], self.hops + self.hops_ahead if self.is_asked_for else []
        for index, hop in enumerate(hops):
            is_refused = self.is_mixed_socket or self.result.number in (2, 3) and hop is self.hops[-1]
            for number, (enforced, _) in enumerate(self.policies):
                url = self.upgraded(hop) if enforced else hop.asked
                if not (enforced and is_refused):
                    yield Violation(number, enforced, effective, url, index > 0, False)
        last = self.response_url(hops[-1]) if hops else None
        for number, (enforced, _) in enumerate(self.policies if last else []):
            yield Violation(number, enforced, effective, last or "", len(hops) > 1, True)

    def response_url(self, hop: Hop) -> str | None:
        """The URL of the answer at a hop, or of the one that there would be, did no policy refuse it; None where
        another rule does."""
        is_refused = self.result.number == 4 and not self.result.is_fault
        is_known = any(one["until"] > self.scenario.data.get("now", 0) for one in self.named_hosts(hop.asked))
        return hop.sent or (secure(hop.asked) if is_refused and is_known else None)

    def named_hosts(self, url: str) -> list[Object]:
        """The known hosts of the scenario, whether they still are or not, that are the URL's."""
        host = host_of(url)
        return [one for one in self.scenario.data.get("hsts", [])
                if host == one["host"] or (one["subdomains"] and host.endswith("." + one["host"]))]

    @property
    def opened_page(self) -> str:
        """The page's URL over https, where its host is a known one from the beginning, so that a browser opens that; or
        an empty text."""
        url, now = self.document["url"], self.scenario.data.get("now", 0)
        is_plain = scheme_of(url) == "http" and not is_trustworthy(url)
        is_known = is_plain and any(one["until"] > now for one in self.named_hosts(url))
        return secure(url) if is_known else ""

    @cached_property
    def hops_ahead(self) -> list[Hop]:
        """The URLs to which the scenario's servers would lead, did no policy refuse the last one."""
        found: list[Hop] = []
        url = self.upgraded(self.hops[-1])
        is_refused = self.result.number == 4 and not self.result.is_fault and not self.is_net
        url = secure(url) if self.hops[-1].is_known else url
        request = Request(url, self.method)
        while is_refused and len(found) < MOST_REDIRECTS and request.origin:
            answer = answers.scripted(self.scenario, request)
            if not self.is_followed(answer):
                break
            found.append(Hop(joined(there(answer.head).get("Location") or "", self.whole(request))))
            method = self.redirected(request, there(answer.head).status, found[-1].asked).method
            request = Request(self.upgraded(found[-1]), method)
        return found

    @property
    def is_asked_for(self) -> bool:
        """Whether a policy is asked of it: it is no fault, and of a scheme that a browser loads."""
        return not self.result.is_fault and (self.result.number != 1 or self.is_unloaded)

    def is_violation(self, violation: Violation) -> bool:
        policy = self.policies[violation.policy][1]
        name, words = csp.deciding(policy, violation.directive)
        return name in policy and not csp.passes(words, self.asked_of(violation))

    def asked_of(self, violation: Violation) -> Asked:
        """What its policy was asked of."""
        options = self.command.options
        return csp.Asked(violation.url, self.document["url"], self.kind, options.get("nonce", ""), options["integrity"],
                         options.get("parser", True), violation.redirected)

    def of_violation(self, violation: Violation) -> Case:
        """The same case, where it is about this violation."""
        case = copy.copy(self)
        case.about = violation
        return case

    @property
    def violated(self) -> Violation:
        """The violation that the case is about: the first enforced one of the URL that was refused, or None."""
        enforced = [one for one in self.violations if one.enforced]
        return self.about or (enforced[0] if enforced else None)  # type: ignore[return-value]  # as `answer`

    @property
    def directive(self) -> tuple[str, list[str]]:
        """The directive of the violated policy that decided, with its words."""
        if not self.violated:
            return "", []
        return csp.deciding(self.policies[self.violated.policy][1], self.violated.directive)

    @property
    def directive_text(self) -> str:
        name, words = self.directive
        return edits.shortened(" ".join([name, *words]))

    @property
    def policy(self) -> str:
        """Its number, and whether it only reports."""
        return f"policy {self.violated.policy}{'' if self.violated.enforced else ' (report-only)'}"

    @property
    def policy_url(self) -> str:
        return self.violated.url

    @property
    def is_policy_address(self) -> bool:
        """Whether the host of the URL is an IP address, and not that of the page."""
        return is_address(host_of(self.policy_url)) and origin_of(self.policy_url) != self.page_origin

    @property
    def is_policy_loopback(self) -> bool:
        """Whether it is 127.0.0.1, and a word names that."""
        is_asked = self.is_policy_address and host_of(self.policy_url) == "127.0.0.1"
        return is_asked and any(csp.place_of(word) == "127.0.0.1" for word in self.directive[1])

    @property
    def policy_asked(self) -> Asked:
        return self.asked_of(self.violated)

    @property
    def near_word(self) -> Near:
        """A word that would match, were it written otherwise."""
        return self.near_in(self.directive[1])

    def near_in(self, words: list[str]) -> Near:
        near = csp.near(words, self.policy_asked) or csp.Near("", "", "")
        is_upgraded = self.is_secure and not is_trustworthy(self.policy_url)
        return near._replace(written=re.sub("^http:", "https:", near.written)) if is_upgraded else near

    @property
    def near_fault(self) -> str:
        return self.near_word.fault

    @property
    def near_text(self) -> str:
        return self.near_word.word

    @property
    def near_written(self) -> str:
        return self.near_word.written

    @property
    def unquoted_words(self) -> list[tuple[str, str]]:
        return csp.unquoted(self.directive[1])

    @property
    def unquoted_word(self) -> str:
        return self.unquoted_words[0][0] if self.unquoted_words else ""

    @property
    def unquoted_written(self) -> str:
        return self.unquoted_words[0][1] if self.unquoted_words else ""

    @property
    def then_strict(self) -> str:
        """What 'strict-dynamic' means for the page's other scripts, once it has its quotes."""
        is_new = self.kind == "script" and "'strict-dynamic'" in [right.lower() for _, right in self.unquoted_words]
        return ("; then no host counts for scripts, and each that a parser inserts needs a nonce or a hash"
                if is_new else "")

    @property
    def policy_nonces(self) -> list[str]:
        return csp.nonces(self.directive[1]) if self.kind in ("script", "style") else []

    @property
    def nonce(self) -> str:
        return self.command.options.get("nonce", "")

    @property
    def common_nonce(self) -> str:
        """The nonce that is to stand at the element: its own, where a policy has it, or the first of a policy; or an
        empty text."""
        effective = csp.EFFECTIVE[self.kind]
        lists = [csp.deciding(policy, effective)[1] for policy in self.mended]
        mended = [(words, dict(csp.unquoted(words))) for words in lists]
        found = [nonce for words, right in mended for nonce in csp.nonces([right.get(word, word) for word in words])]
        return self.nonce if self.nonce in found else found[0] if found else ""

    @property
    def is_before_upgrade(self) -> bool:
        """Whether a report-only policy was asked of a URL that is upgraded behind it, or refused as mixed content."""
        return (not self.violated.enforced and not self.violated.at_response and self.is_secure
                and scheme_of(self.policy_url) in ("http", "ws") and not is_trustworthy(self.policy_url))

    @property
    def is_upgraded_behind(self) -> bool:
        """Whether the URL of such a violation becomes https then, and is loaded."""
        return any(hop.asked == self.policy_url and self.upgrade_of(hop) in ("policy", "mixed") for hop in self.hops)

    # ---- URLs that this engine does not load

    @property
    def is_unloaded(self) -> bool:
        """Whether a browser would load the URL, and this engine does not."""
        if self.result.number != 1 or self.result.is_fault:
            return False
        return scheme_of(self.url) in (LOCAL + SOCKETS if self.kind == "fetch" else LOCAL)

    @property
    def is_plain_socket(self) -> bool:
        return self.is_unloaded and scheme_of(self.url) == "ws"

    @property
    def is_mixed_socket(self) -> bool:
        """Whether it is refused as mixed content: it is looked at behind the upgrade."""
        return self.is_plain_socket and self.is_secure and not (self.upgrades_all or is_trustworthy(self.url))

    @property
    def policy_verdict(self) -> str:
        """What the page's policies make of a URL that was not loaded."""
        refusing = [one for one in self.violations if one.enforced]
        if refusing:
            return "but the page's policies do not let it: " + "; ".join(
                f"{case.policy} has `{case.directive_text}`" for case in map(self.of_violation, refusing))
        reporting = [f"{case.policy} reports it, since it has `{case.directive_text}`"
                     for case in map(self.of_violation, self.violations)]
        if reporting:
            return "and no policy refuses it, but " + "; ".join(reporting)
        return "and the page's policies let it" if self.policies else "and the page has no policy"

    @property
    def unloaded_change(self) -> str:
        if any(one.enforced for one in self.violations):
            return "let each policy pass it, as follows"
        if self.violations:
            return "let each policy pass it before it is enforced, as follows"
        return "nothing is to be changed"

    @property
    def is_open(self) -> bool:
        """Whether a browser goes on where this engine ends, and no policy refuses it."""
        if self.result.number == 23 and not self.result.is_fault:
            return self.is_read_by_some
        return self.is_unloaded and not self.is_mixed_socket and not any(one.enforced for one in self.violations)

    @property
    def is_read_by_some(self) -> bool:
        """Whether some browser reads a coded body, as far as it is known what is wrong in it."""
        is_broken = self.wrong_coding is not None or self.is_cut_chunks and self.coded_fault is not None
        return not is_broken and len(self.lengths) < 2

    @property
    def verdict(self) -> str:
        """In a word: read, refused, hidden (the script sees nothing of the answer), or none."""
        if self.result.is_refused():
            return "none" if self.is_open else "refused"
        if self.is_spoilt:
            return "refused"
        return "hidden" if self.result.type in ("opaque", "opaqueredirect") else "read"

    # ---- the end of a fetch

    @property
    def essence(self) -> str:
        return (self.get("Content-Type") or "").split(",")[-1].partition(";")[0].strip().lower()

    @property
    def kind(self) -> str:
        return self.fetch.load or "fetch"

    @property
    def is_opaque(self) -> bool:
        foreign = any(request.origin != self.page_origin for request, _ in self.chain)
        return foreign and self.command.options["mode"] == "no-cors"

    @property
    def digests(self) -> dict[str, list[str]]:
        """The valid tokens of the integrity text, by algorithm."""
        found = DIGEST.findall(self.command.options["integrity"])
        return {name: [value for own, value in found if own == name] for name in ALGORITHMS if name in dict(found)}

    @property
    def strongest(self) -> str:
        return max(self.digests, default="sha384")

    def digest(self, name: str) -> str:
        """The digest of the body that came, as integrity texts have it."""
        return base64.b64encode(hashlib.new(name, self.answer.body()).digest()).decode("ascii")

    @property
    def right_digest(self) -> str:
        return f"{self.strongest}-{self.digest(self.strongest)}" if self.head else ""

    @property
    def has_body(self) -> bool:
        return self.request.method != "HEAD" and self.status not in (101, 103, 204, 205, 304)

    @property
    def is_cut(self) -> bool:
        """Whether the body ends before its framing says so, or failed."""
        is_chunked = (self.get("Transfer-Encoding") or "").lower() == "chunked"
        return (self.link in ("hang", "reset") or len(self.answer.body()) < (self.answer.length() or 0)
                or (is_chunked and not are_whole(self.answer.data, self.head.end)))

    @property
    def is_short(self) -> bool:
        """Whether it has a body that did not come whole, be that seen by the script or by the integrity check."""
        return self.result.ending == "cut" or self.result.is_refused() or self.is_spoilt

    @property
    def unread(self) -> Cut | None:
        """What is wrong in the body of what an element loads, which the engine did not read (codings.py), or None."""
        return getattr(self.answer, "unread", None) if self.result.type == "loaded" else None

    @property
    def is_spoilt(self) -> bool:
        """Whether a browser refuses what the engine lets pass: for its lengths, or what an element loads for its
        body."""
        if self.result.is_refused() or self.head is None:
            return False
        has_lengths = self.has_body and len(self.lengths) > 1
        return has_lengths or self.result.type == "loaded" and self.unread is not None

    @property
    def is_broken_first(self) -> bool:
        """Whether a browser refuses for its lengths an answer that the engine refuses for what comes behind them."""
        is_refused = self.result.is_refused() and self.head is not None and self.is_direct
        return (is_refused and self.has_body and len(self.lengths) > 1
                and there(self.explanation).way != "body/two-lengths")

    @cached_property
    def coded_fault(self) -> Cut | None:
        """What is wrong in a coded body of a real server that the engine did not read, as far as it came, or None."""
        is_unread = self.is_net and not self.is_direct and self.result.number == 23 and not self.result.is_fault
        if not is_unread:
            return None
        from fiorrudda.commands import codings
        return codings.fault_in(self.head, codings.pieces_of(self.answer), codings.names_of(self.coding))

    @property
    def cut(self) -> Cut | None:
        """What is wrong in a coded body (codings.py), or None."""
        stream = getattr(self.answer, "stream", None)
        return stream.cut or self.unread if stream else self.coded_fault

    @property
    def is_cut_coded(self) -> bool:
        """Whether a coded body that the engine did not read ends before its framing does."""
        return self.coded_fault is not None and self.coded_fault.coding is None

    @property
    def is_cut_chunks(self) -> bool:
        """Whether a body in chunks ends without the last one, though what came of it fits."""
        if (self.get("Transfer-Encoding") or "").lower() != "chunked":
            return False
        chunks = answers.Chunks()
        chunks.feed(self.answer.data[self.head.end:])
        return not chunks.is_whole and not chunks.is_broken

    @property
    def as_decoded(self) -> str:
        """What browsers make of a body that is not of its coding (docs/BROWSERS.md)."""
        return "" if self.is_direct else fails_with("CONTENT_DECODING_FAILED")

    @property
    def as_cut(self) -> str:
        """What browsers make of a body that ends before its framing does (docs/BROWSERS.md), where that is known."""
        if self.is_cut_chunks:
            return fails_with("INCOMPLETE_CHUNKED_ENCODING")
        if (self.wrong_length or 0) <= self.count or len(self.lengths) > 1:
            return ""
        if self.is_of_text:
            return "; Chromium and Firefox read it once the connection closes, and wait until then"
        if self.coded_fault or self.status // 100 != 2:
            return "; reading it fails in Chromium (net::ERR_CONTENT_LENGTH_MISMATCH), and Firefox takes what came"
        return fails_with("CONTENT_LENGTH_MISMATCH")

    @property
    def wrong_coding(self) -> str | None:
        """The coding that Content-Encoding says, and that the body is not, or not to its end; or None."""
        return self.cut.coding if self.cut and (self.cut.is_other or self.cut.is_broken) else None

    @property
    def coding_fault(self) -> str:
        """What is wrong with a body of such a coding."""
        if there(self.cut).is_broken:
            return str(self.cut)
        if there(self.cut).outer:
            outer = ", ".join(there(self.cut).outer[::-1])
            return f"the body is {outer} alone, and Content-Encoding says `{self.coding}`"
        return f"the body is not {there(self.cut).coding}, as Content-Encoding says"

    @property
    def cut_coding(self) -> str | None:
        """The coding that ends before its end, or None."""
        return self.cut.coding if self.cut and not (self.cut.is_other or self.cut.is_broken) else None

    @property
    def as_measured(self) -> str:
        """What browsers make of a coded body that is cut (docs/BROWSERS.md), where no integrity text is compared."""
        stream = getattr(self.answer, "stream", None)
        is_known = self.coded_fault is not None or stream and not self.result.is_refused()
        if not is_known or self.link in ("hang", "reset"):
            return ""
        made = len(self.answer.body()) if stream and stream.is_opened else there(self.cut).made
        does = "run what was decoded" if self.kind == "script" else "take what was decoded"
        return f"; Chromium and Firefox {does}, {made} byte{'' if made == 1 else 's'}, without an error"

    @property
    def length_as_measured(self) -> str:
        """What browsers make of a coded body that is shorter than its Content-Length, where the connection closes."""
        stream = getattr(self.answer, "stream", None)
        is_known = stream and stream.codings and self.wrong_length is not None and self.link == "done"
        if not is_known or (self.wrong_length or 0) < self.count or self.result.is_refused():
            return ""
        if self.is_of_text:
            return "; Chromium and Firefox read it once the connection closes, and wait until then"
        return "; Firefox takes what came, and Chromium makes it an error"

    @property
    def coding(self) -> str:
        return self.get("Content-Encoding") or ""

    @property
    def is_gzip(self) -> bool:
        """Whether the body, as it came, begins as gzip does, and Content-Encoding says another coding."""
        return not self.says_gzip and self.answer.sent()[:2] == GZIP

    @property
    def is_packed(self) -> bool:
        """Whether the page gets a body of gzip packed, since no coding is named, and nothing says that it is an
        archive."""
        if not results.is_let_in(self.result) or self.is_spoilt or not self.is_gzip or not self.has_body:
            return False
        is_coded = any(word.strip().lower() not in ("", "identity") for word in self.coding.split(","))
        is_file = any(urlsplit(request.target).path.lower().endswith((".gz", ".tgz")) for request, _ in self.chain)
        return not is_coded and not is_file and not self.essence.endswith(ARCHIVES)

    @property
    def is_packed_twice(self) -> bool:
        """Whether the page gets a body packed that was decoded once, and no archive."""
        stream = getattr(self.answer, "stream", None)
        is_read = results.is_let_in(self.result) and stream is not None and stream.is_opened and stream.codings
        return bool(is_read) and self.answer.body()[:2] == GZIP and not self.essence.endswith(ARCHIVES)

    @property
    def is_seen_packed(self) -> bool:
        return self.is_direct and (self.is_packed or self.is_packed_twice)

    @property
    def says_gzip(self) -> bool:
        return self.coding.split(",")[-1].strip().lower() in ("gzip", "x-gzip")

    @property
    def but_gzip(self) -> str:
        return "; its first bytes, 1f 8b, are those of gzip" if self.is_gzip else ""

    @property
    def why_coded(self) -> str:
        """What is to be installed, where that is all that a coding lacks here."""
        from fiorrudda.commands import codings  # which bin/ask alone needs
        is_lacking = "br" in codings.lacking(self.coding)
        return (", since there is neither node nor python3's module brotli: install Debian's package python3-brotli, "
                "or brotli by pip") if is_lacking else ""

    @property
    def or_install(self) -> str:
        return "install python3-brotli and ask again; or " if self.why_coded else ""

    @property
    def if_coded(self) -> str:
        """What a browser makes of a coding that nothing here decodes."""
        return self.as_listed or "; a browser would read the body only if it is of that coding"

    @property
    def as_listed(self) -> str:
        """What browsers make of codings that are no list of known ones (docs/BROWSERS.md), or an empty text."""
        words = [word.strip().lower() for word in self.coding.split(",")]
        if not all(map(TOKEN.fullmatch, filter(None, words))):
            return "; Chromium makes such a value a network error, and Firefox gives the page the bytes as they came"
        from fiorrudda.commands import codings
        if any(word not in codings.BROWSERS for word in words):
            return "; Chromium gives the page the bytes as they came, and Firefox decodes what it knows"
        return ""

    @property
    def right_coding(self) -> str:
        if self.cut and self.cut.is_broken:
            return "send its bytes as they were compressed: look for what changes them on the way"
        if self.cut and self.cut.outer:
            return (f"let Content-Encoding say `{', '.join(self.cut.outer[::-1])}` alone: look for a program and a "
                    "proxy that both send it")
        return "let Content-Encoding say gzip" if self.is_gzip else "leave Content-Encoding out, or compress it"

    @property
    def if_gzip(self) -> str:
        return "let Content-Encoding say gzip; or " if self.is_gzip else ""

    @property
    def unless_gzip(self) -> str:
        return "" if self.is_gzip or self.as_listed else "; if the body is of that coding, a browser needs no change"

    @property
    def lengths(self) -> list[str]:
        """The values of Content-Length that differ, where it is what ends the body."""
        words = (self.get("Content-Length") or "").split(",") if self.get("Transfer-Encoding") is None else []
        return list(dict.fromkeys(word.strip() for word in words))

    @property
    def lengths_told(self) -> str:
        count = "two" if len(self.lengths) == 2 else len(self.lengths)
        return f"{count} lengths, {' and '.join(word or 'an empty one' for word in self.lengths)}"

    @property
    def as_refused(self) -> str:
        """How browsers tell of two lengths."""
        return "" if self.is_direct else REFUSES

    @property
    def wrong_length(self) -> int | None:
        """Content-Length, where another number of bytes came; else None."""
        length = answers.Answer.length(self.answer)
        return None if self.get("Transfer-Encoding") is not None or length == self.count else length

    @property
    def count(self) -> int:
        """How many bytes of the body came, as it was sent."""
        return len(self.answer.data) - self.head.end

    @property
    def but_length(self) -> str:
        """How many bytes came, and what Content-Length says, where that is another number; or an empty text."""
        if self.wrong_length is None:
            return ""
        of_text = ", which is the length of the text before it was compressed" if self.is_of_text else ""
        return (f": {self.count} byte{'' if self.count == 1 else 's'} came, and Content-Length says "
                f"{self.wrong_length}{of_text}")

    @property
    def is_of_text(self) -> bool:
        """Whether Content-Length is the length of the text before it was compressed."""
        stream, unread = getattr(self.answer, "stream", None), self.coded_fault or self.unread
        if self.wrong_length is None or stream is None and unread is None:
            return False
        return self.wrong_length == (len(self.answer.body()) if stream and stream.is_opened else unread and unread.made)

    @property
    def whole_again(self) -> str:
        """What to do that the body comes whole."""
        if self.get("Transfer-Encoding") is not None:
            return "send each chunk whole, and behind them the last one (0, CR LF, CR LF)"
        return f"let Content-Length say {self.count}" if self.is_of_text else "send all of it, and its right length"

    @property
    def framing_header(self) -> str:
        """The header by which a body's end is known."""
        return "Content-Length" if self.get("Transfer-Encoding") is None else "Transfer-Encoding"

    @property
    def or_unfit(self) -> str:
        if self.get("Transfer-Encoding") is not None:
            return ": its chunks are broken, or end early"
        return ", or does not fit it" if self.wrong_length is None else ""

    @property
    def or_length(self) -> str:
        return f", or let Content-Length say {self.count}" if self.is_of_text else ""

    @cached_property
    def coding_end(self) -> int | None:
        """How many bytes the coded body has that is cut, where what came shows it, or None."""
        from fiorrudda.commands import codings  # which bin/ask alone needs
        return codings.end_of(self.answer.data[self.head.end:], self.cut_coding)

    @property
    def is_length_short(self) -> bool:
        """Whether Content-Length is what cuts a coded body: more came than it says."""
        if self.cut_coding is None or self.wrong_length is None or self.count < self.wrong_length:
            return False
        return self.coding_end is None or self.coding_end > self.wrong_length

    @property
    def cutting_header(self) -> str:
        return "Content-Length" if self.is_length_short else "Content-Encoding"

    @property
    def whole_coding(self) -> str:
        """What to do that a coded body comes whole."""
        if not self.is_length_short:
            return "send all of it" if self.wrong_length is None else "send all of it, and its right length"
        if self.coding_end is None:
            return "leave Content-Length out, or let it say how many bytes there are"
        return f"let Content-Length say {self.coding_end}"

    @property
    def is_too_big(self) -> bool:
        return len(self.answer.body()) > self.body_limit

    @property
    def body_limit(self) -> int:
        return self.scenario.data.get("body_limit", 1048576) if self.scenario.data.get("format") == 2 else 262144

    # ---- links

    @property
    def link(self) -> str | None:
        return self.answer.link if self.answer else None

    @property
    def is_silent(self) -> bool:
        """Whether the connection was given up, since nothing more came: by whoever kept the answer, or by fetchplay
        itself, who is less patient then."""
        return self.link == "hang" or (self.link == "done" and not self.is_direct)

    @property
    def route(self) -> str | None:
        return self.scenario.route_of(self.request.origin)

    @property
    def secure_url(self) -> str:
        return "https" + self.url[self.url.index(":"):]

    @property
    def link_problem(self) -> str | None:
        return self.answer.problem if self.answer else None

    @property
    def near_server(self) -> str:
        """A sentence on what the scenario has for the same host."""
        host = urlsplit(self.request.origin).hostname
        told = self.scenario.near_origins(host)
        where = "of this host it has" if host in self.scenario.origins_by_host else "it has"
        return f"{where} {', '.join(told) or 'none'}"

    @property
    def first_bytes(self) -> str:
        return repr(self.answer.data[:40])[2:-1]

    # ---- faults

    @property
    def bad_header(self) -> tuple[str, str]:
        index = int(self.result.detail or 0)
        return self.command.headers[index] if index < len(self.command.headers) else ("", "")

    @property
    def plain_method(self) -> str:
        return "GET" if self.command.options["body"] is None else "POST"

    @property
    def bad_name(self) -> str:
        return self.bad_header[0]

    # ---- what the table's texts say besides

    @property
    def is_next_unanswered(self) -> bool:
        """Whether the scenario has no rule for the request at the URL to which it is redirected."""
        request = self.redirected(self.request, self.status, self.next_url)
        server = self.scenario.server_of(request.origin)
        if self.is_net or server is None:
            return not self.is_net
        return self.scenario.rule_of(server, request) is None

    @cached_property
    def comes_back(self) -> str:
        """The URL to which the redirect of the last answer leads back: of the chain, or of this preflight. It is
        followed as the scenario's servers answer; of real ones the next URL alone is known. An empty text where it does
        not."""
        steps = self.exchanges[-1:] if is_preflight(self.request) else self.chain
        been = {(request.method, self.whole(request)) for request, _ in steps}
        request: AnyRequest = self.request
        head: Head | None = self.head
        for _ in range(MOST_REDIRECTS):
            location = (head.get("Location") if head and head.status in REDIRECTS else None) or ""
            url = joined(location, self.whole(request)) if location else ""
            if not origin_of(url):
                return ""
            request = self.redirected(request, there(head).status, url)
            if (request.method, self.whole(request)) in been:
                return self.whole(request)
            head = None if self.is_net else answers.scripted(self.scenario, request).head
        return ""

    @property
    def back_where(self) -> str:
        is_next = self.comes_back == self.whole(self.redirected(self.request, self.status, self.next_url))
        return "" if is_next else f" to {self.comes_back}"

    @property
    def has_no_end(self) -> bool:
        """Whether its chain has none. That of real servers may have one by the cookies that they set."""
        return self.is_followed(self.answer) and self.comes_back != "" and not (self.is_net and self.includes)

    @staticmethod
    def redirected(request: AnyRequest, status: int, url: str) -> AnyRequest:
        """The request of a redirect with this status to this URL, as far as rules look at it."""
        request, parts = copy.copy(request), urlsplit(url)
        request.origin = origin_of(url) or ""
        request.target = (parts.path or "/") + ("?" + parts.query if parts.query else "")
        becomes_get = status == 303 and request.method != "HEAD" or status in (301, 302) and request.method == "POST"
        if becomes_get and not is_preflight(request):
            request.method = "GET"
        return request

    @property
    def stays_plain(self) -> str:
        """Why the last URL of the chain stays http, though a host was meant to be known; or an empty text."""
        return self.plain_reasons[-1] if len(self.plain_reasons) == len(self.hops) else ""

    @property
    def but_known(self) -> str:
        """That its host is known, where the URL was refused before that was looked up."""
        return "; " + self.stays_plain if self.stays_plain.endswith(AT_FIRST) else ""

    @property
    def why_known(self) -> str:
        """By which known host the last URL of the chain becomes one of https."""
        return self.known_by[-1] if len(self.known_by) == len(self.hops) else KNOWN_ITSELF

    @property
    def unserved(self) -> list[str]:
        """Some of the http URLs of this machine that the page loads, whose hosts have no https server there."""
        document = self.fetch.document
        if document.own_plain is None:
            passing = [one for one in document.fetches if any(not result.is_refused() for result in one.of("result"))]
            urls = dict.fromkeys(joined(one.command.url, self.document["url"]) for one in passing)
            own = [url for url in urls if scheme_of(url) == "http" and is_trustworthy(url)]
            document.own_plain = [url for url in own if self.scenario.server_of(origin_of(secure(url))) is None]
        return [] if self.is_net else document.own_plain[:MOST_UNSERVED]

    @property
    def is_to_be_secure(self) -> bool:
        """Whether its URL of http became one of https, would behind the check that refused it, or may be no other."""
        is_mixed = self.is_secure and not is_trustworthy(self.url)
        is_upgraded = self.upgrade_of(self.hops[-1]) is not None or self.but_known != ""
        return self.scheme == "http" and (is_mixed or is_upgraded)

    @property
    def over_https(self) -> str:
        return " over https" if self.is_to_be_secure else ""

    @property
    def why_scheme(self) -> str:
        """Why https was asked, or http, where that may not be what was meant."""
        cause = self.upgrade_of(self.hops[-1])
        if cause:
            return f"the URL became https ({CAUSES[cause]}), and "
        return self.stays_plain + "; so http was asked, and " if self.stays_plain else ""

    @property
    def or_https(self) -> str:
        """What the real server needs, where the URL became https and nothing answers there."""
        if not self.upgrade_of(self.hops[-1]):
            return ""
        return "; on a site whose host speaks http only: let it answer over https there, or ask a host that does"

    @property
    def is_unanswered_by_hsts(self) -> bool:
        """Whether HSTS has led to https, where no server answers."""
        is_lost = self.result.number in (24, 25) and not self.result.is_fault and self.result.is_refused()
        return is_lost and self.upgrade_of(self.hops[-1]) == "hsts" and not (self.answer and self.answer.data)

    @property
    def or_known(self) -> str:
        return "; or see to it that the host is a known one, where https was meant" if self.stays_plain else ""

    @property
    def too_late(self) -> str:
        """What is to be said of a host that the scenario has as a known one, though it is none any more."""
        if self.but_known or not self.named_hosts(self.url):
            return ""
        ended = f"; {self.ended}" if self.ended else ""
        return ended + "; HSTS does not help, since known hosts are looked up after mixed content"

    @property
    def or_plain(self) -> str:
        """Whether the page may ask in plain instead."""
        return "" if self.page_origin.startswith("https:") else ", or ask for http"

    @property
    def asked_headers(self) -> str:
        return header_of(self.request, "Access-Control-Request-Headers") or ""

    @property
    def asked_names(self) -> list[str]:
        """The names of the request's headers that a preflight asks for."""
        return [name for name in self.asked_headers.split(",") if name]

    @property
    def stray_names(self) -> list[str]:
        """Those of them that are headers of answers, and do nothing in a request but ask for a preflight."""
        return [name for name in self.asked_names if name.startswith("access-control-")]

    @property
    def why_status(self) -> str:
        """What is to be said of an error page in the place of what was asked for."""
        return f"; but first look why it is {self.status}" if self.status >= 400 else ""

    @property
    def right_type(self) -> str:
        return "text/css" if self.kind == "style" else "text/javascript"

    @property
    def hidden_names(self) -> list[str]:
        """The answer's headers that the script does not see, and might miss."""
        seen = {name.lower() for name, _ in self.result.headers}
        return each_once(missed(name for name in names_of(self.head) if name.lower() not in seen))

    @property
    def own_head(self) -> Head | None:
        """The head of the answer to the request itself, also behind a preflight that was refused; None where it is not
        known."""
        return self.head_of(self.method) if is_preflight(self.request) else self.head

    def head_of(self, method: str) -> Head | None:
        """The head that answers this method at the URL of the last request; None where it is not known."""
        request = copy.copy(self.request)
        request.method = method
        return None if self.is_net else answers.scripted(self.scenario, request).head

    def head_at(self, method: str, url: str) -> Head | None:
        """The head that answers this method at a URL; None where it is not known."""
        return None if self.is_net else answers.scripted(self.scenario, Request(url, method)).head

    @property
    def read_names(self) -> list[str]:
        """The headers of the answer that the script's next command reads, or that a test wants it to see."""
        following = self.fetch.document.fetches[self.fetch.number + 1:][:1]
        return [*self.asked_by_test, *(name for fetch in following for name in fetch.command.headers_of_templates())]

    def unexposed_names(self, head: Head | None) -> list[str]:
        """The headers that the script will miss once an answer is read: those of the answer, as far as it is known, and
        those that the script reads. No header is read of an answer that redirects."""
        if self.command.is_load or head is not None and head.status in REDIRECTS:
            return []
        exposing = head.get(EXPOSE_HEADERS) if head else None
        return each_once(unseen(missed(names_of(head)) + self.read_names, exposing, self.includes))

    @property
    def though_read(self) -> str:
        """Those of them that the script reads, in words."""
        read = {name.lower() for name in self.read_names}
        found = [name for name in self.hidden_names if name.lower() in read]
        return ", and it reads " + edits.listed(found) if found else ""

    @property
    def hidden_by_cors(self) -> str:
        return ", ".join(self.hidden_names)

    @property
    def exposed(self) -> list[str]:
        return self.listed(EXPOSE_HEADERS)

    @property
    def bad_exposed(self) -> str:
        """The first item of Access-Control-Expose-Headers that is no token, or an empty text."""
        return next((item for item in self.exposed if not TOKEN.fullmatch(item)), "")

    def is_same_site(self) -> bool:
        return len({".".join((urlsplit(one).hostname or "").rstrip(".").split(".")[-2:])
                    for one in (self.page_origin, self.request.origin)}) == 1

    @staticmethod
    def whole(request: AnyRequest) -> str:
        return request.origin + request.target


def fails_with(error: str) -> str:
    """That browsers read the head, and fail at the body; of Chromium the error without its prefix."""
    return f"; reading it fails in Chromium (net::ERR_{error}) and in Firefox (a TypeError)"


def names_of(head: Head | None) -> list[str]:
    return [name for name, _ in head.headers] if head else []


def are_whole(data: bytes, at: int) -> bool:
    """Whether chunks that begin there end with the last one."""
    while True:
        found = CHUNK_LINE.match(data, at)
        if found is None:
            return False
        if int(found.group(1), 16) == 0:
            return data.find(b"\r\n\r\n", found.end() - 2) >= 0
        at = found.end() + int(found.group(1), 16) + 2


def distinct(violations: list[Violation]) -> list[Violation]:
    """Each of a policy and a URL once: a report-only policy is told at the request and at the response, and the URL of
    that may be upgraded."""
    found: dict[tuple[int, str], Violation] = {}
    for one in violations:
        found.setdefault((one.policy, secure(one.url)), one)
    return list(found.values())
