"""Makes of a chain the command that a page's script would give: a fetch or a load, as a scenario has it."""
from __future__ import annotations

import json
import re
from collections import Counter
from dataclasses import dataclass, field, replace
from typing import Any, Iterator, NamedTuple, Optional

from fiorrudda.commands import csp, guards
from fiorrudda.commands.ask_words import POLICIES
from fiorrudda.commands.scenario import origin_of
from fiorrudda.commands.urls import scheme_of
from fiorrudda.recorded.kinds import Asked, asked_of
from fiorrudda.recorded.model import Chain, Element, Entry, Page

# Headers that browsers add themselves to what a script asks for, beside those that no script can set.
ADDED = {"user-agent", "accept-language", "cache-control", "pragma", "priority", "if-none-match", "if-modified-since",
         "if-range", "upgrade-insecure-requests", "save-data", "alt-used", "x-client-data", "purpose", "device-memory",
         "downlink", "ect", "rtt", "dpr", "width", "viewport-width", "range", "idempotency-key"}
# Those whose values say whether a preflight is asked for; of others the name alone counts, and the value may be a
# secret.
PLAIN = ("accept", "accept-language", "content-language", "content-type", "range")
UNSAFE = '"'  # a value that asks for a preflight, whatever the header is
MOST_HEADERS = 64
LARGEST_BODY = 1048576
MOST_WRITTEN = 2000000  # characters of a body, as JSON writes it
# Answers that are not those of a server: what they let pass is supposed.
ANSWERED = (
    (lambda entry: entry.is_from_worker, "a service worker answered it, so no rule is asked about a server's answer"),
    (lambda entry: entry.is_still_good,
     "the server said that what the HTTP cache had is still so, which is not recorded: no rule is asked about it"))
INSERTED = "taken to be inserted by a script, since the page's HTML does not have it"
NO_BODY = "its integrity text was not checked, since the recording does not have the body whole"


class Words(NamedTuple):
    """What a page's policies say of a kind of loads: their nonces, and whether what is trusted may load more."""

    nonces: list[str]
    is_dynamic: bool


@dataclass
class Command:
    """What is played for a chain; `notes` say what could not be."""

    chain: Chain
    asked: Asked
    data: dict[str, Any]
    body: Optional[str] = None  # of the last answer, where the integrity text is compared with it
    notes: list[str] = field(default_factory=list)

    @property
    def kind(self) -> str:
        return self.asked.kind

    @property
    def options(self) -> dict[str, Any]:
        return next(iter(self.data.values()))

    def with_other_credentials(self) -> "Command":
        """The same, had its credentials been the other way; what a recording without cookies cannot tell."""
        if self.asked.is_load:
            change: dict[str, Any] = {"crossorigin": "use-credentials"}
        else:
            change = {"credentials": "same-origin" if self.asked.credentials == "include" else "include"}
        word = next(iter(self.data))
        return replace(self, data={word: {**self.options, **change}})


def of_page(page: Page) -> Iterator[Command]:
    """The commands of a page, in the order of its chains."""
    policies, page_origin = csp.policies(policy_headers(page)), page.origin
    words = {kind: words_of(policies, csp.EFFECTIVE[kind]) for kind in ("script", "style")}
    counts = Counter(chain.first.bare_url for chain in page.chains)
    numbers: Counter[str] = Counter()
    for chain in page.chains:
        url = chain.first.bare_url
        element = page.html.element_of(url, numbers[url], counts[url]) if page.html else None
        numbers[url] += 1
        yield of_chain(chain, page, asked_of(chain, page_origin, page.html, element), words)


def words_of(policies: list[dict[str, list[str]]], effective: str) -> Words:
    """Those of all directives that decide."""
    words = [word for policy in policies for word in csp.deciding(policy, effective)[1]]
    return Words(csp.nonces(words), "'strict-dynamic'" in map(str.lower, words))


def of_chain(chain: Chain, page: Page, asked: Asked, words: dict[str, Words]) -> Command:
    command = of_load(chain, page, asked, words) if asked.is_load else of_fetch(chain, asked)
    command.notes += [note for held, note in ANSWERED if any(map(held, chain.hops))]
    return command


def of_fetch(chain: Chain, asked: Asked) -> Command:
    options: dict[str, Any] = {"url": url_of(chain), "method": chain.first.method, "mode": asked.mode,
                               "credentials": asked.credentials}
    headers = script_headers(chain)
    is_simple = chain.first.method in guards.SAFELISTED_METHODS and not guards.unsafe_names(
        [(name, value) for name, value in headers])
    if 0 in chain.preflights and is_simple:
        options["upload"] = True
        asked.guesses.append("taken to have an upload listener, since nothing else asks for its preflight")
    return Command(chain, asked, {"fetch": {**options, **({"headers": headers} if headers else {})}})


def url_of(chain: Chain, element: Optional[Element] = None) -> str:
    """The URL as the page has it: that of the element, which an upgrade may have changed. The scheme of a `data:` URL
    is all that is looked at."""
    url = (element.url if element else chain.url).partition("#")[0]
    return "data:," if scheme_of(url) == "data" else without_templates(url)


def without_templates(url: str) -> str:
    """A URL in whose place a scenario puts nothing."""
    return url.replace("${", "$%7B")


# ---- fetches

def script_headers(chain: Chain) -> list[list[str]]:
    """The headers that the script has set. Where a preflight names those that need its leave, these are all."""
    entry, preflight = chain.first, chain.preflights.get(0)
    listed = preflight.asked("Access-Control-Request-Headers") if preflight else None
    named = {name.strip().lower() for name in (listed or "").split(",") if name.strip()}
    found: dict[str, list[str]] = {}
    for name, value in entry.sent:
        lowered = name.lower()
        if guards.in_place(name, value) is not None or lowered in ADDED and lowered not in named:
            continue
        is_safe = guards.is_safelisted(name, value)
        if listed is not None and lowered not in named and not is_safe or (lowered, value) == ("accept", "*/*"):
            continue
        if not (lowered in named and is_safe):
            found[lowered] = [name, value if lowered in PLAIN else "x"]
    for name in sorted(named - set(found)):
        found[name] = [name, UNSAFE if name in PLAIN else "x"]
    return list(found.values())[:MOST_HEADERS]


# ---- loads

def of_load(chain: Chain, page: Page, asked: Asked, words: dict[str, Words]) -> Command:
    options: dict[str, Any] = {"kind": asked.kind, "url": url_of(chain, asked.element)}
    command = Command(chain, asked, {"load": options})
    if asked.crossorigin:
        options["crossorigin"] = asked.crossorigin
    if asked.element and asked.element.referrer_policy in POLICIES:
        options["referrer_policy"] = asked.element.referrer_policy
    if asked.kind in words:
        add_nonce(command, words[asked.kind], page.html is not None)
    if asked.element and asked.element.integrity and asked.kind in words:
        add_integrity(command, page, asked.element.integrity)
    return command


def add_nonce(command: Command, words: Words, has_html: bool) -> None:
    """The nonce of the element. One that the recorded HTML does not have was inserted by a script, and has a nonce of
    the policy where it was answered."""
    asked, options = command.asked, command.options
    if asked.element:
        if asked.element.nonce:
            options["nonce"] = asked.element.nonce
        return
    if has_html and asked.kind == "script":
        options["parser"] = False
        asked.guesses += [INSERTED] if words.is_dynamic else []
    if words.nonces and not command.chain.first.is_hidden:
        options["nonce"] = words.nonces[0]
        asked.guesses.append("taken to have the policy's nonce, since it was answered")
    elif words.nonces:
        asked.guesses.append("taken to have no nonce, since the page's HTML does not have it")


def policy_headers(page: Page) -> list[tuple[str, str]]:
    """The headers that hold policies: the answer's, and of the `meta` elements."""
    headers = [(name, value) for name, value in (page.entry.got if page.entry else []) if name.lower() in csp.HEADERS]
    return headers + [("Content-Security-Policy", policy) for policy in (page.html.policies if page.html else [])]


def add_integrity(command: Command, page: Page, integrity: str) -> None:
    """The integrity text, and the body to compare it with; an opaque answer has none in any case."""
    command.options["integrity"] = re.sub(r"\s+", " ", integrity).strip()
    is_opaque = command.asked.mode == "no-cors" and any(hop.origin != origin_of(page.url) for hop in command.chain.hops)
    command.body = text_of_body(command.chain.last)
    if command.body is None and not is_opaque:
        command.notes.append(NO_BODY)
    elif not is_opaque and not command.chain.last.is_body_exact:
        command.asked.guesses.append("its bytes are taken to be those of the text that the recording has")


def text_of_body(entry: Entry) -> Optional[str]:
    """The body as a scenario can have it; None where it is not recorded whole, too long, or no UTF-8."""
    body = entry.whole_body
    if body is None or len(body) > LARGEST_BODY:
        return None
    try:
        text = body.decode("utf-8")
    except UnicodeDecodeError:
        return None
    return text if len(json.dumps(text)) <= MOST_WRITTEN else None
