"""What the answers to a request need, so that CORS lets it pass: the headers of the answer to its preflight and of its
own, in values that keep what the server sends already."""
from __future__ import annotations

import re
from typing import TYPE_CHECKING

from fiorrudda.commands import edits, guards
from fiorrudda.commands.scenario import origin_of
from fiorrudda.commands.there import there

if TYPE_CHECKING:
    from collections.abc import Iterable

    from fiorrudda.commands.answers import Head
    from fiorrudda.commands.shapes import Edit, Object, Wanted

ALLOW_ORIGIN = "Access-Control-Allow-Origin"
ALLOW_CREDENTIALS = "Access-Control-Allow-Credentials"
ALLOW_METHODS = "Access-Control-Allow-Methods"
ALLOW_HEADERS = "Access-Control-Allow-Headers"
EXPOSE_HEADERS = "Access-Control-Expose-Headers"
VARY = "Vary"
# of an origin in the place of another page's
WHERE_TRUSTED = ", where the server trusts this origin; one that trusts both sends the one that asks"
REDIRECTS = (301, 302, 303, 307, 308)
KEPT_METHODS = ("GET", "HEAD")  # whose answers caches keep (RFC 9111, section 3)
TOKEN = re.compile(r"[!#$%&'*+\-.^_`|~0-9A-Za-z]+")
LIKE_CORS = re.compile(r"ac+es+-cont?rol-", re.I)  # a header of CORS, written right or wrong
# What a script of another origin sees of each answer (Fetch, section 2.2.2, "CORS-safelisted response-header name").
SAFELISTED = {"cache-control", "content-language", "content-length", "content-type", "expires", "last-modified",
              "pragma"}
# What no script sees, and what belongs to the connection, to caches or to a page, and says nothing to a script.
NEVER_MISSED = {
    "alt-svc", "connection", "content-encoding", "content-security-policy", "content-security-policy-report-only",
    "cross-origin-embedder-policy", "cross-origin-opener-policy", "cross-origin-resource-policy", "date",
    "keep-alive", "nel", "origin-agent-cluster", "permissions-policy", "referrer-policy", "report-to",
    "reporting-endpoints", "server", "set-cookie", "set-cookie2", "strict-transport-security",
    "timing-allow-origin", "trailer", "transfer-encoding", "upgrade", "vary", "via", "x-content-type-options",
    "x-frame-options", "x-powered-by", "x-xss-protection"}


def items_of(value: str | None) -> list[str]:
    """The items of a list, without the blanks around them."""
    return [item.strip(" \t") for item in (value or "").split(",") if item.strip(" \t")]


def merged(value: str | None, more: list[str], as_names: bool, known: set[str] | None = None) -> str:
    """A list with more items, each once, and what is no token cut into those in it, as far as they are known. Names
    have no case."""
    found: dict[str, str] = {}
    there: list[str] = []
    for item in items_of(value):
        pieces = [item] if TOKEN.fullmatch(item) else TOKEN.findall(item)
        there += [one for one in pieces if one == item or known is None or one.lower() in known]
    for item in there + list(more):
        found.setdefault(item.lower() if as_names else item, item)
    return ", ".join(found.values())


def unseen(names: list[str], exposing: str | None, includes: bool) -> list[str]:
    """Those of an answer's names that a script of another origin does not see, by the value of its
    Access-Control-Expose-Headers (docs/rules/responses.md)."""
    listed = items_of(exposing)
    exposed = {item.lower() for item in listed} if all(map(TOKEN.fullmatch, listed)) else set()
    if "*" in exposed and not includes:
        return []
    return [name for name in names if name.lower() not in SAFELISTED | exposed]


def missed(names: Iterable[str]) -> list[str]:
    """Those that a script might miss."""
    return [name for name in names if name.lower() not in NEVER_MISSED and not LIKE_CORS.match(name)]


def each_once(names: list[str]) -> list[str]:
    """Each once, whatever its case."""
    found: dict[str, str] = {}
    for name in names:
        found.setdefault(name.lower(), name)
    return list(found.values())


class Needs:
    """What a request to a URL needs: `names` are those of its headers that ask for a preflight. `asked` and `own` are
    the heads that answered the preflight and the request, or would; None where they are not known. `always` says that
    there is a preflight whatever the method and the names are, and `varies` that pages of other origins ask too, or
    may."""

    def __init__(self, url: str, origin: str, includes: bool, method: str, names: list[str], asked: Head | None = None,
                 own: Head | None = None, always: bool = False, varies: bool = False) -> None:
        self.url = url
        self.origin = origin
        self.includes = includes
        self.method = method
        self.names = names
        self.asked = asked
        self.own = own
        self.always = always
        self.varies = varies

    def is_preflighted(self) -> bool:
        return self.always or bool(self.names) or self.method not in guards.SAFELISTED_METHODS

    def of_check(self, head: Head | None) -> Wanted:
        """What the CORS check wants of an answer. An origin that passes stays."""
        allowed = head.get(ALLOW_ORIGIN) if head else None
        stays = allowed == self.origin or (allowed == "*" and not self.includes)
        credentials = [(ALLOW_CREDENTIALS, "true")] if self.includes else []
        return [(ALLOW_ORIGIN, allowed if stays else self.origin), *credentials]

    def of_own(self) -> Wanted:
        found = self.of_check(self.own or self.asked)
        return found + (self.of_vary() if found[0] == (ALLOW_ORIGIN, self.origin) else [])

    def of_vary(self) -> Wanted:
        """That caches keep an answer which allows one origin for pages of that one alone (Fetch, "CORS protocol and
        HTTP caches")."""
        is_one_of_many = self.varies and self.origin not in ("null", "*", origin_of(self.url))
        if not (is_one_of_many and self.method in KEPT_METHODS):
            return []
        if self.own and "no-store" in items_of((self.own.get("Cache-Control") or "").lower()):
            return []
        value = self.own.get(VARY) if self.own else None
        is_there = {"origin", "*"} & set(items_of((value or "").lower()))
        return [(VARY, value if is_there else merged(value, ["Origin"], True))]

    def of_preflight(self) -> Wanted:
        methods = [] if self.method in guards.SAFELISTED_METHODS else [self.method]
        return (self.of_check(self.asked) + self.of_list(ALLOW_METHODS, methods, False)
                + self.of_list(ALLOW_HEADERS, self.names, True))

    def of_list(self, name: str, wanted: list[str], as_names: bool) -> Wanted:
        """A list of the preflight's answer: what is there and what is wanted, and nothing that is covered already. One
        that lacks nothing stays as it is written. Where credentials go along names replace a `*`: a cache that keeps
        it lets later requests skip their preflight."""
        value = self.asked.get(name) if self.asked else None
        there = [item.lower() if as_names else item for item in items_of(value)]
        free = "*" in there and not self.includes
        more = [one for one in wanted if one not in there and not (free and one != "authorization")]
        is_bad = not all(map(TOKEN.fullmatch, items_of(value)))
        if not (more or is_bad):
            return [(name, value)] if wanted else []
        kept = ",".join(item for item in items_of(value) if item != "*" or not self.includes)
        return [(name, merged(kept, more, as_names))]

    def preflight_edits(self) -> list[Edit]:
        """What is to be changed at the answer to the preflight, all at once."""
        status = self.asked.status if self.asked else 0
        wrong = [] if 200 <= status <= 299 else [edits.preflight(self.url, "status", 204)]
        return wrong + [edits.preflight(self.url, name, value, replaced(self.asked, name))
                        for name, value in self.of_preflight() if is_missing(self.asked, name, value)]

    def marks(self) -> str:
        """Where the answer to the preflight has some of the headers that it needs, and lacks others: which."""
        lacking = {edit["set"]: edit for edit in self.preflight_edits()}
        has = [name for name, _ in self.of_preflight() if name not in lacking]
        if not (self.asked and has and lacking):
            return ""
        has = has if "status" in lacking else [f"a status of {self.asked.status}", *has]
        return f"; now that to OPTIONS has: {', '.join(has)}; lacks: {', '.join(map(part_lacking, lacking.values()))}"

    def own_edits(self) -> list[Edit]:
        return [edits.answer(self.method, self.url, name, value, replaced(self.own, name),
                             self.unseen(self.own, name, value))
                for name, value in self.of_own() if is_missing(self.own, name, value)]

    def unseen(self, head: Head | None, name: str, value: str | None) -> Edit | None:
        """What is said of a header of an answer that is not seen yet, and may have it; None of one that is. Without
        credentials `*` and the origin do as well as each other."""
        if head is not None:
            return None
        is_either = name == ALLOW_ORIGIN and not self.includes and self.origin not in ("*", "null")
        return edits.may_have(("*" if value == self.origin else self.origin) if is_either else None)

    def told(self, head: Head | None, name: str, value: str | None) -> str:
        """A header as it is written, and what it replaces."""
        edit = {"set": name, "value": value, "replaces": replaced(head, name)}
        return edits.told({**edit, **(self.unseen(head, name, value) or {})})

    def all_edits(self) -> list[Edit]:
        return (self.preflight_edits() if self.is_preflighted() else []) + self.own_edits()

    def by_method(self) -> dict[str, dict[str, str | None]]:
        """All of it: the headers by the method that is answered."""
        return {"OPTIONS": dict(self.of_preflight()), self.method: dict(self.of_own())}

    def by_answer(self) -> list[Object]:
        """The same, for each answer that is needed, in order."""
        asked = [("OPTIONS", self.of_preflight())] if self.is_preflighted() else []
        return [{"method": method, "url": self.url, "headers": dict(pairs)}
                for method, pairs in [*asked, (self.method, self.of_own())]]

    def lines(self) -> list[str]:
        """All of it in a sentence for each answer."""
        return ([self.preflight_line()] if self.is_preflighted() else []) + [self.own_line()]

    def preflight_line(self) -> str:
        headers = "".join(", " + self.told(self.asked, *pair) for pair in self.of_preflight())
        unseen = edits.UNSEEN if self.asked is None else ""
        return (f"the answer to OPTIONS at {self.url}{self.as_null()} needs a status of 200 to 299{headers}{unseen}"
                f"{self.where_trusted(self.asked)}")

    def own_line(self) -> str:
        needed = ", ".join(self.told(self.own, *pair) for pair in self.of_own())
        return (f"the answer to {self.method} at {self.url}{self.leading() or self.as_null()} needs {needed}"
                f"{self.known()}{self.where_trusted(self.own)}")

    def as_null(self) -> str:
        """That a detour has taken the origin of the request, so that `*` alone passes it."""
        return ", which is asked with `Origin: null`," if self.origin == "*" else ""

    def leading(self) -> str:
        """That the answer redirects, and where to."""
        is_redirect = self.own is not None and self.own.status in REDIRECTS
        where = there(self.own).get("Location") if is_redirect else None
        return f", which redirects ({there(self.own).status}) to {where}," if where is not None else ""

    def lacking(self) -> list[str]:
        """What the answers lack, in a sentence for each of them."""
        asked = self.preflight_edits() if self.is_preflighted() else []
        rows = [("OPTIONS", asked, self.asked), (self.method, self.own_edits(), self.own)]
        return [f"the answer to {method} at {self.url} needs "
                f"{', '.join(map(lack, own))}{self.where_trusted(head)}" for method, own, head in rows if own]

    def where_trusted(self, head: Head | None) -> str:
        """What is to be said of an answer that allows the origin of another page, which goes on to ask."""
        allowed = head.get(ALLOW_ORIGIN) if head else None
        is_other = allowed is not None and self.origin not in (allowed, "*") and origin_of(allowed) == allowed
        return WHERE_TRUSTED if is_other else ""

    def known(self) -> str:
        """What is to be said of an answer that did not come, or that has all that it needs."""
        if self.own is None:
            return edits.UNSEEN
        return "" if self.own_edits() else ", and has that"


def lack(edit: Edit) -> str:
    return "a status of 200 to 299" if edit["set"] == "status" else edits.told(edit)


def part_lacking(edit: Edit) -> str:
    """What an answer lacks: a header, or of one that it has another value of the parts that this has not."""
    if edit["set"] == "status":
        return lack(edit)
    there = items_of(edit.get("replaces"))
    more = [item for item in items_of(edit["value"]) if item not in there]
    return f"{', '.join(more)} in {edit['set']}" if there and more else str(edit["set"])


def is_missing(head: Head | None, name: str, value: str | None) -> bool:
    return head is None or head.get(name) != value


def replaced(head: Head | None, name: str) -> str | None:
    """The value that a head has by this name, or None."""
    return head.get(name) if head else None
