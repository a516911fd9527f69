"""Makes pages of entries: each document is one, with the loads and fetches that are its own. A frame is one, too."""
from __future__ import annotations

import functools
from typing import Optional

from fiorrudda.commands.scenario import origin_of
from fiorrudda.commands.there import there
from fiorrudda.commands.urls import host_of, without_user_info
from fiorrudda.recorded import elements, kinds, unplayed
from fiorrudda.recorded.chains import chains_of
from fiorrudda.recorded.known_hosts import LATEST, Book, is_domain, is_known
from fiorrudda.recorded.model import Chain, Entry, Page, Recording

UPGRADE = "upgrade-insecure-requests"
UNKNOWN = "the page's own answer is not recorded, so its policies are not known"
NO_HTML = "the page's body is not recorded: policies of its meta elements, nonces and integrity texts are not known"


def add(recording: Recording, titles: dict[str, str], entries: list[Entry]) -> None:
    """Adds the pages of a recording's entries, each behind those before it."""
    groups: dict[Optional[str], list[Entry]] = {}
    last: Optional[str] = None
    for entry in entries:
        last = entry.page if entry.page is not None else last
        groups.setdefault(last, []).append(entry)
    for name, own in groups.items():
        group = Group(titles.get(name or "", ""))
        for chain in chains_of(own):
            group.take(chain)
        recording.pages += [page for page in group.pages if page.entry or page.chains or page.left_out]
    add_known_hosts(recording.pages, entries)


class Group:
    """The documents of one page of the recording, and what is theirs."""

    def __init__(self, title: str):
        self.title = title if origin_of(title) else ""
        self.pages: list[Page] = []
        self.by_url: dict[str, Page] = {}
        self.top: Optional[Page] = None
        self.frames: dict[str, Page] = {}  # of the page at the top: the last one of each origin

    def take(self, chain: Chain) -> None:
        """Takes the next chain: a document of its own, or what one of the documents asked for."""
        page = self.owner_of(chain.first) if self.pages else None
        html = page.html if page else None
        kind, _ = kinds.kind_of(chain.first, html)
        why = None if chain.is_known_host else unplayed.reason(chain.first, kind, html)
        is_below = kind == kinds.DOCUMENT and self.top is not None and is_within(chain.first, self.top)
        is_frame = kind == kinds.FRAME or is_below
        if why is None and self.is_document(chain, kind) and not is_frame:
            self.top, self.frames = self.add(document_of(chain)), {}
            return
        page = page or self.unrecorded(chain.first)
        if why is None and kind in (*kinds.LOADS, kinds.FETCH):
            page.chains.append(chain)
            return
        page.left_out.append((chain.first, why or unplayed.FRAME))
        if why is None and origin_of(chain.last.url):
            frame = self.add(document_of(chain, page.top or page.url))
            self.frames[frame.origin] = frame

    def is_document(self, chain: Chain, kind: str) -> bool:
        """Whether a chain is the page itself; where nothing says what it is, the first that is the page's URL or
        HTML."""
        if not chain.last.origin or kind != kinds.DOCUMENT and self.top is not None:
            return False
        is_html = (chain.last.answered("Content-Type") or "").lower().startswith("text/html")
        is_first = chain.first.asked("Sec-Fetch-Dest") is None and not chain.first.resource_type
        is_own = self.title.partition("#")[0] in [hop.bare_url for hop in chain.hops]
        return kind == kinds.DOCUMENT or (is_first and chain.first.method == "GET" and (is_own or is_html))

    def add(self, page: Page) -> Page:
        self.pages.append(page)
        self.by_url[page.url.partition("#")[0]] = page
        return page

    def unrecorded(self, entry: Entry) -> Page:
        """A page whose own answer is not recorded: by the title, or as the request names it."""
        named = [self.title, entry.asked("Referer") or "", (entry.asked("Origin") or "") + "/"]
        url = next((one for one in named if origin_of(one)), None)
        page = Page(url or f"{entry.origin or 'https://unknown.invalid'}/", notes=[UNKNOWN])
        if url is None:
            page.notes.append("nothing says which page asked: it is taken to be of the first URL's origin")
        self.top = self.top or page
        return self.add(page)

    def owner_of(self, entry: Entry) -> Page:
        """The document that asked: that of the Referer or of the initiator, else one of the origin that the request
        names, else the last one at the top."""
        referer = (entry.asked("Referer") or "").partition("#")[0]
        named = self.by_url.get(referer) or self.by_url.get(entry.initiator)
        if named:
            return named
        is_own = entry.asked("Sec-Fetch-Site") == "same-origin"
        origin = entry.origin if is_own else origin_of(entry.asked("Origin") or "") or origin_of(referer)
        top = self.top or self.pages[-1]
        return top if origin is None or top.origin == origin else self.frames.get(origin, top)


def is_within(entry: Entry, top: Page) -> bool:
    """Whether a document that is asked for while a page is there is a frame of it, where the tools tell its kind
    alone: as the page's HTML has it, or by their lists of pages, where the HTML is not recorded."""
    is_told = entry.asked("Sec-Fetch-Dest") is None and entry.resource_type == kinds.DOCUMENT
    return is_told and (entry.page is not None if top.html is None else entry.bare_url in top.html.frames)


def document_of(chain: Chain, top: Optional[str] = None) -> Page:
    entry = chain.last
    url = without_user_info(entry.bare_url)
    page = Page(url, entry, top, elements.read(entry.body, url))
    if entry.is_hidden:
        page.notes.append(UNKNOWN)
    elif entry.is_still_good:
        page.notes.append("the page came from the HTTP cache (304): what its answer does not repeat is not known")
    elif page.html is None:
        page.notes.append(NO_HTML)
    return page


def add_known_hosts(pages: list[Page], entries: list[Entry]) -> None:
    """Gives each page the hosts that were known when it began, its own answer's among them; and those that the
    browser itself upgraded."""
    book, left = Book(), iter(entries)
    seen: set[int] = set()
    for page in pages:
        begin = page.entry.number if page.entry else page.chains[0].first.number if page.chains else None
        while begin is not None and begin not in seen:
            entry = next(left, None)
            if entry is None:
                break
            seen.add(entry.number)
            book.add(entry)
        page.hsts = book.at(page.entry.started if page.entry else None, functools.partial(names_of, page))
        add_upgraded(page)


def names_of(page: Page) -> set[str]:
    """The hosts of all URLs of a page, and the names above them."""
    hops = [hop for chain in page.chains for hop in chain.hops]
    urls = [page.url, *(chain.url for chain in page.chains), *(page.html.elements if page.html else ())]
    urls += [url for hop in hops for url in (hop.url, hop.answered("Location") or "")]
    labels = [host_of(url).split(".") for url in urls]
    return {".".join(own[place:]) for own in labels for place in range(len(own))}


def add_upgraded(page: Page) -> None:
    """The hosts that the browser took for known ones, which no answer before has made known."""
    upgraded = [chain.is_known_host or is_upgraded_alone(chain.first, page) for chain in page.chains]
    if not any(upgraded):
        return
    book = Book()
    for chain, is_upgraded in zip(page.chains, upgraded):
        host = host_of(chain.url) if is_upgraded else ""
        if is_upgraded and is_domain(host) and not is_known(host, page.hsts + book.at(chain.first.started)):
            page.hsts.append({"host": host, "subdomains": False, "until": LATEST})
            page.notes.append(f"{host} is taken for a known host (HSTS): the browser made its URL https by itself")
        for entry in chain.entries:
            book.add(entry)


def is_upgraded_alone(entry: Entry, page: Page) -> bool:
    """Whether a page over http names an http URL, and https was asked, though no policy of the page says so."""
    if not page.url.startswith("http:") or not page.html:
        return False
    elements_of = page.html.elements.get(entry.bare_url, [])
    if not any(one.url.startswith("http:") for one in elements_of):
        return False
    policies = [there(page.entry).answered("Content-Security-Policy") or "", *page.html.policies]
    return entry.url.startswith("https:") and not any(UPGRADE in policy for policy in policies)
