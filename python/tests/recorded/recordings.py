"""For the check: small recordings, made of a few words; and recordings as tools write them that tell less."""
from __future__ import annotations

from typing import Any, Iterator

SHOP = "https://shop.test"


def headers(pairs: Any) -> list[dict[str, str]]:
    return [{"name": name, "value": value} for name, value in pairs]


def entry(url: str, kind: str, status: int = 200, got: Any = (), sent: Any = (), **more: Any) -> dict[str, Any]:
    """An entry as Chromium's tools write it."""
    return {"_resourceType": kind, "request": {"method": "GET", "url": url, "headers": headers(sent)},
            "response": {"status": status, "headers": headers(got), "content": {}}, **more}


def page(*entries: Any, url: str = SHOP + "/", headers: Any = ()) -> dict[str, Any]:
    return {"log": {"creator": {"name": "WebInspector"}, "pages": [],
                    "entries": [entry(url, "document", got=[("Content-Type", "text/html"), *headers]), *entries]}}


def script(url: str, status: int = 200) -> dict[str, Any]:
    return entry(url, "script", status, [("Content-Type", "text/javascript")])


def image(url: str, initiator: str = "") -> dict[str, Any]:
    return entry(url, "image", 200, [("Content-Type", "image/png")], _initiator={"type": "script", "url": initiator})


def fetched(url: str, allowed: bool = True, cookies: str = "", authorization: str = "") -> dict[str, Any]:
    """A fetch from another origin; one that is not allowed has failed."""
    sent = [pair for pair in (("Cookie", cookies), ("Authorization", authorization)) if pair[1]]
    got = [("Access-Control-Allow-Origin", SHOP), ("Access-Control-Allow-Credentials", "true")] if allowed else []
    found = entry(url, "fetch", 200, got, [("Origin", SHOP), *sent])
    found["response"]["_error"] = None if allowed else "net::ERR_FAILED"
    return found


def plain(url: str, method: str = "GET", status: int = 200, sent: Any = (), got: Any = ()) -> dict[str, Any]:
    """An entry that says nothing of its kind, as a proxy writes it."""
    return {"request": {"method": method, "url": url, "headers": headers(sent)},
            "response": {"status": status, "headers": headers(got)}}


def preflight(url: str, method: str, names: str, status: int, got: Any = ()) -> dict[str, Any]:
    sent = [("Origin", SHOP), ("Access-Control-Request-Method", method), ("Access-Control-Request-Headers", names)]
    found = entry(url, "preflight", status, got, sent)
    found["request"]["method"] = "OPTIONS"
    return found


def failed(found: dict[str, Any], method: str = "GET", error: str = "net::ERR_FAILED") -> dict[str, Any]:
    """An entry without an answer, or whose answer the browser has refused."""
    found["request"]["method"] = method
    found["response"]["_error"] = error
    return found


HTML = [("Content-Type", "text/html")]
OPENED = [("Accept", "text/html,application/xhtml+xml,*/*;q=0.8")]
REFERRED = [("Referer", SHOP + "/")]
PREFLIGHT = [("Origin", SHOP), ("Access-Control-Request-Method", "PUT")]


def log(*entries: Any, **more: Any) -> dict[str, Any]:
    return {"log": {"entries": list(entries), **more}}


def read_otherwise() -> Iterator[tuple[str, Any, Any]]:
    """Recordings with the pages and chains that they are: URL and top of each page, and of its chains the URLs of the
    hops and the numbers of those that have a preflight."""
    api = "https://api.test/x"
    yield ("a preflight behind its request, and one before", log(
        plain(SHOP + "/", got=HTML), plain(api, "PUT", 0, REFERRED), plain(api, "OPTIONS", 204, PREFLIGHT),
        plain(api + "2", "OPTIONS", 204, PREFLIGHT), plain(api + "2", "PUT", 200, REFERRED)),
        [(SHOP + "/", None, [([api], [0]), ([api + "2"], [0])])])
    yield ("a preflight without its request", log(plain(SHOP + "/", got=HTML), plain(api, "OPTIONS", 403, PREFLIGHT)),
           [(SHOP + "/", None, [([api], [0])])])
    yield ("redirects, of the page too", log(
        plain("http://shop.test/", status=301, got=[("Location", SHOP + "/")]), plain(SHOP + "/", got=HTML),
        plain(SHOP + "/go", status=302, got=[("Location", "/there")], sent=REFERRED),
        plain(SHOP + "/there", sent=REFERRED)),
        [(SHOP + "/", None, [([SHOP + "/go", SHOP + "/there"], [])])])
    yield ("two pages without a list of pages", log(
        plain(SHOP + "/", got=HTML, sent=OPENED), plain(SHOP + "/a.js", sent=REFERRED),
        plain(SHOP + "/cart", got=HTML, sent=OPENED), plain(SHOP + "/b.js", sent=[("Referer", SHOP + "/cart")]),
        plain(SHOP + "/c.js", sent=REFERRED)),
        [(SHOP + "/", None, [([SHOP + "/a.js"], []), ([SHOP + "/c.js"], [])]),
         (SHOP + "/cart", None, [([SHOP + "/b.js"], [])])])
    yield ("a frame, and what it asks for", log(
        plain(SHOP + "/", got=HTML, sent=[("Sec-Fetch-Dest", "document")]),
        plain("https://frame.test/", got=HTML, sent=[("Sec-Fetch-Dest", "iframe")]),
        plain(api, sent=[("Sec-Fetch-Dest", "empty"), ("Origin", "https://frame.test")])),
        [(SHOP + "/", None, []), ("https://frame.test/", SHOP + "/", [([api], [])])])
    yield ("a page that is not recorded", log(plain(api, sent=[("Referer", SHOP + "/cart"), ("Origin", SHOP)])),
           [(SHOP + "/cart", None, [([api], [])])])
    yield ("a pseudo header, and what is joined by line ends", log(
        plain(SHOP + "/", got=[(":status", "200"), *HTML], sent=[(":path", "/")]), plain(api, got=[("X-A", "1\n2")])),
        [(SHOP + "/", None, [([api], [])])])
