"""For each way of the table a scenario whose first fetch, or the one that is named, comes to it."""
from __future__ import annotations

import json
from typing import Any, Dict, Iterator, List, Sequence

Data = Dict[str, Any]  # a scenario, or a part of it
Header = List[str]

PAGE = "https://shop.test"
API = "https://api.test"
OK = ["Access-Control-Allow-Origin", PAGE]
TRUE = ["Access-Control-Allow-Credentials", "true"]
INCLUDE: Data = {"credentials": "include"}
DIGEST = {"sha256": "ungWv48Bz+pBQUDeXa4iI7ADYaOWF3qctBD/YfIAFa0=",  # of abc
          "sha384": "ywB1P0WjXou1oD1pmsZQBycsMqsO3tFjGotgWkP/W+2AhgcroefMI1i67KE0yCWn"}


def rule(status: int = 200, headers: Sequence[Header] = (), body: str = "", **more: Any) -> Data:
    return {"status": status, "headers": [list(one) for one in headers], "body": body, **more}


def allow(*headers: Header, **more: Any) -> list[Data]:
    """The rules of a server: what it answers to OPTIONS, and that all else is allowed."""
    return [rule(204, [OK, *headers], method="OPTIONS", **more), rule(200, [OK, TRUE])]


def scenario(command: Data | list[Data], rules: list[Data] | None = None, origin: str = API, page: str = f"{PAGE}/",
             headers: Sequence[Header] = (), **more: Any) -> Data:
    script = command if isinstance(command, list) else [command]
    document: Data = {"url": page, "headers": [list(one) for one in headers], "script": script}
    if "top" in more:
        document["top"] = more.pop("top")
    servers = [] if rules is None else [{"origin": origin, "rules": rules}]
    return {"format": 2, "servers": servers + more.pop("servers", []), "documents": [document], **more}


def fetch(url: str = f"{API}/x", **more: Any) -> Data:
    return {"fetch": {"url": url, **more}}


def load(kind: str, url: str = f"{API}/x", **more: Any) -> Data:
    return {"load": {"kind": kind, "url": url, **more}}


def answered(*headers: Header, status: int = 200, body: str = "", **more: Any) -> Data:
    """A plain fetch, and its answer."""
    return scenario(fetch(**more), [rule(status, headers, body)])


def raw(text: str, **more: Any) -> Data:
    return scenario(fetch(**more), [{"raw": text}])


PUT: Data = {"method": "PUT"}
NAMED: Data = {"headers": [["X-A", "1"]]}
SECRET: Data = {"headers": [["Authorization", "Basic YTpi"]]}
POLICY = "Content-Security-Policy"
JUMP = [rule(302, [["Location", "https://cdn.test/y"]])]


def policed(policy: str, command: Data | list[Data] | None = None, **more: Any) -> Data:
    """A command of a page with this policy."""
    return scenario(command or fetch(), headers=[[POLICY, policy]], **more)


CORS = {
    "cors/no-rule": scenario(fetch(API + "/cart/"), [rule(200, [OK], path="/cart")]),
    "cors/preflight-redirect": scenario(fetch(**PUT), [rule(302, [["Location", "/x/"]], path="/x"), rule(200)]),
    "cors/preflight-login": scenario(fetch(**PUT), [rule(401)]),
    "cors/preflight-not-handled": scenario(fetch(**PUT), [rule(405)]),
    "cors/preflight-status": scenario(fetch(**PUT), [rule(500)]),
    "cors/absent-on-error": answered(status=500),
    "cors/absent-on-redirect": scenario(fetch(), JUMP),
    "redirect/cycle": scenario(fetch(), [rule(302, [OK, ["Location", "https://cdn.test/y"]])], servers=[
        {"origin": "https://cdn.test", "rules": [rule(302, [["Location", API + "/x"]])]}]),
    "cors/absent": answered(),
    "cors/several": answered(OK, OK),
    "cors/star-with-credentials": answered(["Access-Control-Allow-Origin", "*"], **INCLUDE),
    "cors/origin-null": scenario(fetch(), [rule(302, [OK, ["Location", "https://cdn.test/y"]])],
                                 servers=[{"origin": "https://cdn.test", "rules": [rule(200, [OK])]}]),
    "cors/written-otherwise": answered(["Access-Control-Allow-Origin", PAGE + "/"]),
    "cors/other-origin": answered(["Access-Control-Allow-Origin", "https://other.test"]),
    "cors/credentials-absent": answered(OK, **INCLUDE),
    "cors/credentials-not-true": answered(OK, ["Access-Control-Allow-Credentials", "True"], **INCLUDE),
}
PREFLIGHTS = {
    "preflight/redirect": scenario(fetch(**PUT), [rule(301, [OK, ["Location", "/x/"]])]),
    "preflight/login": scenario(fetch(**PUT), [rule(401, [OK])]),
    "preflight/no-handler": scenario(fetch(**PUT), [rule(405, [OK])]),
    "preflight/status": scenario(fetch(**PUT), [rule(503, [OK])]),
    "preflight/list": scenario(fetch(**PUT), allow(["Access-Control-Allow-Methods", "GET PUT"])),
    "preflight/method-absent": scenario(fetch(**PUT), allow()),
    "preflight/method-star-with-credentials": scenario(fetch(**PUT, **INCLUDE),
                                                       allow(TRUE, ["Access-Control-Allow-Methods", "*"])),
    "preflight/method-in-another-case": scenario(fetch(method="patch"),
                                                 allow(["Access-Control-Allow-Methods", "PATCH"])),
    "preflight/method-not-listed": scenario(fetch(**PUT), allow(["Access-Control-Allow-Methods", "GET, POST"])),
    "preflight/authorization-under-star": scenario(fetch(**SECRET), allow(["Access-Control-Allow-Headers", "*"])),
    "preflight/header-of-answers": scenario(fetch(headers=[["Access-Control-Allow-Origin", "*"]]), allow()),
    "preflight/user-agent": scenario(fetch(headers=[["User-Agent", "curl/8.9"]]), allow()),
    "preflight/header-absent": scenario(fetch(**NAMED), allow()),
    "preflight/header-star-with-credentials": scenario(fetch(**NAMED, **INCLUDE),
                                                       allow(TRUE, ["Access-Control-Allow-Headers", "*"])),
    "preflight/header-not-listed": scenario(fetch(**NAMED), allow(["Access-Control-Allow-Headers", "X-B"])),
}
UNLOADED = {
    "no-verdict/data": scenario(load("image", "data:image/png,a"), headers=[[POLICY, "img-src 'self'"]]),
    "no-verdict/blob": scenario(fetch("blob:https://shop.test/1")),
    "mixed/websocket": scenario(fetch("ws://api.test/x")),
    "no-verdict/websocket": scenario(fetch("wss://api.test/x"), headers=[[POLICY, "connect-src wss://api.test"]]),
}
POLICIES = {
    "policy/quotes": policed("connect-src self", fetch("/x")),
    "policy/strict-dynamic": policed("script-src 'strict-dynamic' 'nonce-n1'", load("script")),
    "policy/nonce-differs": policed("script-src 'nonce-n1'", load("script", nonce="n2")),
    "policy/nonce-absent": policed("style-src 'nonce-n1'", load("style")),
    "policy/hash-absent": policed("script-src 'sha256-AAAA'", load("script", integrity="sha256-" + DIGEST["sha256"]),
                                 servers=[{"origin": API, "rules": [rule(200, body="abc")]}]),
    "policy/nothing-allowed": policed("default-src 'none'"),
    "policy/loopback-address": policed("connect-src http://127.0.0.1:80", fetch("http://127.0.0.1/x"),
                                       page="http://shop.test/"),
    "policy/ip-address": policed("connect-src https://203.0.113.7", fetch("https://203.0.113.7/x")),
    "policy/colon": policed("connect-src https"),
    "policy/path-star": policed("connect-src https://api.test/*"),
    "policy/path-slash": policed("connect-src https://api.test/v1", fetch(API + "/v1/x")),
    "policy/port": policed("connect-src https://api.test", fetch("https://api.test:8443/x")),
    "policy/scheme": policed("connect-src https://api.test", fetch("http://api.test/x"), page="http://shop.test/"),
    "policy/path": policed("connect-src https://api.test/UI/", fetch(API + "/ui/3.2/x")),
    "policy/host": policed("connect-src https://example.test", fetch("https://api.example.test/x")),
    "policy/after-redirect": scenario(fetch("/go"), JUMP, PAGE, headers=[[POLICY, "connect-src 'self'"]]),
    "policy/no-word": policed("connect-src 'self'"),
}
BEFORE_SENDING = {
    "scheme/host-taken-for-it": scenario(fetch("localhost:8000/x")),
    "scheme/other": scenario(fetch("ftp://api.test/x")),
    "port/bad": scenario(fetch("https://api.test:6000/x")),
    "mixed/ip-address": scenario(load("image", "http://203.0.113.7/x")),
    "mixed/top": scenario(fetch("http://api.test/x"), page="http://widget.test/", top="https://news.test/"),
    "mixed/page": scenario(fetch("http://api.test/x")),
    "same-origin/known-host": scenario(fetch("/x", mode="same-origin"), page="http://shop.test/",
                                       hsts=[{"host": "shop.test", "subdomains": False, "until": 10}]),
    "same-origin/redirect": scenario(fetch("/go", mode="same-origin"), JUMP, PAGE),
    "same-origin/other": scenario(fetch(mode="same-origin")),
    "no-cors/redirect-mode": scenario(fetch(mode="no-cors", redirect="manual")),
}
ANSWERS = {
    "corp/same-origin": scenario(load("image"), [rule(200, [["Cross-Origin-Resource-Policy", "same-origin"]])]),
    "corp/same-site-scheme": scenario(load("image", "https://img.shop.test/x"),
                                      [rule(200, [["Cross-Origin-Resource-Policy", "same-site"]])],
                                      "https://img.shop.test", page="http://shop.test/"),
    "corp/same-site": scenario(load("image"), [rule(200, [["Cross-Origin-Resource-Policy", "same-site"]])]),
    "redirect/mode-error": answered(OK, ["Location", "/y"], status=302, redirect="error"),
    "redirect/two-locations": answered(OK, ["Location", "/y"], ["Location", "/z"], status=302),
    "redirect/long-location": answered(OK, ["Location", "/" + "y" * 8192], status=302),
    "redirect/no-url": answered(OK, ["Location", "http://[::1"], status=302),
    "redirect/scheme": answered(OK, ["Location", "app://open"], status=302),
    "redirect/loop": answered(OK, ["Location", "/x"], status=302),
    "redirect/many": scenario(fetch(API + "/0"), [rule(302, [OK, ["Location", f"/{number + 1}"]], path=f"/{number}")
                                                  for number in range(22)]),
    "redirect/credentials": answered(OK, ["Location", "https://u:p@cdn.test/"], status=302),
    "policy/response": scenario(fetch("http://h.test/x"), [rule(200, [["Access-Control-Allow-Origin", "*"]])],
                                "https://h.test",
                                page="http://shop.test/", headers=[[POLICY, "connect-src http://h.test:80"]],
                                hsts=[{"host": "h.test", "subdomains": False, "until": 10}]),
    "type/script": scenario(load("script"), [rule(200, [["Content-Type", "image/png"]])]),
    "type/nosniff-absent": scenario(load("style"), [rule(200, [["X-Content-Type-Options", "nosniff"]])]),
    "type/nosniff": scenario(load("script"),
                             [rule(200, [["X-Content-Type-Options", "nosniff"], ["Content-Type", "text/plain"]])]),
    "integrity/opaque": scenario(load("script", integrity="sha256-" + DIGEST["sha256"]), [rule(200, body="abc")]),
    "integrity/opaqueredirect": scenario(fetch("/go", redirect="manual", integrity="sha256-" + DIGEST["sha256"]), JUMP,
                                         PAGE),
    "integrity/no-body": answered(OK, status=204, integrity="sha256-" + DIGEST["sha256"]),
    "integrity/incomplete": answered(OK, ["Content-Length", "9"], body="abc", integrity="sha256-" + DIGEST["sha256"]),
    "integrity/toobig": scenario(fetch(integrity="sha256-" + DIGEST["sha256"]), [rule(200, [OK], "abc")], body_limit=2),
    "integrity/unpadded": answered(OK, body="abc", integrity="sha256-" + DIGEST["sha256"].rstrip("=")),
    "integrity/stale-strongest": answered(OK, body="abc", integrity=f"sha256-{DIGEST['sha256']} sha384-AAAA"),
    "integrity/mismatch": answered(OK, body="abd", integrity="sha256-" + DIGEST["sha256"]),
    "no-verdict/coded": answered(OK, ["Content-Encoding", "gzip"], body="abc"),
    "head/host-as-path": scenario(fetch("api.test/x"), [rule(200, [OK])]),
    "head/no-server": scenario(fetch(), [rule()], "https://api.test:8443"),
    "head/nothing": raw(""),
    "head/tls": raw("\x15\x03\x01 "),
    "head/cut": raw("HTTP/1.1 200 OK\r\nA: b\r\n"),
    "head/bad-line": raw("HTTP/1.1 200 OK\r\nA b\r\n\r\n"),
    "head/many-lines": raw("HTTP/1.1 200 OK\r\n" + "A: b\r\n" * 129 + "\r\n"),
    "head/no-status-line": raw("SSH-2.0-OpenSSH_9.2\r\n\r\n"),
    "head/too-big": raw("HTTP/1.1 200 OK\r\nA: " + "b" * 65536 + "\r\n\r\n"),
}
SAID_BYTES = [fetch("/bytes"), fetch("/${body}")]
REQUESTS = {
    "request/long-url": scenario(fetch("/" + "x" * 8192)),
    "request/url-bytes": (scenario(SAID_BYTES, [{"raw": "HTTP/1.1 200 OK\r\nContent-Length: 1\r\n\r\n\u00e9"}], PAGE),
                          "fetch 1"),
    "request/no-url": scenario(fetch("https://api.test:99999/x")),
    "request/url-credentials": scenario(fetch("https://u:p@api.test/x")),
    "request/bad-method": scenario(fetch(method="PU T")),
    "request/forbidden-method": scenario(fetch(method="TRACE")),
    "request/body-with-get": scenario(fetch(body="a")),
    "request/no-cors-method": scenario(fetch(method="PUT", mode="no-cors")),
    "request/bad-header-name": scenario(fetch(headers=[["X-A:", "1"]])),
    "request/bad-header-value": scenario(fetch(headers=[["X-A", "1\n2"]])),
    "request/navigate": scenario(fetch(mode="navigate")),
    "request/long-text": scenario(fetch("/" + "x" * 786432)),
    "request/long-body": scenario(fetch(method="POST", body="a" * 65537)),
    "request/long-headers": scenario(fetch(headers=[["X-A", "a" * 16384]])),
}
SEEN = {
    "seen/no-rule": scenario(fetch("/cart/"), [rule(path="/cart")], PAGE),
    "seen/opaque": scenario(fetch(mode="no-cors"), [rule()]),
    "seen/opaqueredirect": scenario(fetch("/go", redirect="manual"), JUMP, PAGE),
    "body/two-lengths": answered(OK, ["Content-Length", "9"], ["Content-Length", "3"], body="abc"),
    "seen/body-cut": answered(OK, ["Content-Length", "9"], body="abc"),
    "seen/body-toobig": scenario(fetch(), [rule(200, [OK], "abc")], body_limit=2),
    "seen/exposed-list": answered(OK, ["Access-Control-Expose-Headers", "X-Page X-Total"], ["X-Total", "4"]),
    "seen/star-with-credentials": answered(OK, TRUE, ["Access-Control-Expose-Headers", "*"], ["X-Total", "4"],
                                           **INCLUDE),
    "seen/hidden-headers": answered(OK, ["X-Total", "4"]),
}
# ways that are told of other policies alone: of URLs that this engine does not load, and of those that only report
REPORTED = {
    "policy/data-script": policed("script-src 'self'", load("script", "data:text/javascript,a")),
    "policy/before-upgrade": scenario(load("image", "http://img.test/x"),
                                      headers=[[POLICY + "-Report-Only", "img-src https:"]]),
}
# what bin/ask alone comes to, by connections of its own: commands/check_ask reaches each
DIRECT = {"link/tls-port", "link/certificate", "link/no-tls", "body/not-its-coding", "body/coding-cut"}
CODED = {"body/not-its-coding", "body/coding-cut"}

# Over real connections: what a server answers (bytes), or a word for what else happens; see the check.
NET = {
    "cors/tls-port-asked-in-plain": b"HTTP/1.1 400 Bad Request\r\n\r\nplain HTTP request sent to TLS port",
    "link/no-route": None,
    "link/bad-address": "nowhere",
    "link/unknown-name": "no-such-name.invalid:80",
    "link/refused": "closed",
    "link/unreached": "full",
    "link/hang": "hang",
    "link/reset": "reset",
    "head/tls": b"\x15\x03\x01\x00\x02\x02\x46",
    "head/nothing": b"",
    "seen/body-hang": "stalled",
    "seen/body-fault": "broken",
}


def scripted() -> Iterator[tuple[str, str, str | None]]:
    """Each way's name, its scenario as a text, and the name of the fetch."""
    tables: tuple[dict[str, Any], ...] = (CORS, PREFLIGHTS, UNLOADED, BEFORE_SENDING, POLICIES, ANSWERS, REQUESTS,
                                          SEEN)
    for name, given in (row for table in tables for row in table.items()):
        data, which = given if isinstance(given, tuple) else (given, None)
        yield name, json.dumps(data), which
