"""Scenarios whose advice commands/check_advice follows to the end, beside those of cases.py: mistakes that stand
together, what a server sends already, chains of redirects, and policies as people write them."""
from __future__ import annotations

from typing import Any, Iterator, Union

from tests.commands.cases import (API, DIGEST, INCLUDE, NAMED, OK, PAGE, POLICY, PUT, SECRET, TRUE, Data, Header, allow,
                                  answered, fetch, load, policed, raw, rule, scenario)

JSON: Data = {"method": "PUT", "headers": [["Content-Type", "application/json"], ["Authorization", "Bearer a"]],
              "body": "{}"}
ALLOW = "Access-Control-Allow-"
STAR = [ALLOW + "Origin", "*"]
OTHER = [ALLOW + "Origin", "https://other.test"]
REPORT = POLICY + "-Report-Only"
CDN = "https://cdn.test"
IMAGES = "https://img.test"
SCRIPT = "sha256-" + DIGEST["sha256"]
KNOWN: Data = {"hsts": [{"host": "shop.test", "subdomains": False, "until": 10}], "page": "http://shop.test/"}
UPGRADE = "; upgrade-insecure-requests"
OWN = ["Cross-Origin-Resource-Policy", "same-origin"]


def methods(value: str) -> Header:
    return [ALLOW + "Methods", value]


def names(value: str) -> Header:
    return [ALLOW + "Headers", value]


def exposed(value: str) -> Header:
    return ["Access-Control-Expose-Headers", value]


def asked(status: int, *headers: Header, **more: Any) -> Data:
    """A rule for OPTIONS."""
    return rule(status, headers, method="OPTIONS", **more)


def led(location: str, status: int = 302, *headers: Header, **more: Any) -> Data:
    """A rule that redirects."""
    return rule(status, [["Location", location], *headers], **more)


def at(origin: str, *rules: Data) -> Data:
    """The servers of a scenario that has one more."""
    return {"servers": [{"origin": origin, "rules": list(rules)}]}


def reported(policy: str, command: Data, **more: Any) -> Data:
    """A command of a page with this policy, which only reports."""
    return scenario(command, headers=[[REPORT, policy]], **more)


def script(**more: Any) -> Data:
    return load("script", **more)


# What a page loads: of each kind something of its own and of others, and one that is upgraded.
EACH_KIND = [*(load(kind, origin + "/" + kind) for kind in ("script", "style", "image", "audio", "font", "manifest")
               for origin in (PAGE, CDN)),
             load("image", "http://img.test/i.png"), script(url=CDN + "/n.js", nonce="n1"), fetch("/x"), fetch()]
CODE = at(API, rule(200, [STAR], "abc"))  # of the digest above

PREFLIGHTS = {
    "a bare 404 and JSON with credentials": scenario(fetch(**JSON, **INCLUDE), [asked(404), rule()]),
    "a bare redirect to a slash": scenario(fetch(**PUT), [led("/x/", 301, path="/x"), asked(404, path="/x/"), rule()]),
    "a bare redirect to a login": scenario(fetch(**PUT), [led("https://login.test/", method="OPTIONS"), rule()]),
    "a bare redirect to a login that any page may read": scenario(
        fetch(**PUT), [led("/login", method="OPTIONS", path="/x"), *allow(methods("PUT"))]),
    "a redirect to a login, with CORS headers": scenario(
        fetch(**PUT), [led("/start?next=%2Fx", 302, OK, method="OPTIONS", path="/x"), rule(200, [OK])]),
    "a redirect without a Location": scenario(fetch(**PUT), [asked(302), rule()]),
    "a redirect with a star, and credentials": scenario(
        fetch(**PUT, **INCLUDE), [led("/x/", 308, STAR, method="OPTIONS", path="/x"), rule()]),
    "a 405 that allows another page": scenario(fetch(**PUT), [asked(405, OTHER), rule()]),
    "a 405 with a star, and credentials": scenario(fetch(**PUT, **INCLUDE), [asked(405, STAR), rule()]),
    "a 401 with all but the status": scenario(fetch(**PUT), [asked(401, OK, methods("PUT")), rule(200, [OK])]),
    "a 304": scenario(fetch(**PUT), [asked(304), rule()]),
    "a 500 with lists of others": scenario(
        fetch(**JSON), [asked(500, OK, methods("GET, POST"), names("X-Requested-With")), rule(200, [OK])]),
    "no rule for OPTIONS": scenario(fetch(**PUT), [rule(200, [OK], method="PUT")]),
    "one name of two": scenario(fetch(**JSON), allow(methods("PUT"), names("content-type"))),
    "a name in capitals": scenario(fetch(**JSON), allow(methods("PUT"), names("CONTENT-TYPE, X-A"))),
    "names twice": scenario(fetch(**NAMED), allow(names("x-b, X-B, content-type"))),
    "methods of others": scenario(fetch(method="DELETE"), allow(methods("GET, POST, PUT"))),
    "a method in small letters": scenario(fetch(**PUT), allow(methods("put, GET"))),
    "a star and Authorization": scenario(fetch(**SECRET), allow(names("*"))),
    "a star in three lists, and credentials": scenario(
        fetch(**JSON, **INCLUDE), [asked(204, STAR, methods("*"), names("*")), rule(200, [STAR])]),
    "a star in two lists, and credentials": scenario(fetch(**JSON, **INCLUDE), allow(TRUE, methods("*"), names("*"))),
    "quotes in a list": scenario(fetch(**JSON), allow(methods('"PUT", "GET"'), names("[Content-Type]"))),
    "blanks between names": scenario(fetch(**JSON), allow(methods("GET PUT"), names("Content-Type Authorization"))),
    "a bad list of a POST": scenario(fetch(**NAMED, method="POST", body="a"), allow(methods("GET;POST"), names("X-A"))),
    "an origin with a slash, JSON and credentials": scenario(
        fetch(**JSON, **INCLUDE), [asked(204, [ALLOW + "Origin", PAGE + "/"]), rule()]),
    "credentials in capitals": scenario(fetch(**PUT, **INCLUDE), [
        asked(204, OK, [ALLOW + "Credentials", "TRUE"]), rule()]),
    "a preflight before headers that are not exposed": scenario(
        fetch(**PUT), [asked(404), rule(200, [["X-Total", "4"], ["Date", "now"], ["ETag", '"1"'], ["Expires", "0"]])]),
    "a preflight before a header that is asked for": scenario(
        [fetch(**PUT), fetch("/${header:X-Next}")], [asked(404), rule()]),
    "an upload": scenario(fetch(method="POST", body="a", upload=True), [asked(404), rule()]),
}
CORS = {
    "a misspelt header": answered([ALLOW + "Orgin", "*"]),
    "two origins in one": answered([ALLOW + "Origin", PAGE + ", https://other.test"], **INCLUDE),
    "an error with credentials": answered(status=503, **INCLUDE),
    "a font": scenario(load("font"), [rule()]),
    "a script with use-credentials": scenario(script(crossorigin="use-credentials"), [rule(200, [STAR])]),
    "credentials that are not allowed": scenario(load("image", crossorigin="use-credentials"), [rule(200, [OK])]),
    "bytes with the header twice": raw(f"HTTP/1.1 200 OK\r\n{STAR[0]}: *\r\n{STAR[0]}: *\r\n\r\nhi"),
    "exposed names of others": answered(OK, exposed("x-page, X-PAGE"), ["X-Total", "4"], ["X-Page", "1"],
                                        ["X-Rest", "2"]),
    "an exposed star, credentials and a name": answered(
        OK, TRUE, exposed("*, X-Page"), ["X-Total", "4"], ["X-Page", "1"], **INCLUDE),
    "a refused answer with headers": answered(exposed("X-Page"), ["X-Total", "4"], ["X-Page", "1"]),
    "a refused answer that exposes all": answered(exposed("*"), ["X-Total", "4"]),
    "an image that is not shared": scenario(
        load("image", "https://img.shop.test/x"), [rule(200, [OWN])], "https://img.shop.test"),
    "no-cors with a header that is dropped": scenario(fetch(mode="no-cors", **NAMED), [rule(200, [OWN])]),
    "an opaque POST of JSON": scenario(fetch(mode="no-cors", **{**JSON, "method": "POST"}), [rule()]),
    "an opaque answer with credentials": scenario(fetch(mode="no-cors", **INCLUDE), [rule(200, [STAR])]),
    "no rule, opaque": scenario(fetch(API + "/y", mode="no-cors"), [rule(path="/x")]),
    "a server of another port": scenario(fetch(), [rule(200, [OK])], API + ":8443"),
    "a page that wants to be of one origin, and no headers": scenario(fetch(mode="same-origin"), [rule()]),
}
CHAINS = {
    "a redirect without headers, then none": scenario(fetch(API + "/1"), [led("/2", path="/1"), rule(path="/2")]),
    "home, away": scenario(fetch("/go"), [led(API + "/x")], PAGE, **at(API, rule())),
    "away, further away": scenario(fetch(API + "/1"), [led(CDN + "/2", 302, OK)], **at(CDN, rule(200, [OK]))),
    "away, further away, with credentials": scenario(
        fetch(API + "/1", **INCLUDE), [led(CDN + "/2", 302, OK, TRUE)], **at(CDN, rule(200, [OK, TRUE]))),
    "away, further away, without headers": scenario(fetch(API + "/1"), [led(CDN + "/2", 302, OK)], **at(CDN, rule())),
    "away and home": scenario(fetch(API + "/1"), [led(PAGE + "/2", 302, OK)], **at(PAGE, rule())),
    "a PUT that is led on": scenario(
        fetch(API + "/1", **PUT), [asked(204, OK, methods("PUT")), led("/2", 307, path="/1"), rule(path="/2")]),
    "a PUT that is led away": scenario(
        fetch(API + "/1", **PUT), [asked(204, OK, methods("PUT")), led(CDN + "/2", 307, OK)],
        **at(CDN, rule(204, [OK, methods("PUT")]))),
    "a POST that becomes a GET": scenario(
        fetch(API + "/1", method="POST", body="a"), [led(CDN + "/2", 303, OK)], **at(CDN, rule(200, [OK]))),
    "a bare redirect to a login, of a GET": scenario(
        fetch(**INCLUDE), [led("/signin", path="/x"), rule(200, [OK, TRUE])]),
    "a redirect to http": scenario(fetch("/go"), [led("http://api.test/x")], PAGE, **at(API, rule(200, [OK]))),
    "a redirect to a bad port": scenario(fetch("/go"), [led("https://shop.test:6000/x")], PAGE),
    "an opaque chain with an integrity text": scenario(
        script(url=API + "/1", integrity=SCRIPT), [led(CDN + "/2")], **at(CDN, rule(200, body="abc"))),
    "a redirect of a same-origin fetch": scenario(
        fetch("/go", mode="same-origin"), [led(API + "/x")], PAGE, **at(API, rule())),
    "two that lead to each other": scenario(fetch(), [led(CDN + "/y")], **at(CDN, led(API + "/x"))),
    "a POST that leads to itself as a GET": scenario(
        fetch(method="POST", body="a"), [led("/x", 303, method="POST"), rule()]),
    "preflights that lead to each other": scenario(
        fetch(**PUT), [led(CDN + "/x", method="OPTIONS"), rule()],
        **at(CDN, led(API + "/x", method="OPTIONS"), rule())),
    "a slash that is put there and taken away": scenario(fetch(**PUT), [led("/x/", path="/x"), led("/x", path="/x/")]),
    "an error mode without a Location": answered(OK, status=302, redirect="error"),
    "an opaque redirect to another origin": scenario(
        fetch("/go", redirect="manual"), [led(API + "/x")], PAGE, **at(API, rule())),
}
# Redirects of which all is said at the first try: a header that asks for a preflight asks for one at the target too.
LED_ON = {
    "Authorization that is led on": scenario(
        fetch(API + "/1", **SECRET), [asked(404), led("/2", 307, path="/1"), rule()]),
    "a redirect behind its preflight": scenario(
        fetch(API + "/1", **{**JSON, "headers": JSON["headers"][:1]}), [
            asked(204, OK, methods("PUT"), names("content-type"), path="/1"), asked(405), led("/2", 308, path="/1"),
            rule()]),
    "a header that is led away": scenario(
        fetch(API + "/1", headers=[["Authorization", "Bearer a"], ["X-A", "1"]]), [asked(404), led(CDN + "/2", 308)],
        **at(CDN, asked(404), rule())),
    "a cookie that is led away": scenario(
        fetch(API + "/1", **INCLUDE), [led(CDN + "/2")], **at(CDN, rule())),
    "a JSON POST that becomes a GET": scenario(
        fetch(API + "/1", **{**JSON, "method": "POST", "headers": JSON["headers"][:1]}), [
            asked(404), led("/2", 303, path="/1"), rule()]),
    "a chain of three": scenario(
        fetch(API + "/1", **PUT), [asked(404), led("/2", 307, path="/1"), led("/3", 308, path="/2"), rule()]),
    "a chain of three, with a header at its end": scenario(
        fetch(API + "/1", **PUT), [asked(404), led("/2", 307, path="/1"),
                                   rule(200, [["X-Total", "4"], ["X-Page", "1"], exposed("X-Page")])]),
    "a redirect to http behind a preflight": scenario(
        fetch(API + "/1", **PUT), [asked(404), led("http://api.test/2", 307, path="/1"), rule()]),
    "a redirect that a policy refuses": policed(
        "connect-src https://api.test", fetch(API + "/1"), servers=[
            {"origin": API, "rules": [led(CDN + "/2")]}, {"origin": CDN, "rules": [rule(200, [STAR])]}]),
    "a redirect with a user's name": scenario(
        fetch(API + "/1", **PUT), [asked(404), led("https://me:pw@api.test/2", 307, path="/1"), rule()]),
    "a preflight, and a redirect to a login": scenario(
        fetch(API + "/1", **PUT), [asked(404), led("/login", 302, path="/1"), rule()]),
    "a PUT that a slash leads on": scenario(
        fetch(API + "/1", **{**JSON, "headers": JSON["headers"][:1]}, **INCLUDE), [
            asked(204, OK, TRUE, methods("PUT"), names("content-type"), path="/1"), asked(404),
            led("/1/", 307, path="/1"), rule(200, [OK, TRUE])]),
    "a PUT that is led to another host": scenario(
        fetch(API + "/1", **PUT, **INCLUDE), [asked(204, OK, TRUE, methods("PUT")), led(CDN + "/1", 307, OK, TRUE)],
        **at(CDN, asked(204, OK, TRUE, methods("PUT")), rule(200, [OK, TRUE]))),
    "a header that is hidden, and read": scenario(
        [fetch(), fetch(API + "/v/${header:X-Next}")],
        [rule(200, [OK, ["X-Next", "3"], ["X-Page", "1"], exposed("X-Page")])]),
    "home, away with a header": scenario(
        fetch("/go", **SECRET), [led(API + "/x")], PAGE, **at(API, led("/y", path="/x"), rule())),
}
POLICIES = {
    **{f"default-src alone: {kind}": policed("default-src 'self'", load(kind))
       for kind in ("image", "audio", "font", "manifest", "style", "script")},
    "localhost without its scheme": policed("connect-src localhost:3000", fetch("http://localhost:3000/x"), servers=[
        {"origin": "http://localhost:3000", "rules": [rule(200, [OK])]}]),
    "a User-Agent beside a Cookie": scenario(
        fetch(headers=[["Cookie", "a=1"], ["User-Agent", "curl/8"], ["X-A", "1"]]),
        allow([ALLOW + "Headers", "x-a"])),
    "headers of answers, and a PUT": scenario(
        fetch(**PUT, headers=[[ALLOW + "Origin", "*"], ["X-A", "1"]]), [rule(404, method="OPTIONS"), rule()]),
    "default-src alone": policed("default-src 'self' https://cdn.test"),
    "none without quotes": policed("default-src none"),
    "unsafe-inline without quotes": policed("script-src 'self' unsafe-inline", script()),
    "strict-dynamic without quotes": policed("script-src strict-dynamic https://cdn.test", script()),
    "strict-dynamic without quotes, inserted": policed("script-src strict-dynamic", script(parser=False)),
    "a nonce without quotes": policed("script-src nonce-abc", script(nonce="abc")),
    "a nonce without quotes, and another": policed("script-src nonce-abc", script(nonce="xyz")),
    "a hash without quotes": policed("script-src " + SCRIPT, script(crossorigin="anonymous", integrity=SCRIPT), **CODE),
    "double quotes": policed('connect-src "self"', fetch("/x")),
    "strict-dynamic without a nonce": policed("script-src 'strict-dynamic'", script()),
    "strict-dynamic and an integrity text": policed(
        "script-src 'strict-dynamic' 'nonce-a'", script(integrity=SCRIPT, crossorigin="anonymous"), **CODE),
    "a hash of another text": policed(
        f"script-src '{SCRIPT}'", script(integrity=SCRIPT, crossorigin="anonymous"),
        **at(API, rule(200, [STAR], "abd"))),
    "a script of another host": policed("script-src 'self'", script()),
    "a style of default-src 'none'": policed("default-src 'none'", load("style")),
    "a script beside inline ones": policed("script-src 'unsafe-inline'", script()),
    "a script of default-src": policed("default-src 'self' 'nonce-n1'", script()),
    "a path with its slash": policed("connect-src https://api.test/v1/", fetch(API + "/v1")),
    "another path": policed("connect-src https://api.test/v1/", fetch(API + "/v2/x")),
    "a port of another": policed("connect-src https://api.test:8443"),
    "port 80 of an https page": policed("connect-src http://api.test:80"),
    "a bare domain": policed("connect-src *.example.test", fetch("https://example.test/x")),
    "a www": policed("connect-src www.example.test", fetch("https://example.test/x")),
    "a word of https on a page of http": policed(
        "img-src https:", load("image", "http://img.test/i.png"), page="http://shop.test/"),
    "an image that is upgraded": policed("img-src 'self'", load("image", "http://img.test/i.png")),
    "a fetch that is upgraded": policed("connect-src 'self'" + UPGRADE, fetch("http://api.test/x")),
    "an upgraded image of an address": policed("img-src 'self'" + UPGRADE, load("image", "http://203.0.113.7/i.png")),
    "a page of an address": policed("connect-src https://cdn.test", fetch("/x"), page="http://192.0.2.7:8000/"),
    "three policies": scenario(
        fetch(), headers=[[POLICY, "default-src 'self', connect-src 'none'"],
                          [POLICY, "connect-src https://cdn.test"]]),
    "two policies, and one that reports": scenario(
        fetch(), headers=[[POLICY, "connect-src 'self'"], [REPORT, "default-src 'none'"],
                          [POLICY, "default-src " + CDN]]),
    "a report of what is read": reported("connect-src 'self'", fetch(), **at(API, rule(200, [OK]))),
    "a report of what is upgraded": reported(
        "img-src https://img.test", load("image", "http://img.test/i.png"), **at(IMAGES, rule())),
    "a report of what is upgraded, and no word": reported(
        "img-src 'self'", load("image", "http://img.test/i.png"), **at(IMAGES, rule())),
    "a report of what is upgraded, without quotes": reported(
        "img-src self", load("image", "http://img.test/i.png"), **at(IMAGES, rule())),
    "two nonces": scenario(script(nonce="a"), headers=[
        [POLICY, "script-src 'nonce-a'"], [POLICY, "script-src 'nonce-b'"]]),
    "two nonces, and none": scenario(script(), headers=[
        [POLICY, "script-src 'nonce-a'"], [POLICY, "script-src 'nonce-b'"]]),
    "a report of mixed content": reported("connect-src 'self'", fetch("http://api.test/x")),
    "a report behind a redirect": reported("connect-src 'self'", fetch("/go"), servers=[
        {"origin": PAGE, "rules": [led(API + "/x")]}, {"origin": API, "rules": [rule(200, [OK])]}]),
    "a policy and a header": policed("default-src 'self'", fetch(**JSON, **INCLUDE), **at(API, rule(404))),
    "a response with port 80, and another policy": scenario(
        fetch("http://h.test/x"), [rule(200, [STAR])], "https://h.test", page="http://shop.test/",
        headers=[[POLICY, "connect-src http://h.test:80"], [POLICY, "connect-src 'self'"]],
        hsts=[{"host": "h.test", "subdomains": False, "until": 10}]),
}
PLAIN = "http://shop.test/"
UNDER = "http://www.shop.test"
WWW = "https://www.shop.test"


def forgotten(commands: Union[Data, list[Data]], page: str) -> Data:
    """Behind an answer by which www.shop.test, known beside the host above it, is forgotten."""
    commands = commands if isinstance(commands, list) else [commands]
    wide = [{"host": host, "subdomains": True, "until": 10} for host in ("shop.test", "www.shop.test")]
    rules = [rule(200, [["Strict-Transport-Security", "max-age=0"]], path="/off"),
             rule(200, [["Strict-Transport-Security", "max-age=600"]], path="/on"), rule(200, [STAR])]
    return scenario([load("image", WWW + "/off"), *commands], rules, WWW, page=page, hsts=wide)


def beside_own(*urls: str) -> Data:
    """Mixed content, and what is asked of this machine. One that is over https is a server alone."""
    asked = [fetch(url) for url in urls if url.startswith("http:")]
    return scenario([*asked, fetch("http://api.test/x")], [rule(200, [STAR])], "http://localhost:3000", servers=[
        {"origin": origin, "rules": [rule(200, [STAR])]} for origin in ("http://127.0.0.1", API, *urls[1:])
        if origin.count("/") == 2])


def noted(origin: str, *fields: str) -> Data:
    """An http URL of this origin, behind an answer of https://shop.test with these fields."""
    return scenario(
        [load("image", PAGE + "/i.png"), fetch(origin + "/x")],
        [rule(200, [["Strict-Transport-Security", field] for field in fields])], PAGE, page="http://page.test/",
        servers=[{"origin": origin, "rules": [rule(200, [STAR])]}])


# http URLs whose hosts were meant to be known ones.
HOSTS = {
    "a parent that covers no name below it": scenario(
        fetch(UNDER + "/x"), [rule(200, [STAR])], UNDER, page=PLAIN, hsts=KNOWN["hsts"]),
    "such a parent, and no server over http": scenario(
        fetch(UNDER + "/x"), [rule(200, [STAR])], "https://www.shop.test", page=PLAIN, hsts=KNOWN["hsts"]),
    "a field without its semicolon": scenario(
        [load("image", PAGE + "/i.png"), fetch(UNDER + "/x")],
        [rule(200, [["Strict-Transport-Security", "max-age=600 includeSubDomains"]])], PAGE, page=PLAIN,
        servers=[{"origin": UNDER, "rules": [rule(200, [STAR])]}]),
    "a field that came over http": scenario(
        [load("image", "/i.png"), fetch(UNDER + "/x")],
        [rule(200, [["Strict-Transport-Security", "max-age=600; includeSubDomains"]])], "http://shop.test", page=PLAIN,
        servers=[{"origin": UNDER, "rules": [rule(200, [STAR])]}]),
    "a field with a quote that does not close, and no includeSubDomains": noted(UNDER, 'max-age="600'),
    "a field with typographic quotes": noted("http://shop.test", "max-age=\u201c600\u201d"),
    "the same, and includeSubDomains": noted(UNDER, 'max-age="600; includeSubDomains'),
    "the same of the host itself": noted("http://shop.test", 'max-age="600'),
    "one without includeSubDomains that came over http": scenario(
        [load("image", "/i.png"), fetch(UNDER + "/x")],
        [rule(200, [["Strict-Transport-Security", "max-age=600"]])], "http://shop.test", page=PLAIN,
        servers=[{"origin": UNDER, "rules": [rule(200, [STAR])]}]),
    "two fields, of which the first is max-age=0": noted("http://shop.test", "max-age=0", "max-age=600"),
    "two fields over http, which leads to one of max-age=0": scenario(
        [load("image", "http://shop.test/go"), fetch("http://shop.test/x")], [
            led(PAGE + "/i.png", 302, *[["Strict-Transport-Security", "max-age=600"]] * 2, path="/go"),
            rule(200, [STAR])], "http://shop.test", page="http://page.test/", servers=[
            {"origin": PAGE, "rules": [rule(200, [["Strict-Transport-Security", "max-age=0"]])]}]),
    "the same of a known host": {
        **noted("http://shop.test", "max-age=0", "max-age=600"), "hsts": KNOWN["hsts"]},
    "a host beside a known one": scenario(
        fetch(UNDER + "/x"), [rule(200, [STAR])], UNDER, page=PLAIN,
        hsts=[{"host": "api.shop.test", "subdomains": True, "until": 10}]),
    "mixed content beside a known host": scenario(
        fetch("http://api.shop.test/x"), [rule(200, [OK])], "https://api.shop.test", hsts=KNOWN["hsts"]),
    "two fields, of which the first is ignored": scenario(
        [load("image", PAGE + "/i.png"), fetch("http://shop.test/x")],
        [rule(200, [["Strict-Transport-Security", "includeSubDomains"], ["Strict-Transport-Security", "max-age=600"]])],
        PAGE, page=PLAIN, servers=[{"origin": "http://shop.test", "rules": [rule(200)]}]),
    "a host that is forgotten": scenario(
        [load("image", PAGE + "/i.png"), fetch("/x")], [rule(200, [["Strict-Transport-Security", "max-age=0"]])], PAGE,
        page=PLAIN, hsts=KNOWN["hsts"], servers=[{"origin": "http://shop.test", "rules": [rule(200)]}]),
    "max-age=0 of a host that was not known": scenario(
        [load("image", PAGE + "/i.png"), fetch("/x")], [rule(200, [["Strict-Transport-Security", "max-age=0"]])], PAGE,
        page=PLAIN, servers=[{"origin": "http://shop.test", "rules": [rule(200)]}]),
    "a term that has ended": scenario(
        [{"wait": 20}, fetch(UNDER + "/x")], [rule(200, [STAR])], UNDER, page=PLAIN,
        hsts=[{"host": "www.shop.test", "subdomains": False, "until": 10}]),
    "mixed content beside an own URL": beside_own("http://localhost:3000/x"),
    "mixed content beside an own URL over https": beside_own("http://localhost:3000/x", "https://localhost:3000"),
    "mixed content beside two own URLs": beside_own("http://localhost:3000/x", "http://127.0.0.1/y"),
    "mixed content beside an own URL that is refused": beside_own("http://localhost:9999/x"),
    "a known host, and mixed content": scenario(
        fetch("http://api.test/x"), [rule(200, [OK])], hsts=[{"host": "api.test", "subdomains": False, "until": 10}]),
    "a host that is forgotten, below a known one": forgotten(fetch(UNDER + "/x"), PLAIN),
    "a host that is known again, below a known one": forgotten(
        [load("image", WWW + "/on"), fetch(UNDER + "/x")], PLAIN),
    "a host below a known one, and mixed content": forgotten(fetch(UNDER + "/x"), PAGE + "/"),
    "a page below a known host, mode same-origin": forgotten(
        fetch(UNDER + "/x", mode="same-origin"), UNDER + "/"),
    "a URL that is upgraded to no server": scenario(
        fetch("http://api.test/x"), [rule(200, [OK])], "http://api.test",
        headers=[[POLICY, "upgrade-insecure-requests"]]),
    "an own address that is upgraded": scenario(
        fetch("http://127.0.0.1:8080/x"), [rule(200, [OK])], "https://127.0.0.1:8080",
        headers=[[POLICY, "upgrade-insecure-requests"]]),
}
BLOCKED = "http://shop.test:6667"
# Bad ports, and mixed content, which one change mends; of each a part of that.
ONCE = {
    "an image of a secure page at a bad port": (
        scenario(load("image", BLOCKED + "/i.png"), [rule()], BLOCKED),
        "listen at another port over https, such as 443, 8080 or 8443: ask for https://shop.test:8443/i.png, and add a "
        "server https://shop.test:8443\n"),
    "a script of a known host at a bad port": (
        scenario(script(url=BLOCKED + "/a.js"), [rule()], BLOCKED, hsts=KNOWN["hsts"]),
        "ask for https://shop.test:8443/a.js, and add a server https://shop.test:8443\n"),
    "a bad port, and a policy that upgrades": (
        scenario(load("image", BLOCKED + "/i.png"), [rule()], BLOCKED, page=PLAIN,
                 headers=[[POLICY, "upgrade-insecure-requests"]]),
        "ask for https://shop.test:8443/i.png, and add"),
    "a bad port of a known host": (
        scenario(load("image", BLOCKED + "/i.png"), [rule()], BLOCKED, **KNOWN),
        "ask for https://shop.test:8443/i.png, and add"),
    "a bad port of a page of http": (
        scenario(load("image", BLOCKED + "/i.png"), [rule()], BLOCKED, page=PLAIN),
        "listen at another port, such as 443, 8080 or 8443: ask for http://shop.test:8080/i.png, and add a server "
        "http://shop.test:8080\n"),
    "a bad port of this machine": (
        scenario(load("image", "http://127.0.0.1:6667/i.png"), [rule()], "http://127.0.0.1:6667"),
        "ask for http://127.0.0.1:8080/i.png, and add"),
    "a bad port, and a good one that answers": (
        scenario(load("image", BLOCKED + "/i.png"), [rule()], BLOCKED, **at(PAGE, rule(200, path="/i.png"))),
        "ask for https://shop.test/i.png\n"),
    "a bad port, and a good one without a rule": (
        scenario(load("image", BLOCKED + "/i.png"), [rule()], BLOCKED, **at(PAGE + ":8443", rule(200, path="/x"))),
        "ask for https://shop.test/i.png, and add a server https://shop.test\n"),
    "mixed content, and a server of http alone": (
        scenario(script(url="http://cdn.test/a.js"), [rule(path="/a.js")], "http://cdn.test"),
        "ask for https://cdn.test/a.js, and add a server https://cdn.test; or serve the page"),
    "mixed content, and no server": (
        scenario(script(url="http://cdn.test/a.js")),
        "ask for https://cdn.test/a.js, and add a server https://cdn.test;"),
}
OTHERS = {
    "mixed content of another origin, and a server of http alone": scenario(
        fetch("http://api.test/x", **PUT), [asked(204, OK), rule(200)], "http://api.test"),
    "another origin, and a server of http alone": scenario(fetch(), [rule()], "http://api.test"),
    "an image, and a server of http alone": scenario(load("image", API + "/i.png"), [rule()], "http://api.test"),
    "mixed content of another origin, and no server": scenario(fetch("http://api.test/x")),
    "an answer behind a preflight": scenario(fetch(**PUT), [rule(204, [OK, methods("PUT")], method="OPTIONS"), rule()]),
    "a star for a request with a cookie": scenario(
        fetch(**JSON, **INCLUDE), [rule(404, method="OPTIONS"), rule(200, [STAR])]),
    "headers at the wrong answer": scenario(fetch(**JSON, **INCLUDE), [
        rule(204, [OK], method="OPTIONS"),
        rule(200, [OK, TRUE, methods("PUT"), names("content-type, authorization")])]),
    "a star over Authorization, with credentials": scenario(
        fetch(**SECRET, **INCLUDE), allow(TRUE, names("*"))),
    "two pages that ask": {**scenario(fetch(), [rule(200, [OTHER])]), "documents": [
        {"url": page, "script": [fetch()]} for page in (PAGE + "/", "https://news.test/")]},
    "mixed content, and no CORS over https": scenario(fetch("http://api.test/x"), [rule(200, [OTHER])]),
    "mixed content, and no preflight over https": scenario(
        fetch("http://api.test/x", **PUT), [asked(405), rule(200, [OK])]),
    "two pages that put": {**scenario([], [asked(204, STAR, methods("PUT")), rule(200, [OTHER])]), "documents": [
        {"url": page, "script": [fetch(**PUT)]} for page in (PAGE + "/", "https://news.test/")]},
    "a PUT of another origin": scenario(fetch(**PUT), [asked(204, STAR, methods("PUT")), rule(200, [OTHER])]),
    "methods without blanks": scenario(
        fetch(**PUT), [asked(204, OTHER, methods("GET,PUT")), rule(200, [OTHER])]),
    "a data URL that nothing hinders": scenario(load("image", "data:image/png,a")),
    "a data URL under two policies": scenario(
        load("font", "data:font/woff2,a"), headers=[[POLICY, "default-src 'self'"], [POLICY, "font-src *"]]),
    "a script of a data URL": policed("default-src 'self' data", load("script", "data:text/javascript,a")),
    "a scheme without its colon": policed("img-src 'self' data", load("image", "data:image/png,a")),
    "a blob of a policy": policed("connect-src *", fetch("blob:https://shop.test/1")),
    "a WebSocket of a policy": policed("default-src 'self'", fetch("wss://api.test:8443/x")),
    "a WebSocket in plain": policed("connect-src 'self'", fetch("ws://shop.test/x")),
    "a WebSocket that is upgraded": policed("connect-src 'self' wss://api.test" + UPGRADE, fetch("ws://api.test/x")),
    "a WebSocket that is upgraded, and refused": policed("connect-src 'self'" + UPGRADE, fetch("ws://api.test:8000/x")),
    "a WebSocket of this machine that is upgraded": policed(
        "connect-src 'self' wss:" + UPGRADE, fetch("ws://localhost:8000/x")),
    "a WebSocket of an http page that is upgraded": policed(
        "connect-src wss:" + UPGRADE, fetch("ws://api.test/x"), page="http://shop.test/"),
    "a report of a WebSocket that is upgraded": scenario(fetch("ws://api.test/x"), headers=[
        [POLICY, "upgrade-insecure-requests"], [REPORT, "connect-src wss://api.test"]]),
    "a report of a WebSocket that is mixed content": scenario(fetch("ws://api.test/x"), headers=[
        [POLICY, "connect-src https:"], [REPORT, "connect-src wss://api.test"]]),
    "a WebSocket under a report of upgrades": reported("connect-src *" + UPGRADE, fetch("ws://api.test/x")),
    "a coded body with an integrity text": answered(OK, ["Content-Encoding", "br"], body="abc", integrity=SCRIPT),
    "a file": scenario(fetch("file:///etc/hosts")),
    "a host for a scheme, on a secure page": scenario(fetch("api.test:8443/x"), [rule(200, [OK])], API + ":8443"),
    "a video of an address": scenario(load("video", "http://203.0.113.7:8080/x")),
    "a HEAD with an integrity text": answered(OK, body="abc", method="HEAD", integrity=SCRIPT),
    "a script of a table": scenario(
        script(), [rule(200, [["Content-Type", "text/csv"], ["X-Content-Type-Options", "nosniff"]])]),
    "an error page in the place of a script": scenario(
        script(), [rule(404, [["Content-Type", "text/html"], ["X-Content-Type-Options", "nosniff"]])]),
    "a length of two": answered(OK, ["Content-Length", "3, 4"], body="abc"),
    "a known host by its whole URL": scenario(fetch("http://shop.test/x", mode="same-origin"), **KNOWN),
    "mixed content of a host that was known": scenario(
        [{"wait": 20}, fetch("http://api.test/x")], hsts=[{"host": "api.test", "subdomains": False, "until": 10}]),
    "a user name in the URL": scenario(fetch("https://u:p@api.test/x"), [asked(404), rule()]),
}


# Pages whose loads violate policies in several ways: each with its policies as all changes together make them.
WHOLE = {
    "a folder without its slash, and the path itself": (
        policed("img-src *.vendor.test/pixel", [load("image", "https://a.vendor.test/pixel?id=1"),
                                                load("image", "https://b.vendor.test/pixel/2.gif")]),
        {0: "img-src *.vendor.test/pixel *.vendor.test/pixel/"}),
    "a site's loads": (scenario(
        [script(url=CDN + "/v1/a.js"), script(url=CDN + "/v2/b.js"), load("style", CDN + "/a.css"),
         load("image", IMAGES + "/a.png"), load("image", IMAGES + "/b.png"), load("image", "data:image/png,a"),
         load("font", "https://fonts.test/f"), fetch(), fetch("wss://live.test/x"), fetch("/own"),
         load("audio", "https://media.test/a"), load("manifest", CDN + "/m.json")],
        headers=[[POLICY, "default-src 'self'; script-src 'self' https://cdn.test/v1"]]), {
            0: "default-src 'self'; script-src 'self' https://cdn.test/v1/ https://cdn.test/v2/; "
               "style-src 'self' https://cdn.test; img-src 'self' https://img.test data:; "
               "font-src 'self' https://fonts.test; "
               "connect-src 'self' https://api.test wss://live.test; media-src 'self' https://media.test; "
               "manifest-src 'self' https://cdn.test"}),
    "three policies": (scenario(
        [load("image", IMAGES + "/i.png"), load("image", "/i.png"), fetch("/x")],
        headers=[[POLICY, "default-src 'none'"], [POLICY, "img-src 'self'"],
                 [REPORT, "default-src https:; img-src self"]]), {
            0: "default-src 'none'; img-src https://img.test 'self'; connect-src 'self'",
            1: "img-src 'self' https://img.test", 2: "default-src https:; img-src 'self' https://img.test"}),
    "nonces of elements": (
        scenario([script(), script(url=CDN + "/x", nonce="b")], headers=[[POLICY, "script-src 'nonce-a'"]]),
        {0: "script-src 'nonce-a'"}),
    "scripts without a nonce": (
        scenario([script(), script(url=CDN + "/x")], headers=[[POLICY, "script-src 'strict-dynamic'"]]),
        {0: "script-src 'strict-dynamic' 'nonce-r4nd0m'"}),
    # What is warned of is mended; and each load is asked of the mended text, which refuses more.
    "a semicolon, quotes and a slash": (scenario(
        [script(url=CDN + "/lib/v3/ui.js"), script(url="https://stats.test/t.js"), load("style", "/a.css"),
         load("style", "https://fonts.test/css"), load("image", "http://img.shop.test/c.gif"), fetch(), fetch("/x")],
        headers=[[REPORT, "default-src self; script-src 'self' https://cdn.test/lib; img-src *.shop.test; "
                  "connect-src 'self' https://log.test report-uri https://shop.test/csp"]]), {
            0: "default-src 'self'; script-src 'self' https://cdn.test/lib/ https://stats.test; img-src *.shop.test; "
               "connect-src 'self' https://log.test https://api.test; report-uri https://shop.test/csp; "
               "style-src 'self' https://fonts.test"}),
    "misspelt names and keywords": (scenario(
        [script(url="/a.js"), script(url=CDN + "/b.js"), load("style", "/a.css"), load("image", IMAGES + "/a.png"),
         load("font", "https://fonts.test/f"), fetch()],
        headers=[[POLICY, "defualt-src 'none'; script-src 'slef' nonce-abc; img-src https://img.test 'none'"]]), {
            0: "default-src 'none'; script-src 'self' 'nonce-abc'; img-src https://img.test; style-src 'self'; "
               "font-src https://fonts.test; connect-src https://api.test"}),
    "a name that is misspelt, and refuses nothing yet": (scenario(
        [load("image", IMAGES + "/a.png")], headers=[[POLICY, "defualt-src 'self'"]]),
        {0: "default-src 'self'; img-src 'self' https://img.test"}),
    "typographic quotes, so that nothing is read yet": (
        scenario([load("image", IMAGES + "/a.png"), fetch()], headers=[[POLICY, "default-src \u2018self\u2019"]]), {}),
    "words of scripts in default-src": (
        scenario([load("image", IMAGES + "/a.png"), load("style", CDN + "/a.css")],
                 headers=[[POLICY, "default-src 'self' 'unsafe-inline'"]]),
        {0: "default-src 'self' 'unsafe-inline'; img-src 'self' https://img.test; "
            "style-src 'self' 'unsafe-inline' https://cdn.test"}),
    "quotes of 'strict-dynamic'": (
        scenario([script(), script(url=CDN + "/x")], headers=[[POLICY, "script-src strict-dynamic https://cdn.test"]]),
        {0: "script-src 'strict-dynamic' https://cdn.test 'nonce-r4nd0m'"}),
    "a word of a folder, and its own path": (
        scenario([fetch(API + "/v1"), fetch(API + "/v1/x")], headers=[[POLICY, "connect-src https://api.test/v1"]]),
        {0: "connect-src https://api.test/v1 https://api.test/v1/"}),
    "words that stand twice, and a directive": (
        scenario([fetch(), fetch(CDN + "/x")],
                 headers=[[POLICY, "connect-src 'self' 'self' https://api.test; connect-src https://cdn.test"]]),
        {0: "connect-src 'self' https://api.test https://cdn.test"}),
    "a header's name that is misspelt": (
        scenario([fetch(), load("image", IMAGES + "/a.png")],
                 headers=[["Content-Security-Polcy", "defualt-src 'self'"], [POLICY, "img-src 'self'"]]),
        {0: "img-src 'self' https://img.test"}),
    "a comma for a blank": (
        scenario([load("image", CDN + "/a.png"), load("image", "/a.png")],
                 headers=[[POLICY, "img-src https://img.test, https://cdn.test"]]),
        {0: "img-src https://img.test https://cdn.test 'self'", 1: ""}),
    "commas for semicolons": (
        scenario([load("image", IMAGES + "/a.png"), fetch()],
                 headers=[[POLICY, "default-src 'none', img-src https://img.test"]]),
        {0: "default-src 'none'; img-src https://img.test; connect-src https://api.test", 1: ""}),
    "what a redirect leads to behind what is refused": (
        scenario([fetch("/go")], [led(API + "/x")], PAGE, headers=[[POLICY, "connect-src 'none'"]],
                 **at(API, rule(200, [OK]))), {0: "connect-src 'self' https://api.test"}),
}


# A policy with a slip, what a page loads, the policy with the first change that is named, and a part of its sentence.
SLIPS = [
    ("default-src 'none'; connect-scr 'self' https://api.test", fetch(),
     "default-src 'none'; connect-src 'self' https://api.test",
     "let policy 0 say `connect-src 'self' https://api.test` in place of `connect-scr 'self' https://api.test`"),
    ("default-src 'none'; font 'self'", load("font", IMAGES + "/f"),
     "default-src 'none'; font-src 'self' https://img.test",
     "let policy 0 say `font-src 'self' https://img.test` in place of `font 'self'`"),
    ("default-src 'none'; connect-src: 'self'", fetch(), "default-src 'none'; connect-src 'self' https://api.test",
     "in place of `connect-src: 'self'`"),
    ("default-src 'none'; font-src \u2018self\u2019", load("font", "/f"), "default-src 'none'; font-src 'self'",
     "in place of `font-src \u2018self\u2019`"),
    ("default-src 'none'; style-src 'self' connect-src 'self' img-src 'self'", fetch(),
     "default-src 'none'; style-src 'self'; connect-src 'self' https://api.test; img-src 'self'",
     "let policy 0 say `style-src 'self'; connect-src 'self' https://api.test; img-src 'self'`, with the semicolon "
     "that is missing before `connect-src` and `img-src`"),
    ("img-src 'self' data:image/png", load("image", "data:image/png,a"), "img-src 'self' data:",
     "let policy 0 say `img-src 'self' data:`"),
    ("default-src 'none'; font-src 'self', img-src 'self'; connect-src https://api.test", fetch(),
     "default-src 'none'; font-src 'self'; img-src 'self'; connect-src https://api.test",
     "let policy 0 say `connect-src https://api.test`, with a semicolon for the comma before `img-src`"),
    ("default-src 'none', img-src 'self', connect-src 'self'", fetch(),
     "default-src 'none'; img-src 'self'; connect-src 'self' https://api.test",
     "let policy 0 say `connect-src 'self' https://api.test`, with a semicolon for the comma before `img-src` and "),
    ("img-src 'self' upgrade-insecure-requests", load("image", IMAGES + "/i.png"),
     "img-src 'self' https://img.test; upgrade-insecure-requests",
     "missing before `upgrade-insecure-requests`"),
    ("default-src 'self' img-src 'self'", load("font", IMAGES + "/f"),
     "default-src 'self'; img-src 'self'; font-src 'self' https://img.test",
     "let policy 0 say `default-src 'self'; img-src 'self'; font-src 'self' https://img.test`, with the semicolon that "
     "is missing before `img-src`"),
    ("default-src 'none'; style-scr 'self' connect-src https://api.test", fetch(),
     "default-src 'none'; style-src 'self'; connect-src https://api.test",
     "in place of `style-scr 'self' connect-src https://api.test`, with the semicolon"),
    ("font-src https://img.testconnect-src https://api.test; default-src 'self'", fetch(),
     "font-src https://img.test; default-src 'self'; connect-src https://api.test",
     "let policy 0 say `font-src https://img.test; connect-src https://api.test`, with the semicolon that is missing "
     "before `connect-src`"),
]


def scripted() -> Iterator[tuple[str, Data]]:
    """Each by its name."""
    for group in (PREFLIGHTS, CORS, CHAINS, LED_ON, POLICIES, HOSTS, OTHERS):
        yield from group.items()
    for name, (data, _) in ONCE.items():
        yield name, data
