"""For each lint a scenario that has it and one that nearly has it; and policies that are right, which have none."""
from __future__ import annotations

from typing import Any, Optional, Sequence

from fiorrudda.commands.lints import csp, grammar
from tests.commands import cases
from tests.commands.cases import Data, Header

PAGE, API = cases.PAGE, cases.API
POLICY, REPORT_ONLY = "Content-Security-Policy", "Content-Security-Policy-Report-Only"
ORIGIN, CREDENTIALS = "Access-Control-Allow-Origin", "Access-Control-Allow-Credentials"
METHODS, HEADERS = "Access-Control-Allow-Methods", "Access-Control-Allow-Headers"
EXPOSED = "Access-Control-Expose-Headers"
AGE, HSTS, REFERRER = "Access-Control-Max-Age", "Strict-Transport-Security", "Referrer-Policy"
SHA256, SHA384 = cases.DIGEST["sha256"], cases.DIGEST["sha384"]
HEX = "ba7816bf8f01cfea414140de5dae2223b00361a396177a9cb410ff61f20015ad"  # of abc
YEAR = "max-age=31536000"
ENDPOINTS = ["Reporting-Endpoints", 'csp="https://shop.test/csp"']
# Words that a directive takes, where it does not take sources.
OWN_WORDS = {"report-to": "csp", "require-trusted-types-for": "'script'", "webrtc": "'block'", "sandbox": "",
             "trusted-types": "one"}


def page(*headers: Header, asks: Sequence[Data] = (), url: str = PAGE + "/") -> Data:
    """A document with these headers, and what its script asks for."""
    return cases.scenario(list(asks), page=url, headers=headers)


def csp_of(value: str, **more: Any) -> Data:
    return page([POLICY, value], **more)


def report_only(value: str, *headers: Header, **more: Any) -> Data:
    return page([REPORT_ONLY, value], *headers, **more)


def answer(*headers: Header, asks: Optional[list[Data]] = None, origin: str = API, **more: Any) -> Data:
    """A server that answers so, and a page that asks."""
    asks = [cases.fetch(origin + "/x")] if asks is None else asks
    return cases.scenario(asks, [cases.rule(200, headers, **more)], origin)


def cors(value: str, *headers: Header, **more: Any) -> Data:
    return answer([ORIGIN, value], *headers, **more)


WITH = [cases.fetch(**cases.INCLUDE)]


def hsts(value: str, origin: str = API) -> Data:
    return answer([HSTS, value], origin=origin)


def asked_by_two(*headers: Header) -> Data:
    """One URL, for which pages of two origins ask."""
    data = answer([ORIGIN, PAGE], *headers)
    other = cases.scenario(cases.fetch(), page="https://other.test/")["documents"]
    return {**data, "documents": data["documents"] + other}


def preflighted(value: str, name: str) -> Data:
    """What is answered to the preflight of a fetch with this header."""
    return answer([ORIGIN, "*"], [HEADERS, value], asks=[cases.fetch(headers=[[name, "1"]])], method="OPTIONS")


def text(value: str, **more: Any) -> Data:
    return page(asks=[cases.fetch(PAGE + "/x", integrity=value, **more)])


def element(kind: str, url: str, **more: Any) -> Data:
    return page(asks=[cases.load(kind, url, integrity="sha256-" + SHA256, **more)])


def asking(value: str, url: str, page_url: str = PAGE + "/") -> Data:
    return csp_of(value, asks=[cases.fetch(url)], url=page_url)


CSP_HEADERS = {
    "csp/header-misspelt": (page(["Content-Security-Polcy", "default-src 'self'"]), csp_of("default-src 'self'")),
    "csp/header-obsolete": (page(["X-WebKit-CSP", "default-src 'self'"]), page(["X-Content-Type-Options", "nosniff"])),
    "csp/name-in-value": (csp_of("Content-Security-Policy: default-src 'self'"),
                          csp_of("default-src content-security-policy.test")),
    "csp/html-escape": (csp_of("default-src &#39;self&#39; https://a.test; img-src &quot;self&quot;"),
                        csp_of("img-src https://a.test; report-uri /csp?a=1&b=2")),
    "csp/backslashes": (csp_of("default-src \\'self\\' https://a.test; img-src \\'none\\'"),
                        csp_of("default-src 'self' https://a.test; img-src 'none'")),
    "csp/policy-in-quotes": (csp_of("\"default-src 'self'\""), csp_of("default-src 'self'")),
    "csp/comma-for-semicolon": (csp_of("default-src 'none', img-src https://img.test"),
                                csp_of("default-src 'self', script-src 'nonce-n1'")),
    "csp/does-nothing": (csp_of("report-uri /csp"), csp_of("report-uri /csp; default-src 'self'")),
    "csp/report-only-unheard": (report_only("default-src 'self'"), report_only("default-src 'self'; report-uri /csp")),
    "csp/comma": (csp_of("img-src https://a.test, https://b.test"),
                  csp_of("img-src https://a.test, font-src https://b.test")),
}
CSP_DIRECTIVES = {
    "csp/directive-with-sign": (csp_of("img-src: 'self'; font-src 'self'"), csp_of("img-src 'self'; font-src 'self'")),
    "csp/source-as-directive": (csp_of("img-src https://a.test; https://b.test"),
                                csp_of("img-src https://a.test https://b.test;")),
    "csp/blank-in-url": (csp_of("img-src 'self' https:// a.test"), csp_of("img-src 'self' https: a.test")),
    "csp/not-ascii": (csp_of("img-src \u2018self\u2019; font-src 'self'"), csp_of("img-src 'self'; font-src 'self'")),
    "csp/unknown-directive": (csp_of("script-scr 'self'; img-src 'self'"), csp_of("Script-Src 'self'; img-src 'self'")),
    "csp/directive-twice": (csp_of("img-src 'self'; img-src https://a.test"),
                            csp_of("img-src 'self'; font-src https://a.test")),
    "csp/sign-alone": (csp_of("img-src = 'self'"), csp_of("img-src 'self'")),
    "csp/no-words": (csp_of("img-src"), csp_of("upgrade-insecure-requests")),
    "csp/needless-words": (csp_of("upgrade-insecure-requests 1"), csp_of("upgrade-insecure-requests; img-src *")),
    "csp/none-beside-others": (csp_of("img-src 'none' https://a.test"), csp_of("script-src 'none' 'report-sample'")),
    "csp/star-beside-others": (csp_of("img-src * https://a.test"), csp_of("img-src * data: blob: wss://a.test")),
    "csp/unsafe-inline-ignored": (csp_of("script-src 'nonce-n1' 'unsafe-inline'"),
                                  csp_of("script-src 'nonce-n1' 'strict-dynamic' 'unsafe-inline'")),
    "csp/strict-dynamic-alone": (csp_of("script-src 'strict-dynamic'"),
                                 csp_of(f"script-src 'strict-dynamic' 'sha256-{SHA256}'")),
    "csp/unsafe-hashes-alone": (csp_of("script-src 'self' 'unsafe-hashes'"),
                                csp_of(f"script-src 'unsafe-hashes' 'sha256-{SHA256}'")),
    "csp/report-only-ignores": (report_only("img-src 'self'; report-uri /csp; upgrade-insecure-requests"),
                                csp_of("img-src 'self'; report-uri /csp; upgrade-insecure-requests")),
    "csp/one-word-alone": (csp_of("img-src 'self'; report-to csp other"), csp_of("img-src 'self'; report-to csp")),
    "csp/url-in-report-to": (csp_of("img-src 'self'; report-to https://shop.test/csp"),
                             csp_of("img-src 'self'; report-uri https://shop.test/csp")),
    "csp/name-in-report-uri": (page([POLICY, "img-src 'self'; report-uri csp"], ENDPOINTS),
                               csp_of("img-src 'self'; report-uri csp")),
    "csp/report-to-unknown": (page([POLICY, "img-src 'self'; report-to cps"], ENDPOINTS),
                              page([POLICY, "img-src 'self'; report-to csp"], ENDPOINTS)),
    **{"csp/obsolete-" + name: (csp_of("img-src 'self'; " + name), csp_of("img-src 'self'; font-src 'self'"))
       for name in grammar.OBSOLETE},
}
CSP_WORDS = {
    "csp/semicolon-missing": (csp_of("img-src 'self' font-src 'self'"), csp_of("img-src 'self' font-src.test")),
    "csp/name-behind-source": (csp_of("default-src 'none'script-src 'self'"),
                               csp_of("img-src https://a.test/img-src img-src.test")),
    "csp/sandbox-word": (csp_of("sandbox allow-script"), csp_of("sandbox allow-scripts")),
    "csp/trusted-sink": (csp_of("require-trusted-types-for script"), csp_of("require-trusted-types-for 'script'")),
    "csp/trusted-word": (csp_of("trusted-types none"), csp_of("trusted-types one two 'allow-duplicates'")),
    "csp/webrtc-word": (csp_of("webrtc block"), csp_of("webrtc 'block'")),
    "csp/report-over-http": (csp_of("img-src 'self'; report-uri http://shop.test/csp"),
                             csp_of("img-src 'self'; report-uri http://shop.test/csp", url="http://shop.test/")),
    "csp/source-as-endpoint": (asking(f"connect-src 'self'; report-uri /csp {API}", API + "/v1"),
                               asking(f"connect-src 'self'; report-uri /csp {API}/csp", API + "/v1")),
    "csp/keyword-unquoted": (csp_of("img-src self"), csp_of("img-src self.test")),
    "csp/nonce-unquoted": (csp_of("script-src nonce-abc"), csp_of("script-src nonce-abc.test")),
    "csp/hash-unquoted": (csp_of("script-src sha256-" + SHA256), csp_of(f"script-src 'sha256-{SHA256}'")),
    "csp/other-quotes": (csp_of('img-src "self"'), csp_of("img-src 'self'")),
    "csp/quote-missing": (csp_of("img-src 'self"), csp_of("img-src https://a.test/it's")),
    "csp/quoted-with-more": (csp_of("img-src 'self'/img/"), csp_of("img-src 'self' https://a.test/img/")),
    "csp/unknown-keyword": (csp_of("script-src 'unsafe-inlin'"), csp_of("script-src 'unsafe-inline'")),
    "csp/host-quoted": (csp_of("img-src 'https://a.test'"), csp_of("img-src https://a.test")),
    "csp/unsafe-allow-redirects": (csp_of("form-action 'unsafe-allow-redirects' 'self'"), csp_of("form-action 'self'")),
    "csp/scheme-without-colon": (csp_of("img-src data"), csp_of("img-src data:")),
    "csp/nonce-characters": (csp_of("script-src 'nonce-{{nonce}}'"), csp_of("script-src 'nonce-a+b/c_d-e=='")),
    "csp/hash-hex": (csp_of(f"script-src 'sha256-{HEX}'"), csp_of(f"script-src 'sha256-{SHA256}'")),
    "csp/hash-length": (csp_of(f"script-src 'sha256-{SHA256.rstrip('=')}'"),
                        csp_of(f"script-src 'sha384-{SHA384}'")),
    "csp/hash-algorithm": (csp_of("script-src 'sha1-qZk+NkcGgWq6PiVxeFDCbJzQ2J0='"),
                           csp_of(f"script-src 'sha256-{SHA256}'")),
    "csp/nonce-elsewhere": (csp_of("img-src 'nonce-n1'"), csp_of("style-src 'nonce-n1'")),
    "csp/unsafe-elsewhere": (csp_of("img-src 'unsafe-inline'"), csp_of("style-src 'unsafe-inline'")),
    "csp/strict-dynamic-elsewhere": (csp_of("img-src 'strict-dynamic'"),
                                     csp_of("default-src 'strict-dynamic' 'nonce-n1'")),
}
CSP_URLS = {
    "csp/http-on-https": (csp_of("img-src http://a.test"),
                          csp_of("img-src http://localhost:8080; form-action http://a.test")),
    "csp/query-or-fragment": (csp_of("img-src https://a.test/i?x=1"), csp_of("img-src https://a.test/i")),
    "csp/wildcard-inside": (csp_of("img-src https://img*.a.test"), csp_of("img-src https://*.a.test:*")),
    "csp/wildcard-scheme": (csp_of("img-src *://a.test"), csp_of("img-src *:8443")),
    "csp/wildcard-path": (csp_of("img-src https://a.test/img/*"), csp_of("img-src https://a.test/img/")),
    "csp/folder-without-slash": (asking("connect-src https://api.test/v1", API + "/v1/cart"),
                                 asking("connect-src https://api.test/v1 https://api.test/v10/", API + "/v10/cart")),
    "csp/dead-path": (asking("connect-src https://*.vendor.test/pixel", "https://a.vendor.test/track"),
                      asking("connect-src https://*.vendor.test/pixel", "https://a.vendor.test/pixel?id=1")),
    "csp/scheme-alone": (csp_of("img-src https://"), csp_of("img-src https:")),
    "csp/star-behind-scheme": (csp_of("img-src data:*"), csp_of("img-src a.test:*")),
    "csp/more-behind-scheme": (csp_of("img-src 'self' data:image/png"), csp_of("img-src 'self' data: mediastream:")),
    "csp/one-slash": (csp_of("img-src https:/a.test"), csp_of("img-src https://a.test")),
    "csp/address": (csp_of("img-src https://192.0.2.1"), csp_of("img-src https://192.0.2.1.test")),
    "csp/loopback-address": (csp_of("img-src http://127.0.0.1:8080"), csp_of("img-src http://localhost:8080")),
    "csp/localhost-without-scheme": (asking("connect-src localhost:3000", "http://localhost:3000/x"),
                                     asking("connect-src localhost:3000", "https://localhost:3000/x")),
    "csp/data-in-scripts": (csp_of("default-src 'self' data:"), csp_of("default-src 'self' data:; script-src 'self'")),
    "csp/ancestor-path": (csp_of("frame-ancestors https://a.test/frames/"), csp_of("frame-ancestors https://a.test/")),
    "csp/source-twice": (csp_of("img-src https://a.test https://a.test"),
                         csp_of("img-src https://a.test https://a.test/img/")),
    "csp/no-word": (csp_of("img-src https://a_b.test"), csp_of("img-src https://a-b.test")),
}
NOTES = {
    **{"csp/not-played-" + name: (csp_of(f"connect-src 'self'; {name} " + OWN_WORDS.get(name, "'self'")),
                                  csp_of("connect-src 'self'")) for name in csp.NOT_PLAYED},
    "csp/report-to-and-uri": (page([POLICY, "img-src 'self'; report-uri /csp; report-to csp"], ENDPOINTS),
                              csp_of("img-src 'self'; report-uri /csp")),
    "csp/lone-path": (csp_of("img-src 'self' *.vendor.test/pixel"), csp_of("img-src 'self' *.vendor.test/pixel/")),
    "csp/not-played-inline": (csp_of("script-src 'unsafe-inline'"), csp_of("script-src 'nonce-n1'")),
}
CORS_ORIGINS = {
    "cors/origin-twice": (cors(PAGE, [ORIGIN, PAGE]), cors(PAGE)),
    "cors/origin-quotes": (cors(f'"{PAGE}"'), cors(PAGE)),
    "cors/origin-list": (cors("https://a.test, https://b.test"), cors("https://a.test")),
    "cors/origin-path": (cors(PAGE + "/"), cors(PAGE + ":8443")),
    "cors/origin-capitals": (cors("https://Shop.test"), cors(PAGE)),
    "cors/origin-without-scheme": (cors("shop.test"), cors("app://shop.test")),
    "cors/origin-default-port": (cors(PAGE + ":443"), cors("http://shop.test:443")),
    "cors/origin-null": (cors("null"), cors("*")),
    "cors/origin-pattern": (cors("https://*.shop.test"), cors("*")),
    "cors/origin-unfilled": (cors("$http_origin"), cors(PAGE)),
    "cors/origin-own": (cors(API), cors(API, asks=[cases.fetch("/x")])),
    "cors/no-origin": (cors("all"), cors("*")),
    "cors/star-with-credentials": (cors("*", [CREDENTIALS, "true"], asks=WITH),
                                   cors(PAGE, [CREDENTIALS, "true"], asks=WITH)),
    "cors/star-beside-credentials": (cors("*", [CREDENTIALS, "true"]), cors(PAGE, [CREDENTIALS, "true"])),
    "cors/vary-missing": (asked_by_two(), asked_by_two(["Vary", "Accept, origin"])),
}
CORS_VALUES = {
    "cors/credentials-not-true": (cors(PAGE, [CREDENTIALS, "True"]), cors(PAGE, [CREDENTIALS, "true"])),
    "cors/credentials-twice": (cors(PAGE, [CREDENTIALS, "true"], [CREDENTIALS, "true"]),
                               cors(PAGE, [CREDENTIALS, "true"])),
    "cors/allow-methods-quotes": (cors("*", [METHODS, '"PUT", "DELETE"']), cors("*", [METHODS, "PUT, DELETE"])),
    "cors/allow-methods-without-commas": (cors("*", [METHODS, "PUT DELETE"]), cors("*", [METHODS, "PUT,DELETE"])),
    "cors/allow-methods-no-token": (cors("*", [METHODS, "PUT/1"]), cors("*", [METHODS, "PUT-1"])),
    "cors/allow-headers-quotes": (cors("*", [HEADERS, "[x-a, x-b]"]), cors("*", [HEADERS, "x-a, x-b"])),
    "cors/allow-headers-without-commas": (cors("*", [HEADERS, "x-a;x-b"]), cors("*", [HEADERS, "x-a , x-b"])),
    "cors/allow-headers-no-token": (cors("*", [HEADERS, "x-a:"]), cors("*", [HEADERS, "x-a"])),
    "cors/expose-headers-quotes": (cors("*", [EXPOSED, '"X-A"']), cors("*", [EXPOSED, "X-A"])),
    "cors/expose-headers-without-commas": (cors("*", [EXPOSED, "X-A X-B"]), cors("*", [EXPOSED, "X-A, X-B"])),
    "cors/expose-headers-no-token": (cors("*", [EXPOSED, "X@A"]), cors("*", [EXPOSED, "X_A"])),
    "cors/method-in-small-letters": (cors("*", [METHODS, "GET, patch"]),
                                     cors("*", [METHODS, "GET, PATCH, patch, purge"])),
    "cors/methods-star-with-credentials": (cors(PAGE, [CREDENTIALS, "true"], [METHODS, "*"]),
                                           cors("*", [METHODS, "*"])),
    "cors/headers-star-with-credentials": (cors(PAGE, [CREDENTIALS, "true"], [HEADERS, "*"]),
                                           cors(PAGE, [CREDENTIALS, "true"], [HEADERS, "x-a, *"])),
    "cors/exposed-star-with-credentials": (cors(PAGE, [CREDENTIALS, "true"], [EXPOSED, "*"]),
                                           cors("*", [EXPOSED, "*"])),
    "cors/authorization-under-star": (preflighted("*", "Authorization"),
                                      preflighted("*, authorization", "Authorization")),
    "cors/set-cookie-exposed": (cors("*", [EXPOSED, "X-A, set-cookie"]), cors("*", [EXPOSED, "X-A, cookie"])),
    "cors/max-age-no-number": (cors("*", [AGE, "600"], [AGE, "600"]), cors("*", [AGE, "0"])),
    "cors/max-age-long": (cors("*", [AGE, "604800"]), cors("*", [AGE, "86400"])),
    "cors/resource-policy-word": (answer(["Cross-Origin-Resource-Policy", "Same-Site"]),
                                  answer(["Cross-Origin-Resource-Policy", "same-site"])),
    "cors/header-misspelt": (answer(["Access-Control-Allow-Orgin", "*"]),
                             answer(["Access-Control-Allow-Private-Network", "true"])),
    "cors/request-header": (cors("*", ["Access-Control-Request-Method", "PUT"]), cors("*", [METHODS, "PUT"])),
    "cors/on-the-page": (page([ORIGIN, "*"]), page(["Cache-Control", "no-store"])),
    "cors/in-a-request": (page(asks=[cases.fetch(headers=[[ORIGIN, "*"]])]),
                          page(asks=[cases.fetch(headers=[["Accept", "*/*"]])])),
}
HSTS_CASES = {
    "hsts/html-escape": (hsts("max-age=&quot;600&quot;"), hsts("max-age=600; a=&quot")),
    "hsts/value-in-quotes": (hsts('"max-age=600; includeSubDomains"'), hsts('max-age="600"; includeSubDomains')),
    "hsts/typographic-quotes": (hsts("max-age=\u201c600\u201d"), hsts('max-age=600; a="\u201cb\u201d"')),
    "hsts/backslashes": (hsts('max-age=\\"600\\"'), hsts('max-age="6\\00"')),
    "hsts/colon": (hsts("max-age: 600"), hsts("max-age = 600")),
    "hsts/comma": (hsts("max-age=600, includeSubDomains"), hsts("max-age=600; includeSubDomains")),
    "hsts/max-age-misspelt": (hsts("maxage=600"), hsts("max-age=600; max_age=700")),
    "hsts/max-age-missing": (hsts("includeSubDomains"), hsts("includeSubDomains; Max-Age=600")),
    "hsts/directive-twice": (hsts("max-age=600; max-age=600"), hsts("max-age=600; other; another")),
    "hsts/max-age-empty": (hsts("max-age"), hsts("max-age=600; other")),
    "hsts/max-age-negative": (hsts("max-age=-1"), hsts("max-age=0")),
    "hsts/max-age-unit": (hsts("max-age=600s"), hsts("max-age=600; s")),
    "hsts/semicolon-missing": (hsts("max-age=600 includeSubDomains"), hsts("max-age=600 ; includeSubDomains;")),
    "hsts/max-age-quotes": (hsts("max-age='600'"), hsts('max-age="600"')),
    "hsts/subdomains-value": (hsts("max-age=600; includeSubDomains=true"), hsts("max-age=600; includesubdomains")),
    "hsts/max-age-no-number": (hsts("max-age=60*60"), hsts("max-age=0600")),
    "hsts/no-field": (hsts("max-age=600; a b"), hsts('max-age=600; a="b c"')),
    "hsts/unknown-directive": (hsts("max-age=600; includeSubdomain"), hsts("max-age=600; other=1")),
    "hsts/sent-twice": (answer([HSTS, YEAR], [HSTS, YEAR]), hsts(YEAR)),
    "hsts/over-http": (hsts(YEAR, "http://api.test"), hsts(YEAR)),
    "hsts/on-an-address": (hsts(YEAR, "https://192.0.2.1"), hsts(YEAR, "https://192.0.2.1.test")),
    "hsts/on-localhost": (hsts(YEAR, "https://localhost"), hsts(YEAR, "https://localhost.test")),
    "hsts/preload-without-subdomains": (hsts(YEAR + "; preload"), hsts(YEAR + "; includeSubDomains; preload")),
    "hsts/preload-short": (hsts("max-age=600; preload"), hsts(YEAR + "; includeSubDomains; preload")),
    "hsts/zero-with-more": (hsts("max-age=0; includeSubDomains"), hsts("max-age=0")),
    "hsts/header-misspelt": (answer(["Strict-Transport-Securty", YEAR]), hsts(YEAR)),
    "hsts/on-the-page": (page([HSTS, YEAR]), hsts(YEAR)),
}
# Values, and what is advised for each; where two things may be meant both (RFC 6797, section 6.1.1: decimal digits).
HSTS_MEANT = [
    ("includeSubDomains", "max-age=31536000; includeSubDomains"),
    ("includeSubDomains; preload", "max-age=31536000; includeSubDomains; preload"),
    ("preload; max-age=", "max-age=31536000; preload"), ('max-age=""', YEAR), ("max-age=''", YEAR),
    ("max-age=600 includeSubDomains", "max-age=600; includeSubDomains"),
    ('max-age="600" includeSubDomains', "max-age=600; includeSubDomains"),
    ('max-age="600"includeSubDomains', "max-age=600; includeSubDomains"),
    ("max-age=600, includeSubDomains", "max-age=600; includeSubDomains"),
    ("max-age=31,536,000; includeSubDomains", "max-age=31536000; includeSubDomains"),
    ("max-age: 600; includeSubDomains", "max-age=600; includeSubDomains"),
    ("max-age='600'; includesubdomains", "max-age=600; includeSubDomains"),
    ("max-age=600; includeSubDomains=true", "max-age=600; includeSubDomains"),
    ("max-age=600; includeSubdomain", "max-age=600; includeSubDomains"),
    ("max-age=600; subdomains", "max-age=600; includeSubDomains"),
    ("maxage=600; include-subdomains", "max-age=600; includeSubDomains"),
    ("max_age=600", "max-age=600"), ("max-age 600", "max-age=600"), ('"max-age"=600', "max-age=600"),
    ("'max-age=600'", "max-age=600"), ("'includeSubDomains; max-age=600'", "max-age=600; includeSubDomains"),
    ("\u201cmax-age=600\u201d", "max-age=600"), ("max-age=\u2019600\u2019", "max-age=600"),
    ("max-age=&#34;600&#34;; includeSubDomains", "max-age=600; includeSubDomains"),
    ("max-age=600s", "max-age=600"), ("max-age=31536000s", YEAR), ("max-age=31536000 seconds", YEAR),
    ('max-age="600s"; includeSubDomains', "max-age=600; includeSubDomains"), ("max-age=365d", YEAR),
    ("max-age=10m", "max-age=600", "max-age=25920000"), ("max-age=90 days", "max-age=7776000"),
    ("max-age=1h", "max-age=3600"), ("max-age=1w", "max-age=604800"), ("max-age=1 year; preload", YEAR + "; preload"),
    ("max-age=1y; includeSubDomains", YEAR + "; includeSubDomains"), ("max-age=2y", "max-age=63072000"),
    ("max-age=0s; includeSubDomains", "max-age=0"), ("max-age=" + "9" * 20 + "d", "max-age=" + "9" * 20),
    ("max-age=600.0", "max-age=600"), ("max-age=31_536_000", YEAR), ("max-age=31.536.000", YEAR),
    ("max-age=+600", "max-age=600"), ("max-age=0x10", "max-age=16"), ("max-age=6e2", "max-age=600"),
    ("max-age=60*60*24*365", YEAR), ("max-age=0x" + "f" * 9000, YEAR), ("max-age=a", YEAR),
    ("max-age=600; max-age=600", "max-age=600"), ("max-age=600; max-age=0", "max-age=600", "max-age=0"),
    ("max-age=600; max-age=1y; includeSubDomains", "max-age=600; includeSubDomains",
     "max-age=31536000; includeSubDomains"),
    ("includeSubDomains; includeSubDomains; max-age=600", "max-age=600; includeSubDomains"),
]
# Headers that are spelt otherwise, and what is said to write.
SPELT = [
    (answer(["Allow-Origin", "*"]), "write `Access-Control-Allow-Origin`"),
    (answer(["X-Expose-Headers", "*"]), "write `Access-Control-Expose-Headers`"),
    (page([REFERRER, "same origin"]), "write `same-origin`"), (page([REFERRER, "no referrer"]), "write `no-referrer`"),
]
# The same of what is not ignored, and is not taken into the list of preloaded hosts (a year, and all subdomains).
HSTS_PRELOADED = {
    "max-age=600; preload": YEAR + "; includeSubDomains; preload",
    "max-age=600; includeSubDomains; preload": YEAR + "; includeSubDomains; preload",
    "max-age=63072000; preload": "max-age=63072000; includeSubDomains; preload",
}
# What is wrong in one field, in the order in which one mends it: https itself, max-age, includeSubDomains, preload.
HSTS_ORDER = {
    ("http://api.test", "max-age=1h; preload"): ["over-http", "max-age-unit", "preload-short"],
    ("http://api.test", "max-age=63072000; preload"): ["over-http", "preload-without-subdomains"],
    (API, "max-age=1h; preload"): ["max-age-unit", "preload-short"],
    (API, "max-age=600; includeSubDomain; preload"): ["unknown-directive", "preload-short"],
}
# The values of several fields, and what is said to send: each that may be meant.
HSTS_TWICE = [
    ([YEAR, YEAR], "send one: `max-age=31536000`"),
    (["max-age=600", YEAR + "; includeSubDomains"],
     "send one: `max-age=600`, or `max-age=31536000; includeSubDomains`, as it is meant"),
    (["max-age=0", YEAR], "send one: `max-age=0`, or `max-age=31536000`, as it is meant"),
    (["max-age='600'", "max-age=600"], "send one: `max-age=600`"),
    (["max-age=600", "max-age=700", "max-age=800"],
     "send one: `max-age=600`, or `max-age=700` or `max-age=800`, as it is meant"),
]
# Values that lack a semicolon before a directive, and those whose quotes are none that fit.
HSTS_JOINED = {
    'max-age="600"includeSubDomains': "hsts/semicolon-missing",
    'max-age="600" includeSubDomains': "hsts/semicolon-missing", 'max-age="600"x': "hsts/max-age-quotes",
    'max-age="600': "hsts/max-age-quotes", 'max-age=600"; includeSubDomains': "hsts/max-age-quotes",
}
# What is said of the fields of a page: its URL, their values, and the lints, without which a browser notes the host.
HSTS_PAGES = [
    (PAGE + "/", [YEAR], ["hsts/on-the-page"]),
    (PAGE + "/", [YEAR, "max-age=0"], ["hsts/on-the-page", "hsts/sent-twice"]),
    (PAGE + "/", ["max-age=0"], []), (PAGE + "/", ["max-age=0", YEAR], ["hsts/sent-twice"]),
    (PAGE + "/", ["max-age='600'"], ["hsts/max-age-quotes"]),
    (PAGE + "/", ["includeSubDomains", YEAR], ["hsts/max-age-missing", "hsts/sent-twice"]),
    (PAGE + "/", [YEAR, "includeSubDomains"], ["hsts/on-the-page", "hsts/sent-twice"]),
    ("http://shop.test/", [YEAR], ["hsts/over-http"]), ("https://localhost/", [YEAR], ["hsts/on-localhost"]),
    ("http://a.localhost/", [YEAR], ["hsts/on-localhost"]), ("https://192.0.2.7/", [YEAR], ["hsts/on-an-address"]),
    ("http://[2001:db8::1]/", [YEAR], ["hsts/on-an-address"]),
]
REFERRER_CASES = {
    "referrer/quotes": (page([REFERRER, "'no-referrer'"]), page([REFERRER, "no-referrer"])),
    "referrer/without-commas": (page([REFERRER, "no-referrer; same-origin"]),
                                page([REFERRER, "no-referrer, same-origin"])),
    "referrer/old-word": (page([REFERRER, "never"]), page([REFERRER, "no-referrer"])),
    "referrer/unknown-word": (page([REFERRER, "no-refferer"]), page([REFERRER, "some-future-word, No-Referrer"])),
    "referrer/nothing-known": (page([REFERRER, "1"]), page([REFERRER, "origin"])),
    "referrer/last-decides": (page([REFERRER, "same-origin, origin"]),
                              page([REFERRER, "origin, strict-origin-when-cross-origin"])),
    "referrer/header-misspelt": (page(["Referer-Policy", "no-referrer"]), page([REFERRER, "no-referrer"])),
}
INTEGRITY_CASES = {
    "integrity/quotes": (text(f"sha256-{SHA256} 'sha384-{SHA384}'"),
                         text(f"sha256-{SHA256} sha384-{SHA384}")),
    "integrity/comma": (text(f"sha256-{SHA256}, sha384-{SHA384}"), text(f"sha256-{SHA256}?a,b")),
    "integrity/algorithm": (text(f"sha256-{SHA256} md5-kAFQmDzST7DWlj99KOF/cg=="), text("sha384-" + SHA384)),
    "integrity/algorithm-spelling": (text(f"SHA384-{SHA384} sha256-{SHA256}"), text("sha256-" + SHA256)),
    "integrity/dash-missing": (text(f"sha384{SHA384} sha256-{SHA256}"), text("sha256-" + SHA256)),
    "integrity/hex": (text("sha256-" + HEX), text("sha256-" + SHA256)),
    "integrity/padding": (text("sha256-" + SHA256.rstrip("=")), text("sha384-" + SHA384)),
    "integrity/length": (text("sha256-AAAA"), text("sha256-" + SHA256.replace("/", "_"))),
    "integrity/no-base64": (text("sha256-a=b sha384-" + SHA384), text("sha384-" + SHA384)),
    "integrity/nothing-fits": (text("abc"), text(" ")),
    "integrity/opaque": (element("script", API + "/a.js"), element("script", API + "/a.js", crossorigin="anonymous")),
    "integrity/no-attribute": (element("image", PAGE + "/i.png"), element("style", PAGE + "/a.css")),
}
CHUNKED = ["Transfer-Encoding", "chunked"]
FRAMING_CASES = {
    "framing/length-beside-chunks": (answer(["Content-Length", "5"], CHUNKED), answer(CHUNKED)),
    "framing/lengths-differ": (answer(["Content-Length", "5"], ["Content-Length", "7"]),
                               answer(["Content-Length", "5"], ["Content-Length", "5"])),
}
GZIP = ["Content-Encoding", "gzip"]
CODING_CASES = {"coding/vary-missing": (answer(GZIP, ["Vary", "Origin"]),
                                        answer(GZIP, ["Vary", "Origin, accept-encoding"]))}
STATUS_CASES = {"status/not-modified-unasked": (
    cases.scenario(cases.fetch(), [cases.rule(304, [cases.OK])]),
    cases.scenario(cases.fetch(headers=[["If-None-Match", '"1"']]),
                   [cases.rule(204, [cases.OK, [HEADERS, "if-none-match"]], method="OPTIONS"),
                    cases.rule(304, [cases.OK])]))}
CASES = {**CSP_HEADERS, **CSP_DIRECTIVES, **CSP_WORDS, **CSP_URLS, **NOTES, **CORS_ORIGINS, **CORS_VALUES, **HSTS_CASES,
         **REFERRER_CASES, **FRAMING_CASES, **CODING_CASES, **INTEGRITY_CASES,
         **STATUS_CASES}

# Answers beside the coded one that every cache keeps, and the Vary that they are to have; or None.
CODED = [
    ([GZIP], {}, "Accept-Encoding"), ([["content-encoding", "BR"]], {}, "Accept-Encoding"),
    ([["Content-Encoding", "identity, zstd"], ["Vary", "Origin"]], {}, "Origin, Accept-Encoding"),
    ([GZIP, ["Content-Encoding", "br"], ["Cache-Control", "public, max-age=600"]], {"method": "HEAD"},
     "Accept-Encoding"),
    ([GZIP, ["Vary", "*"]], {}, None), ([["Content-Encoding", "identity"]], {}, None),
    ([["Content-Encoding", "aws-chunked"]], {}, None), ([GZIP], {"method": "POST"}, None),
    ([GZIP, ["Cache-Control", "Private, max-age=600"]], {}, None), ([GZIP, ["Cache-Control", "no-store"]], {}, None),
]

# Policies that are right: together they have each directive and each keyword of the grammar.
RIGHT = [
    "default-src 'none'; script-src 'self' 'nonce-n1' 'report-sample'; style-src 'self' 'unsafe-inline'; "
    "img-src 'self' data: blob: https://*.img.test; font-src https://font.test/a/; "
    "connect-src 'self' https://api.test:8443 wss://live.test; media-src https:; manifest-src 'self'; "
    "object-src 'none'; frame-src https://frame.test; child-src 'self'; worker-src 'self' blob:; base-uri 'none'; "
    "form-action 'self'; frame-ancestors 'self' https://top.test; upgrade-insecure-requests; "
    "report-uri /csp https://log.test/csp?a=1; report-to csp",
    f"script-src-elem 'strict-dynamic' 'sha256-{SHA256}' 'unsafe-eval' 'wasm-unsafe-eval' 'trusted-types-eval' "
    f"'inline-speculation-rules'; script-src-attr 'unsafe-hashes' 'sha384-{SHA384}'; style-src-elem 'nonce-n1'; "
    "style-src-attr 'unsafe-inline'; fenced-frame-src https:",
    "script-src 'self' 'report-sha256' 'report-sha384' 'report-sha512'",
    "sandbox; require-trusted-types-for 'script'; trusted-types one 'allow-duplicates'; webrtc 'allow'",
    f"sandbox {' '.join(grammar.SANDBOX)}; trusted-types 'none'; webrtc 'block'",
    "script-src 'strict-dynamic' 'nonce-n1' 'unsafe-inline' https: http:",
    "img-src *", "img-src https://* http://localhost:* *.a.test:443 A.test. a.test/%41/b;", "IMG-SRC 'SELF'",
    f"script-src 'sha512-{'A' * 86}=='", "frame-ancestors 'none'", "trusted-types *", "trusted-types",
    "default-src 'self';;", "default-src https: data: 'unsafe-inline' 'unsafe-eval'",
    "img-src 'self' a.test a.test/b/ wss://a.test:* mediastream:",
]

# What one change mends is told once.
TOLD_ONCE = [
    (report_only("default-src 'self' report-uri /csp"), "csp/semicolon-missing"),
    (report_only("default-src 'self', img-src a.test; report-uri /csp"), "csp/comma-for-semicolon"),
    (report_only("img-src a.test, b.test; report-uri /csp"), "csp/comma"),
    (report_only("default-src 'self', img-src 'self' a.test, report-uri /csp"), "csp/comma-for-semicolon"),
    (report_only("default-src 'self'; report-ur /csp"), "csp/unknown-directive"),
    (csp_of("conect-src 'none'"), "csp/unknown-directive"),
    (csp_of("upgrade-insecure-request"), "csp/unknown-directive"),
    (csp_of("sandbx allow-scripts"), "csp/unknown-directive"),
    (csp_of("img-src \u2018self\u2019"), "csp/not-ascii"),
    (asking("connect-src https://api.test/v1 https://api.test/v1/", API + "/v1/cart"), None),
]

# One slip that is made often in a policy, and how many warnings there are: two are told, and the others counted.
ALIKE = {
    "default-src self; img-src self; font-src self; media-src self; style-src self": 5,
    "img-src https://a.test, https://b.test, https://c.test, https://d.test, https://e.test": 4,
    "default-src 'self', img-src a.test, font-src b.test, style-src c.test, media-src d.test, report-uri /csp": 5,
    "default-src \u2018self\u2019; img-src \u2018self\u2019; font-src \u2018self\u2019; style-src \u2018self\u2019": 4,
    "default-src 'none'; img-src self; font-src self; media-src self": 3,
    "default-src 'none'; img-scr 'self'; fnt-src 'self'": 2,
}

# Headers with a comma, and the directive that is meant to widen default-src behind it; or None.
COMMAS = {
    "default-src 'none'; font-src https://a.test, connect-src https://b.test": "connect-src",
    "default-src 'none'; font-src https://a.test, connect-src https://b.test; report-uri /csp": "connect-src",
    "default-src 'self', object-src 'none'; img-src https://b.test; frame-ancestors 'none'": "img-src",
    "default-src 'none', script-src 'nonce-n1'": "script-src",
    "img-src https://a.test; font-src https://b.test, default-src 'self'": "img-src",
    "default-src https:, script-src 'self' 'unsafe-inline'": "script-src",
    "default-src https:, img-src data:": "img-src",
    "default-src 'self', object-src 'none'": None, "default-src 'self', upgrade-insecure-requests": None,
    "default-src 'self', frame-ancestors https://a.test": None,
    "default-src 'self', script-src 'self' 'nonce-n1' b.test": None,
    "default-src 'self', script-src 'nonce-n1', font-src 'self'": None,
    "default-src 'self', script-src 'nonce-n1', script-src b.test": None,
    "default-src 'self'; img-src *, img-src https://a.test": None,
    "default-src 'self', default-src https://a.test": None,
    "default-src 'self'; report-uri /a, img-src https://a.test; report-uri /b": None,
    "img-src 'self', font-src https://a.test": None, "default-src *, img-src https://a.test 'self' http:": None,
    "default-src https:, img-src a.test https://b.test": None,
    "default-src 'self'; child-src 'self', frame-src https://a.test": None,
    "default-src 'self'; script-src *, script-src-elem https://a.test": None,
}
# Words that end in the name of a directive: where it begins another, what stands before it; else an empty text.
BEFORE_NAME = {
    "'none'script-src": "'none'", "'self'STYLE-SRC-ELEM": "'self'", "'nonce-n1'style-src": "'nonce-n1'",
    "data:font-src": "data:", "https:img-src": "https:", "*img-src": "*", "'self'upgrade-insecure-requests": "'self'",
    "https://pay.examplestyle-src": "https://pay.example", "fonts.examplefenced-frame-src": "fonts.example",
    "*.a.testimg-src": "*.a.test", "localhost:3000connect-src": "localhost:3000", "http://localhostimg-src":
    "http://localhost", "a.test:*report-to": "a.test:*", "https://a.test/lib.jsstyle-src": "https://a.test/lib.js",
    "upgrade-insecure-requestsimg-src": "upgrade-insecure-requests", "allow-scriptsimg-src": "allow-scripts",
    "http://10.0.0.1img-src": "http://10.0.0.1", "img-src": "", "https://x.example/img-src": "", "img-src.example": "",
    "https://cdn.img-src": "", "https://x.example/my-img-src": "", "https://x.example/libimg-src": "",
    "https://x.example/v1.2/img-src": "", "my-img-src": "", "https://cdnimg-src": "", "https://a.my-media-src": "",
    "https://a.test/img-src/": "", "a.b_img-src": "", "https://x.example/a?img-src": "", "'img-src'": "",
}

# Policies with several slips, and what is meant by them.
MENDED = {
    "default-src 'self', script-src 'nonce-n1' a.test, img-src b.test, object-src 'none', report-uri /csp":
        "default-src 'self'; script-src 'nonce-n1' a.test; img-src b.test; object-src 'none'; report-uri /csp",
    "default-src &#39;self&#39;; img-src self": "default-src 'self'; img-src 'self'",
    "default-src \\'self\\' \\\"none\\\"": "default-src 'self'",
    "default-src 'none'script-src 'self' https://a.test https://b.teststyle-src 'self'; img-src data:font-src 'self'":
        "default-src 'none'; script-src 'self' https://a.test https://b.test; style-src 'self'; img-src data:; "
        "font-src 'self'",
    "img-src data:image/*; media-src BLOB:https://a.test; font-src https://a.test DATA:font/woff2":
        "img-src data:; media-src BLOB:; font-src https://a.test DATA:",
    "default-src 'self' data:image/png": "default-src 'self'",
    "default-src 'self' data:image/png; script-src 'self' data:text/a": "default-src 'self' data:; script-src 'self'",
    "default-src 'none'; font-src a.test, img-src b.test, style-src c.test; report-uri /csp":
        "default-src 'none'; font-src a.test; img-src b.test; style-src c.test; report-uri /csp",
    "default-src 'none'; img-src a.test, b.test, font-src c.test":
        "default-src 'none'; img-src a.test b.test; font-src c.test",
    "default-src 'none'; font a.test; IMG b.test; style c.test":
        "default-src 'none'; font-src a.test; img-src b.test; style-src c.test",
    "image a.test; font-src b.test; font b.test": "img-src a.test; font-src b.test",
    "upgrade-insecure-requestsimg-src self": "upgrade-insecure-requests; img-src 'self'",
    "default-src self; connect-src 'self' api.test report-uri /csp": "default-src 'self'; connect-src 'self' api.test; "
                                                                     "report-uri /csp",
    "defualt-src none; script-src 'slef' nonce-abc; img-src https://a.test 'none'":
        "default-src 'none'; script-src 'self' 'nonce-abc'; img-src https://a.test",
    "img-src 'self' font-src fonts.test style-src css.test": "img-src 'self'; font-src fonts.test; style-src css.test",
    "img-src a.test; b.test; img-src c.test; font-scr 'self": "img-src a.test b.test c.test; font-src 'self'",
    "connect-src 'self' https:// api.test wss:// *.live.test:* b.test; img-src https://":
        "connect-src 'self' https://api.test wss://*.live.test:* b.test; img-src https:",
    "img-src https://*img.test https://img*.a.test:8443/b/": "img-src https://*.img.test https://*.a.test:8443/b/",
    "img-src='self'; font-src:https://f.test": "img-src 'self'; font-src https://f.test",
    "img-src (self); font-src %27none%27; media-src all": "img-src 'self'; font-src 'none'; media-src *",
    "connect-src ws//a.test //b.test https://u:p@c.test /api ./d":
        "connect-src wss://a.test https://b.test https://c.test https://shop.test/api https://shop.test/d",
    "script-src 'wasm-eval' inline; img-src mediastream": "script-src 'wasm-unsafe-eval' 'unsafe-inline'; "
                                                          "img-src mediastream:",
    "default-src 'self' data:; upgrade-insecure-requests 1": "default-src 'self' data:; script-src 'self'; "
                                                             "upgrade-insecure-requests",
}

# Headers as servers send them, all right, of an answer and of a document.
RIGHT_HEADERS = [
    [ORIGIN, "*"], [METHODS, "GET, POST, PUT, PATCH, DELETE, OPTIONS"], [EXPOSED, "ETag, X-Total"], [AGE, "7200"],
    [HEADERS, "Origin, X-Requested-With, Content-Type, Accept, Authorization"],
    [HSTS, "max-age=63072000; includeSubDomains; preload"], [REFERRER, "strict-origin-when-cross-origin"],
    [POLICY, "default-src 'self'; img-src *; upgrade-insecure-requests"],
    [REPORT_ONLY, "default-src https:; report-uri /csp; report-to csp"], ENDPOINTS, ["Report-To", "{}"],
    ["Cross-Origin-Resource-Policy", "cross-origin"], ["Cross-Origin-Opener-Policy", "same-origin"],
    ["Cross-Origin-Embedder-Policy", "require-corp"], ["Vary", "Accept-Encoding, Origin"],
    ["Cache-Control", "no-store"],
    ["X-Content-Type-Options", "nosniff"], ["X-Frame-Options", "DENY"], ["X-XSS-Protection", "0"],
    ["X-Permitted-Cross-Domain-Policies", "none"], ["Permissions-Policy", "camera=(), geolocation=()"],
    ["Document-Policy", "js-profiling"], ["Integrity-Policy", "blocked-destinations=(script)"],
    ["Origin-Agent-Cluster", "?1"], ["Timing-Allow-Origin", "*"], ["Access-Control-Allow-Private-Network", "true"],
    ["Content-Type", "text/html"], ["Content-Language", "en"], ["Content-Location", "/x"], ["Allow", "GET, POST"],
    ["Set-Cookie", "a=1; Secure; SameSite=None"], ["Server", "nginx"], ["NEL", "{}"],
]

# The lints of stored scenarios, which show what is wrong on purpose, each with its reason.
SHOWN, QUESTION = "it is shown beside what is right", "it is the question"
ON_PURPOSE = {
    "examples/answers.json": {"coding/vary-missing": "that no coded body is decoded is shown",
                              "framing/lengths-differ": "that such a body is cut is shown"},
    "examples/note.json": {"hsts/sent-twice": "that the first one counts is shown"},
    "examples/report-only.json": {"csp/report-only-unheard": "the play prints the violations"},
    "gallery/authorization-under-star": {"cors/authorization-under-star": QUESTION},
    "gallery/csp-report-only": {"csp/report-only-ignores": "that it changes nothing is shown",
                                "csp/report-only-unheard": "the play prints the violations"},
    "gallery/headers-seen": {"cors/expose-headers-without-commas": "that one bad item hides all is shown",
                             "cors/exposed-star-with-credentials": SHOWN},
    "gallery/hsts-first-visit": {"hsts/over-http": "that it is ignored is shown"},
    "gallery/integrity-204": {"integrity/opaque": SHOWN},
    "gallery/max-age-edges": {"cors/max-age-no-number": "`-1`, and two of them, are edges"},
    "gallery/policy-without-effect": dict.fromkeys(["csp/directive-twice", "csp/header-misspelt",
                                                    "csp/semicolon-missing", "csp/unknown-directive"], QUESTION),
    "gallery/star-learnt": {"cors/methods-star-with-credentials": QUESTION},
    "gallery/star-with-credentials": {"cors/credentials-not-true": SHOWN, "cors/star-with-credentials": QUESTION},
    "gallery/two-allow-origins": {"cors/origin-list": SHOWN, "cors/origin-path": SHOWN, "cors/origin-twice": QUESTION},
    "gallery/vary-origin": {"cors/vary-missing": QUESTION},
}

# Lints of policies whose right text is not known, or does not stand in the policy, each with its reason. What the
# others tell of is mended (lints/mending.py).
OTHER_TEXT, OTHER_PLACE = "what is meant is not known", "it is no matter of one policy's text"
UNMENDED = {
    "csp/report-to-unknown": OTHER_PLACE,
    **dict.fromkeys(["csp/does-nothing", "csp/report-only-unheard", "csp/no-word", "csp/nonce-characters",
                     "csp/hash-length", "csp/hash-algorithm", "csp/address", "csp/dead-path"], OTHER_TEXT),
    "csp/strict-dynamic-alone": "the scripts of the page say whether a nonce or a hash is meant",
}
