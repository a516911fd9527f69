"""Why a fetch came to what it came: one table of ways, the first that holds of a case.

Each network error, each fault and each result that lets a script see less than was sent has its ways, and each way the
condition that failed, the header that decided, what to change, the rule's page, and the changes as data (changes.py),
of which the text is made where it says {change}. In the texts `c` is the case (case.py). `commands/check` shows that
each way is reached and that no result of any stored play is without one, and `commands/check_advice` that each change
helps."""
from __future__ import annotations

import difflib
import re
from typing import TYPE_CHECKING, NamedTuple

from fiorrudda.commands import chains, changes, csp, edits
from fiorrudda.commands.needs import (ALLOW_CREDENTIALS, ALLOW_HEADERS, ALLOW_METHODS, ALLOW_ORIGIN, EXPOSE_HEADERS,
                                      TOKEN)
from fiorrudda.commands.play_text import is_preflight
from fiorrudda.commands.there import there
from fiorrudda.commands.urls import scheme_of

if TYPE_CHECKING:
    from collections.abc import Callable, Iterator
    from typing import Any

    from fiorrudda.commands.case import Case
    from fiorrudda.commands.needs import Needs
    from fiorrudda.commands.play_text import Result
    from fiorrudda.commands.shapes import Edit, Object, Ways



class Way(NamedTuple):
    """`results` are numbers of network errors; a fault's has an f before it, and a result that is none of both an s."""

    name: str
    results: str
    holds: Callable[[Case], bool]
    condition: str
    header: str
    change: str
    rule: str
    changes: Callable[[Case], Ways] = changes.nothing


CORS = "cors.md#the-cors-check"
PREFLIGHT = "preflight.md#the-six-checks-of-the-answer"
REDIRECTS = "redirects.md#the-ten-steps"
BODY = "final-checks.md#4-to-6-the-body"
TYPES = "final-checks.md#2-and-3-types"
FAULTS = "requests.md#faults"
HEAD = "answers.md#the-head"
MIXED = "mixed-content.md#mixed-content-mixed-content-section-4"
POLICY = "csp.md#check-of-a-request"
WORDS = "csp.md#match-does-url-match-expression-in-origin-with-redirect-count"
FETCH = "fetch.md#main-fetch"
EXPOSED = "responses.md#exposed-names"
# of a preflight that is refused all that its answers need is said
PREFLIGHTED = ("7", "8", "9", "10", "11")


def always(c: Case) -> bool:
    return True


CORS_CHECK = [
    Way("redirect/cycle", "12", lambda c: c.has_no_end,
        "the answer redirects ({c.status}) to {c.whereto}, and that leads back{c.back_where}: such a chain has no end, "
        "whatever its headers are", "Location",
        "let one of these URLs answer itself; look for a login that waits for a cookie which is never sent, or http "
        "and https that lead to each other", REDIRECTS),
    Way("cors/no-rule", "7 12", lambda c: c.has_no_rule,
        "the scenario's server {c.request.origin} has no rule for {c.request.method} {c.request.target}, so the answer "
        "is an empty 404 without CORS headers; {c.nearest_rule}", "",
        "add a rule for this request: {change}{c.or_path}", CORS, changes.no_rule),
    Way("cors/tls-port-asked-in-plain", "7 12",
        lambda c: (c.is_net and not c.is_direct and c.status == 400 and c.request.origin.startswith("https:")
                   and c.allowed_origin is None),
        "the answer is 400, as a TLS port gives it when it is asked in plain; `net` speaks no TLS, and {c.route} was "
        "asked in plain", "", "let the route lead to the server's plain port, or to a side process that adds TLS",
        "../why.md#your-own-server"),
    Way("cors/origin-null", "7 12", lambda c: c.origin == "null",
        "the request says `Origin: null`, since a redirect led it from another origin to this one, and the answer "
        "{c.allows}", ALLOW_ORIGIN, "{change}; or redirect within one origin", "redirects.md#origin-null",
        changes.origin_null),
    Way("cors/preflight-redirect", "7", lambda c: c.is_redirect,
        "the preflight is answered by a redirect ({c.status}) to {c.whereto}{c.next_differs}, and no redirect of a "
        "preflight is followed, whatever headers it has{c.no_cookie}", "Location",
        "{c.before_login}{change}{c.look_for}", PREFLIGHT, changes.next_url_or_cors),
    Way("cors/preflight-login", "7", lambda c: c.allowed_origin is None and c.status in (401, 403, 407),
        "the answer to the preflight is {c.status}, without CORS headers: a preflight never carries a cookie or "
        "Authorization",
        ALLOW_ORIGIN, "let OPTIONS pass before the login is asked for: {change}", PREFLIGHT, changes.cors),
    Way("cors/preflight-not-handled", "7", lambda c: c.allowed_origin is None and c.status in (404, 405, 501),
        "the answer to the preflight is {c.status}, without CORS headers: the server does not answer OPTIONS at "
        "{c.request.target}", ALLOW_ORIGIN, "{change}", PREFLIGHT, changes.cors),
    Way("cors/preflight-status", "7", lambda c: c.allowed_origin is None and not 200 <= c.status <= 299,
        "the answer to the preflight is {c.status}, which is none of 200 to 299, and has no "
        "Access-Control-Allow-Origin",
        ALLOW_ORIGIN, "{change}; then look why it is {c.status}", PREFLIGHT, changes.cors),
    Way("cors/absent-on-error", "12", lambda c: c.allowed_origin is None and c.status >= 400,
        "the answer is {c.status}, and has no Access-Control-Allow-Origin", ALLOW_ORIGIN,
        "{change}, with errors too: many servers, logins and proxies leave CORS headers out there; then look why it "
        "is {c.status}", CORS, changes.cors),
    Way("cors/absent-on-redirect", "12", lambda c: c.allowed_origin is None and c.is_redirect,
        "the answer redirects ({c.status}) to {c.whereto}{c.next_differs}, and has no Access-Control-Allow-Origin",
        ALLOW_ORIGIN, "{change}; each answer of a chain is checked{c.look_for}", "redirects.md",
        changes.cors_or_next_url),
    Way("cors/absent", "7 12", lambda c: c.allowed_origin is None,
        "{c.the_answer} has no Access-Control-Allow-Origin", ALLOW_ORIGIN, "{change}", CORS, changes.cors),
    Way("cors/several", "7 12", lambda c: "," in (c.allowed_origin or ""),
        "{c.the_answer} has several values of Access-Control-Allow-Origin, which are joined to one that is no origin",
        ALLOW_ORIGIN, "{change}; once, with one value: look for a proxy that adds its own", CORS, changes.cors),
    Way("cors/star-with-credentials", "7 12", lambda c: c.allowed_origin == "*" and c.includes,
        "Access-Control-Allow-Origin is `*`, which passes no request with credentials", ALLOW_ORIGIN,
        "{change}{c.and_vary}", CORS, changes.cors),
    Way("cors/written-otherwise", "7 12", lambda c: c.allowed_origin != c.origin and c.is_alike(),
        "`{c.allowed_origin}` is not `{c.origin}`, byte for byte, as the request says its origin", ALLOW_ORIGIN,
        "{change}; an origin is scheme, ://, host, and the port where it is not the default: no slash, no blank, no "
        "quotes",
        CORS, changes.cors),
    Way("cors/other-origin", "7 12", lambda c: c.allowed_origin != c.origin,
        "{c.the_answer} allows `{c.allowed_origin}`, and the request is of `{c.origin}`", ALLOW_ORIGIN,
        "{change}, where the server trusts this origin{c.and_others}{c.and_vary}", CORS, changes.cors),
    Way("cors/credentials-absent", "7 12", lambda c: c.allowed_credentials is None,
        "the request has credentials, and {c.the_answer} has no Access-Control-Allow-Credentials", ALLOW_CREDENTIALS,
        "{change}", CORS, changes.cors_or_without_credentials),
    Way("cors/credentials-not-true", "7 12", lambda c: c.allowed_credentials != "true",
        "Access-Control-Allow-Credentials is `{c.allowed_credentials}`, and not `true`", ALLOW_CREDENTIALS,
        "{change}; `true` in lower case, and once", CORS, changes.cors),
]

PREFLIGHTS = [
    Way("preflight/redirect", "8", lambda c: c.is_redirect,
        "the preflight is answered by a redirect ({c.status}) to {c.whereto}{c.next_differs}, and no redirect of a "
        "preflight is followed{c.no_cookie}", "Location", "{c.before_login}{change}{c.look_for}", PREFLIGHT,
        changes.next_url_or_cors),
    Way("preflight/login", "8", lambda c: c.status in (401, 403, 407),
        "the answer to the preflight is {c.status}: a preflight never carries a cookie or Authorization", "",
        "let OPTIONS pass before the login is asked for: {change}", PREFLIGHT, changes.cors),
    Way("preflight/no-handler", "8", lambda c: c.status in (404, 405, 501),
        "the answer to the preflight is {c.status}: the server does not answer OPTIONS at {c.request.target}", "",
        "{change}", PREFLIGHT, changes.cors),
    Way("preflight/status", "8", always,
        "the answer to the preflight is {c.status}, which is none of 200 to 299", "", "{change}", PREFLIGHT,
        changes.cors),
    Way("preflight/list", "9", lambda c: c.bad_item is not None,
        "`{c.list_item}` in {c.list_name} is no token", "{c.list_name}",
        "{change}: commas between the items, and no quotes, colons or blanks in one", PREFLIGHT, changes.cors),
    Way("preflight/method-absent", "10", lambda c: not c.methods,
        "the answer to the preflight has no Access-Control-Allow-Methods, and {c.method} is none of GET, HEAD and POST",
        ALLOW_METHODS, "{change}", PREFLIGHT, changes.cors),
    Way("preflight/method-star-with-credentials", "10", lambda c: "*" in c.methods and c.includes,
        "Access-Control-Allow-Methods has `*`, which covers no method of a request with credentials", ALLOW_METHODS,
        "list the method in its place: {change}", PREFLIGHT, changes.cors),
    Way("preflight/method-in-another-case", "10", lambda c: c.same_method != "",
        "Access-Control-Allow-Methods has `{c.same_method}`, and the request's method is `{c.method}`: the case counts",
        ALLOW_METHODS, "{change}", PREFLIGHT, changes.method_in_another_case),
    Way("preflight/method-not-listed", "10", always,
        "Access-Control-Allow-Methods does not have {c.method}", ALLOW_METHODS,
        "list it beside what is there: {change}", PREFLIGHT, changes.cors),
    Way("preflight/authorization-under-star", "11",
        lambda c: c.result.detail == "authorization" and "*" in c.names and not c.includes,
        "`*` in Access-Control-Allow-Headers does not cover Authorization", ALLOW_HEADERS,
        "list it by its name: {change}", PREFLIGHT, changes.cors),
    Way("preflight/header-of-answers", "11", lambda c: c.result.detail in c.stray_names,
        "the script sets {c.result.detail}, which is a header of answers and does nothing in a request, except that a "
        "preflight asks for it", ALLOW_HEADERS, "{change}", PREFLIGHT, changes.cors),
    Way("preflight/user-agent", "11", lambda c: c.result.detail == "user-agent",
        "the script sets User-Agent, as a command line of curl does, and the answer to the preflight does not list it; "
        "browsers send their own", ALLOW_HEADERS, "{change}", PREFLIGHT, changes.without_user_agent),
    Way("preflight/header-absent", "11", lambda c: not c.names,
        "the answer to the preflight has no Access-Control-Allow-Headers, and the request has {c.result.detail}",
        ALLOW_HEADERS, "{change}", PREFLIGHT, changes.cors),
    Way("preflight/header-star-with-credentials", "11", lambda c: "*" in c.names and c.includes,
        "Access-Control-Allow-Headers has `*`, which covers no header of a request with credentials", ALLOW_HEADERS,
        "list the names in its place: {change}", PREFLIGHT, changes.cors),
    Way("preflight/header-not-listed", "11", always,
        "Access-Control-Allow-Headers does not have {c.result.detail}", ALLOW_HEADERS,
        "list it beside what is there: {change}", PREFLIGHT, changes.cors),
]

# of URLs that a browser loads by itself, or by a WebSocket
UNLOADED = [
    Way("no-verdict/data", "1", lambda c: c.is_unloaded and c.scheme == "data",
        "no verdict: this engine loads no `data:` URL; a browser would, {c.policy_verdict}", "", "{c.unloaded_change}",
        FETCH),
    Way("no-verdict/blob", "1", lambda c: c.is_unloaded and c.scheme == "blob",
        "no verdict: this engine loads no `blob:` URL; a browser would, where a script of the page's origin made it, "
        "{c.policy_verdict}", "", "{c.unloaded_change}", FETCH),
    Way("mixed/websocket", "1", lambda c: c.is_unloaded and c.is_mixed_socket,
        "the page is secure, and {c.url} is not: no browser opens this WebSocket", "", "{change}", MIXED,
        changes.secure_socket),
    Way("no-verdict/websocket", "1", lambda c: c.is_unloaded,
        "no verdict: this engine opens no WebSocket; a browser would, by `new WebSocket`, {c.policy_verdict}", "",
        "{c.unloaded_change}", FETCH),
]

POLICIES = [
    Way("policy/quotes", "4", lambda c: c.unquoted_words != [],
        "{c.policy} has `{c.directive_text}`, where `{c.unquoted_word}` lacks its quotes (`{c.unquoted_written}`), and "
        "so is no keyword, nonce or hash", "", "{change}{c.then_strict}", "csp.md#words-section-231-source-expression",
        changes.put_quotes),
    Way("policy/before-upgrade", "4", lambda c: c.is_before_upgrade,
        "{c.policy} has `{c.directive_text}`, and no word of it matches {c.policy_url}: a policy that only reports is "
        "asked before the URL becomes https, and one that is enforced behind that", "", "{change}",
        "csp.md#when-a-fetch-asks-them-section-41-integration-with-fetch", changes.before_upgrade),
    Way("policy/data-script", "4", lambda c: c.kind == "script" and scheme_of(c.policy_url) == "data",
        "{c.policy} has `{c.directive_text}`, and a word that lets this `data:` URL pass lets every script pass that "
        "finds its way into the page", "", "{change}; or serve the script as a file", POLICY, changes.nonce),
    Way("policy/strict-dynamic", "4",
        lambda c: c.kind == "script" and "'strict-dynamic'" in [word.lower() for word in c.directive[1]],
        "{c.policy} has `{c.directive_text}`: with 'strict-dynamic' a script that a parser inserted passes by its "
        "nonce or hash alone", "", "{change}", POLICY, changes.nonce_or_inserted),
    Way("policy/nonce-differs", "4", lambda c: c.policy_nonces != [] and c.nonce not in ("", *c.policy_nonces),
        "{c.policy} has `{c.directive_text}`, and the element's nonce is `{c.nonce}`", "",
        "{change}", POLICY, changes.nonce_or_source),
    Way("policy/hash-absent", "4", lambda c: c.kind == "script" and csp.hashes(c.directive[1]) != []
        and csp.digests(c.command.options["integrity"]) != [],
        "{c.policy} has `{c.directive_text}`, and a digest of the element's integrity text is not among its hashes", "",
        "{change}", POLICY, changes.add_hashes),
    Way("policy/nothing-allowed", "4", lambda c: [word.lower() for word in c.directive[1]] in ([], ["'none'"]),
        "{c.policy} has `{c.directive_text}`, which lets nothing pass", "", "{change}", POLICY,
        changes.add_source_or_nonce),
    Way("policy/loopback-address", "4", lambda c: c.is_policy_loopback,
        "{c.policy} has `{c.directive_text}`, where browsers match `127.0.0.1`, as CSP 3 has it, and this engine "
        "matches no IP address", "", "a browser needs no change; for a verdict here {change}", WORDS,
        changes.add_source),
    Way("policy/ip-address", "4", lambda c: c.is_policy_address,
        "{c.policy} has `{c.directive_text}`, and the host of {c.policy_url} is an IP address, which no word with a "
        "host matches", "",
        "{change}; or give the server a name", WORDS, changes.add_source_or_nonce),
    Way("policy/colon", "4", lambda c: c.near_fault == "colon",
        "{c.policy} has `{c.directive_text}`, where `{c.near_text}` lacks its colon (`{c.near_written}`), and so is "
        "the name of a host", "", "{change}", WORDS, changes.rewrite),
    Way("policy/path-star", "4", lambda c: c.near_fault == "path-star",
        "{c.policy} has `{c.near_text}`, whose path is no pattern: `*` stands for itself there, and a path that ends "
        "in a slash for all below it", "", "{change}", WORDS, changes.rewrite),
    Way("policy/path-slash", "4", lambda c: c.near_fault == "path-slash",
        "{c.policy} has `{c.near_text}`, and not `{c.near_written}`, as {c.policy_url} wants it: a path matches itself "
        "alone, and one that ends in a slash what is below it", "", "{change}", WORDS, changes.rewrite),
    Way("policy/path", "4", lambda c: c.near_fault == "path",
        "{c.policy} has `{c.near_text}`, and the path of {c.policy_url} is another: scheme and host match, and capital "
        "letters of a path differ from small ones", "", "{change}", WORDS, changes.rewrite),
    Way("policy/port", "4", lambda c: c.near_fault == "port",
        "{c.policy} has `{c.near_text}`, and {c.policy_url} has another port: a word without one stands for the "
        "default one", "",
        "{change}", WORDS, changes.rewrite),
    Way("policy/scheme", "4", lambda c: c.near_fault == "scheme",
        "{c.policy} has `{c.near_text}`, and the scheme of {c.policy_url} is another: http matches https too, and "
        "https itself alone",
        "", "{change}", WORDS, changes.secure_or_rewrite),
    Way("policy/host", "4", lambda c: c.near_fault == "host",
        "{c.policy} has `{c.near_text}`, and not `{c.near_written}`, as {c.policy_url} wants it: a host matches itself "
        "alone, and one behind `*.` what is below it", "", "{change}", WORDS, changes.rewrite),
    Way("policy/nonce-absent", "4", lambda c: c.policy_nonces != [] and c.nonce == "",
        "{c.policy} has `{c.directive_text}`, and the element has no nonce", "", "{change}", POLICY,
        changes.nonce_or_source),
    Way("policy/after-redirect", "4", lambda c: c.violated.redirected,
        "{c.policy} has `{c.directive_text}`, and no word of it matches {c.policy_url}, where the redirect leads", "",
        "{change}; the path of a word does not count after a redirect", POLICY, changes.add_source_or_nonce),
    Way("policy/no-word", "4", always,
        "{c.policy} has `{c.directive_text}`, and no word of it matches {c.policy_url}", "", "{change}", POLICY,
        changes.add_source_or_nonce),
]

BEFORE_SENDING = UNLOADED + [
    Way("scheme/host-taken-for-it", "1", lambda c: re.match(r"\s*[A-Za-z0-9.-]+:\d+", c.command.url) is not None,
        "`{c.command.url}` is read as a URL of the scheme `{c.scheme}`: without // the host stands where a scheme does",
        "", "write the scheme: {change}", FETCH, changes.with_scheme),
    Way("scheme/other", "1", always,
        "the URL's scheme is `{c.scheme}`, and neither http nor https: a browser refuses it too", "",
        "ask for an http or https URL", FETCH),
    Way("port/bad", "2", always, "browsers block the port {c.port} of {c.url}{c.where}", "",
        "let the server listen at another port{c.over_https}, such as 443, 8080 or 8443: {change}",
        "mixed-content.md#bad-ports-fetch-section-29-port-blocking", changes.other_port),
    Way("mixed/ip-address", "3", lambda c: c.is_upgradeable_address,
        "the page is secure, and {c.url}{c.where} is not: images, audio and video become https by themselves, but not "
        "where the host is an IP address", "",
        "{change}, with a certificate that names the address, since HSTS never applies to one; or give the server a "
        "name, let it answer over https under that name, and ask by it", MIXED, changes.ask_secure_or_upgrade),
    Way("mixed/top", "3", lambda c: c.is_embedded and not c.page_origin.startswith("https:"),
        "the page at the top, {c.top_origin}, is secure, and {c.url}{c.where} is not: what is embedded may not be "
        "laxer{c.but_known}", "", "{change}{c.too_late}", MIXED, changes.ask_secure_or_upgrade),
    Way("mixed/page", "3", always,
        "the page {c.page_origin} is secure, and {c.url}{c.where} is not, so nothing is sent to it{c.but_known}", "",
        "{change}{c.too_late}", MIXED, changes.ask_secure_or_upgrade),
    *POLICIES,
    Way("same-origin/known-host", "5", lambda c: c.is_known_host and not c.is_redirected,
        "{c.why_known}, so the URL becomes https, which is another origin than {c.page_origin}; and the mode is "
        "same-origin", "", "{change}", FETCH, changes.secure_page),
    Way("same-origin/redirect", "5", lambda c: c.is_redirected,
        "the mode is same-origin, and the redirect leads to another origin, {c.url_origin}", "Location",
        "{change}; in mode cors the server sends its CORS headers", FETCH, changes.redirect_within),
    Way("same-origin/other", "5", always,
        "the mode is same-origin, and {c.url} is of another origin than {c.page_origin}", "",
        "{change}, and have the server send its CORS headers", FETCH, changes.mode_cors),
    Way("no-cors/redirect-mode", "6", always,
        "the mode is no-cors, {c.url}{c.where} is of another origin, and the redirect mode is "
        "`{c.command.options[redirect]}`, not follow", "", "{change}", "redirects.md", changes.follow_or_cors),
]

ANSWERS = [
    Way("corp/same-origin", "13", lambda c: c.get("Cross-Origin-Resource-Policy") == "same-origin",
        "Cross-Origin-Resource-Policy is `same-origin`, and {c.request.origin} is another origin than {c.page_origin}",
        "Cross-Origin-Resource-Policy", "{change}", "cors.md#cross-origin-resource-policy", changes.resource_policy),
    Way("corp/same-site-scheme", "13",
        lambda c: c.page_origin.startswith("http:") and c.request.origin.startswith("https:")
        and c.is_same_site(),
        "Cross-Origin-Resource-Policy is `same-site`, and the page is not of https while {c.request.origin} is",
        "Cross-Origin-Resource-Policy", "{change}", "cors.md#cross-origin-resource-policy",
        changes.resource_policy_or_secure_page),
    Way("corp/same-site", "13", always,
        "Cross-Origin-Resource-Policy is `same-site`, and {c.request.origin} is of another site than {c.page_origin}",
        "Cross-Origin-Resource-Policy", "{change}", "cors.md#cross-origin-resource-policy", changes.resource_policy),
    Way("redirect/mode-error", "14", always,
        "the answer redirects ({c.status}) to {c.whereto}, and the redirect mode is error", "Location", "{change}",
        "redirects.md", changes.follow_or_next_url),
    Way("redirect/two-locations", "15", lambda c: len(c.head.values("Location")) > 1,
        "the answer has Location twice", "Location", "{change}, once: not by the program and by the proxy", REDIRECTS,
        changes.location(changes.first_location)),
    Way("redirect/long-location", "15", lambda c: len(c.location or "") > 8000,
        "the Location gives a URL of more than 8,192 bytes", "", "send a shorter one", REDIRECTS),
    Way("redirect/no-url", "15", always, "the Location `{c.location}` gives no URL", "Location",
        "send a URL, whole or relative, in UTF-8", REDIRECTS),
    Way("redirect/scheme", "16", always,
        "the redirect leads to `{c.location}`, which is neither http nor https: browsers do not follow it either",
        "Location", "lead to an http or https URL: others are not followed", REDIRECTS),
    Way("redirect/loop", "17", lambda c: len({c.whole(request) for request, _ in c.chain}) < len(c.chain),
        "twenty redirects were followed, and the chain comes back to where it was", "Location",
        "look for a loop: a login that waits for a cookie which is never sent, http and https that lead to each other",
        REDIRECTS),
    Way("redirect/many", "17", always, "twenty redirects were followed, and this is one more", "Location",
        "{change}; or shorten the chain", REDIRECTS, changes.next_url),
    Way("redirect/credentials", "18", always,
        "the redirect's URL has a user name or a password, which CORS refuses", "Location",
        "take them out: {change}", REDIRECTS, changes.location(changes.location_without_credentials)),
    Way("policy/response", "19", always,
        "{c.policy} has `{c.directive_text}`, and no word of it matches the URL of the response, {c.policy_url}", "",
        "leave out the port 80 of the word, since the URL became https: {change}", "final-checks.md#1-the-policies",
        changes.without_port),
    Way("type/script", "20", always, "the type of the answer is `{c.essence}`, which no script may have",
        "Content-Type", "{change}{c.why_status}", TYPES, changes.header("Content-Type", "text/javascript")),
    Way("type/nosniff-absent", "21", lambda c: not c.essence,
        "the answer says `nosniff`, and has no type", "Content-Type", "{change}{c.why_status}", TYPES,
        changes.header("Content-Type", lambda c: c.right_type)),
    Way("type/nosniff", "21", always,
        "the answer says `nosniff`, and its type is `{c.essence}`, which a {c.kind} may not have", "Content-Type",
        "{change}, once: of several the last counts{c.why_status}", TYPES,
        changes.header("Content-Type", lambda c: c.right_type)),
    Way("integrity/opaque", "22", lambda c: c.is_opaque,
        "the response is opaque, since it is of another origin and the mode is no-cors: there is no body to match", "",
        "{change}", BODY, changes.in_cors),
    Way("integrity/opaqueredirect", "22", lambda c: c.is_redirect and c.command.options["redirect"] == "manual",
        "the answer redirects ({c.status}), and the redirect mode is manual: there is no body to match", "Location",
        "{change}", BODY, changes.follow),
    Way("integrity/no-body", "22", lambda c: not c.has_body,
        "an answer with the status {c.status} to {c.request.method} has no body that could match", "",
        "{change}", BODY, changes.body_or_no_integrity),
    Way("body/not-its-coding", "22 23 s", lambda c: c.is_short and c.wrong_coding is not None,
        "{c.coding_fault}{c.but_gzip}{c.as_decoded}", "Content-Encoding",
        "{c.right_coding}", "../why.md#binask"),
    Way("body/coding-cut", "22 23 s", lambda c: c.is_short and c.cut_coding is not None,
        "the {c.cut_coding} body is cut{c.but_length}{c.as_measured}", "{c.cutting_header}", "{c.whole_coding}",
        "../why.md#binask"),
    Way("body/two-lengths", "22 23 s", lambda c: c.is_short and len(c.lengths) > 1,
        "the answer has {c.lengths_told}: both browsers make that a network error "
        "({c.as_refused}docs/BROWSERS.md#bytes-on-the-wire)", "Content-Length",
        "let one of them alone stand there, the right one", "answers.md#the-body", changes.right_length),
    Way("integrity/incomplete", "22", lambda c: c.is_cut,
        "the body did not come whole", "Content-Length", "send all of it, and its right length", BODY,
        changes.right_length),
    Way("integrity/toobig", "22", lambda c: c.is_too_big,
        "the body is longer than the {c.body_limit} bytes that are read here, so no digest was made", "",
        "set `body_limit`, in format 2; a browser has no such limit", "answers.md#the-body", changes.greater_limit),
    Way("integrity/unpadded", "22", lambda c: any(c.digest(c.strongest).rstrip("=") == value for value in
                                                 c.digests.get(c.strongest, [])),
        "the {c.strongest} of the integrity text has lost its padding", "", "{change}",
        "integrity.md", changes.integrity),
    Way("integrity/stale-strongest", "22",
        lambda c: any(c.digest(name) in values for name, values in c.digests.items()),
        "a weaker digest of the integrity text matches, and the {c.strongest} does not: the strongest alone counts", "",
        "{change}", "integrity.md", changes.integrity),
    Way("integrity/mismatch", "22", always,
        "the body that came is not the one of the integrity text", "",
        "make the digest anew of the bytes as they are sent: {change}", BODY, changes.integrity),
    Way("no-verdict/coded", "23", lambda c: not c.is_cut_coded,
        "no verdict: the body is coded, and this engine decodes none (requests say `Accept-Encoding: identity`); a "
        "browser would, and CORS, policies and types let it", "Content-Encoding",
        "for a verdict here send the body uncoded, and {change}; where the body is of that coding, a browser needs no "
        "change", BODY,
        changes.uncoded),
]

# of connections that bin/ask makes itself
DIRECT = [
    Way("link/tls-port", "7 8 12 13 20 21 22 23 24 25 s", lambda c: c.link == "tls-port",
        "{c.request.origin} was asked in plain, and what came is what a port that speaks TLS answers to that", "",
        "ask for {c.secure_url}", "../why.md#binask"),
    Way("link/certificate", "24", lambda c: c.link == "certificate",
        "this machine does not trust the certificate that {c.request.origin} shows, and a browser would not either", "",
        "let the server show a certificate for this name, with its whole chain; an authority of your own is named by "
        "SSL_CERT_FILE", "../why.md#binask"),
    Way("link/no-tls", "24", lambda c: c.link == "no-tls",
        "{c.request.origin} was asked over TLS, and the handshake failed: it speaks none, or none that is accepted "
        "here", "",
        "let the server speak TLS at this port{c.or_plain}", "../why.md#binask"),
]

LINKS = [
    Way("link/no-route", "24", lambda c: c.route is None, "no route of the scenario is for {c.request.origin}", "",
        "add a route, [\"{c.request.origin}\", ADDRESS], where ADDRESS is where your server listens, such as "
        "\"127.0.0.1:8000\"; the origin is to be written so",
        "../why.md#your-own-server"),
    Way("link/bad-address", "24", lambda c: c.link == "bad-address",
        "the route's address `{c.route}` is none: a host or an IP address, a colon and a port", "",
        "write it so: 127.0.0.1:8000", "../why.md#your-own-server"),
    Way("link/unknown-name", "24", lambda c: c.link == "unknown-name",
        "the name in the route's address `{c.route}` is not known here", "",
        "write an IP address, or a name that this machine can look up", "../why.md#your-own-server"),
    Way("link/refused", "24", lambda c: c.link == "refused", "nothing listens at {c.route}", "",
        "start the server, or mend the port of the route", "../why.md#your-own-server"),
    Way("link/unreached", "24", lambda c: c.link == "unreached",
        "no connection to {c.route} came about until the time limit", "",
        "look whether a firewall keeps it back, or whether another program listens there",
        "../why.md#your-own-server"),
    Way("link/hang", "24", lambda c: c.is_silent,
        "the server at {c.route} took the request, and nothing more came until the time limit", "",
        "look why it does not answer; --timeout gives it longer", "../why.md#your-own-server"),
    Way("link/reset", "24", always, "the connection to {c.route} broke before the head of the answer was whole", "",
        "look into the server's log: it ended, or reset the connection", "../why.md#your-own-server"),
    Way("head/host-as-path", "25", lambda c: not c.is_net and c.answer.server is None and c.is_host_as_path,
        "`{c.command.url}` has no scheme, so it is a path of the page, and the scenario has no server "
        "{c.request.origin}",
        "", "write the scheme: {change}", "../scenario.md#servers", changes.with_https),
    Way("head/no-server", "25", lambda c: not c.is_net and c.answer.server is None,
        "{c.why_scheme}the scenario has no server {c.request.origin}: {c.near_server}", "",
        "add a server of this origin, with this scheme and this port{c.or_known}{c.or_https}", "../scenario.md#servers",
        changes.a_server),
    Way("head/nothing", "25", lambda c: c.link_problem == "nothing",
        "the server closed the connection without an answer", "", "look into the server's log", HEAD),
    Way("head/tls", "25", lambda c: c.link_problem == "tls", "the server speaks TLS there, and was asked in plain", "",
        "let the route lead to its plain port, or to a side process that adds TLS",
        "../why.md#your-own-server"),
    Way("head/cut", "25", lambda c: c.link_problem == "cut", "the answer ends before its head does", "",
        "end the head with an empty line", HEAD, changes.mended_head),
    Way("head/bad-line", "25", lambda c: c.link_problem == "bad-line",
        "a header line of the answer is none: a token, a colon right behind it, and a value without control bytes", "",
        "mend the line; none may be folded", HEAD, changes.mended_head),
    Way("head/many-lines", "25", lambda c: c.link_problem == "many-lines", "the answer has more than 128 header lines",
        "", "send fewer", HEAD, changes.mended_head),
    Way("head/no-status-line", "25", always,
        "the answer begins with `{c.first_bytes}`, and not with the status line of HTTP/1.1 or HTTP/1.0", "",
        "look whether an HTTP server listens there", HEAD),
    Way("head/too-big", "26", always, "the head of the answer is longer than 65,536 bytes", "",
        "look for a cookie or a policy that grows", HEAD, changes.mended_head),
]

REQUESTS = [
    Way("request/long-url", "f1", lambda c: len(c.command.url) > 8000, "the URL has more than 8,192 bytes", "",
        "send what is long in the body", FAULTS),
    Way("request/url-bytes", "f1", lambda c: re.search("[\udc80-\udcff]", c.command.url) is not None,
        "the bytes that a template puts into the URL are no UTF-8", "",
        "take the text from a header, or send other bytes", FAULTS),
    Way("request/no-url", "f1", always, "`{c.command.url}` gives no URL against {c.document[url]}", "",
        "mend it: a bad host, port or address", FAULTS),
    Way("request/url-credentials", "f2", always, "the URL has a user name or a password", "",
        "{change}", FAULTS, changes.without_user),
    Way("request/bad-method", "f3", always, "the method `{c.command.options[method]}` is no token", "",
        "write its letters alone: {change}", FAULTS, changes.token_method),
    Way("request/forbidden-method", "f4", always, "scripts may not use {c.command.options[method]}", "",
        "CONNECT, TRACE and TRACK are never sent: use another method, such as {c.plain_method}", FAULTS,
        changes.plain_method),
    Way("request/body-with-get", "f5", always, "a {c.command.options[method]} has no body, and this one has", "",
        "{change}, and put it into the URL", FAULTS, changes.post_or_no_body),
    Way("request/no-cors-method", "f6", always,
        "in mode no-cors the method is GET, HEAD or POST, and not {c.command.options[method]}", "", "{change}", FAULTS,
        changes.mode_cors),
    Way("request/bad-header-name", "f7", lambda c: not TOKEN.fullmatch(c.bad_name),
        "the header name `{c.bad_name}` is no token", "", "write its letters alone, without colon and blanks: {change}",
        FAULTS, changes.mended_header),
    Way("request/bad-header-value", "f7", always, "the value of {c.bad_name} has a line end or a zero byte in it", "",
        "take it out: {change}", FAULTS, changes.mended_header),
    Way("request/navigate", "f8", always, "scripts may not use the mode navigate", "", "{change}; or in another mode",
        FAULTS, changes.mode_cors),
    Way("request/long-body", "f9", lambda c: len((c.command.body or "").encode("utf-8", "replace")) > 65536,
        "the body has more than 65,536 bytes", "", "send less at once", FAULTS),
    Way("request/long-headers", "f9", always, "the method and the headers have more than 16,384 bytes together", "",
        "send less at once", FAULTS),
    Way("request/long-text", "f10", always, "the text of the URL has more than 786,432 bytes", "",
        "send what is long in the body", FAULTS),
]

SEEN = [
    Way("seen/no-rule", "s", lambda c: c.has_no_rule and c.result.type in ("basic", "loaded", "opaque"),
        "the scenario's server {c.request.origin} has no rule for {c.request.method} {c.request.target}, so the answer "
        "is an empty 404; {c.nearest_rule}", "", "add a rule for this request: {change}{c.or_path}",
        "../scenario.md#servers", changes.no_rule),
    Way("seen/opaque", "s", lambda c: c.result.type == "opaque",
        "the mode is no-cors and the answer of another origin, so the script sees nothing of it: not its status "
        "{c.status}, no header, no body", "", "{change}", "responses.md#types", changes.in_cors),
    Way("seen/opaqueredirect", "s", lambda c: c.result.type == "opaqueredirect",
        "the answer redirects ({c.status}), and the redirect mode is manual: the script does not see where to",
        "Location", "{change}: the URL of the response is the last one", "responses.md#types", changes.follow),
    Way("seen/body-cut", "23 s", lambda c: c.result.ending == "cut" or c.is_spoilt or c.is_cut_coded,
        "the body ends before the end that its head announced, or does not fit it{c.as_cut}", "{c.framing_header}",
        "{c.whole_again}", "answers.md#the-body", changes.right_length),
    Way("seen/body-hang", "s", lambda c: c.result.ending == "fault" and c.is_silent,
        "the head came, and the body did not end before the time limit", "",
        "end it; of a stream that has no end a page reads what comes, which is not done here", "answers.md#the-body"),
    Way("seen/body-fault", "s", lambda c: c.result.ending == "fault", "the connection broke in the middle of the body",
        "", "look into the server's log", "answers.md#the-body"),
    Way("seen/body-toobig", "s", lambda c: c.result.ending == "toobig",
        "the body is longer than the scenario's body limit",
        "", "set `body_limit`, in format 2", "answers.md#the-body", changes.greater_limit),
    Way("seen/exposed-list", "s", lambda c: c.result.type == "cors" and c.hidden_by_cors != "" and c.bad_exposed != "",
        "`{c.bad_exposed}` in Access-Control-Expose-Headers is no token, so nothing is exposed: the script does not "
        "see {c.hidden_by_cors}", EXPOSE_HEADERS,
        "{change}: commas between the names, and no quotes, colons or blanks in one", EXPOSED, changes.expose),
    Way("seen/star-with-credentials", "s",
        lambda c: c.result.type == "cors" and c.hidden_by_cors != "" and c.includes and "*" in c.exposed,
        "with credentials `*` is a plain name and exposes nothing: the script does not see {c.hidden_by_cors}",
        EXPOSE_HEADERS, "name them: {change}", EXPOSED, changes.expose),
    Way("seen/hidden-headers", "s", lambda c: c.result.type == "cors" and c.hidden_by_cors != "",
        "the script does not see these headers of the answer: {c.hidden_by_cors}{c.though_read}", EXPOSE_HEADERS,
        "where it needs them {change}", EXPOSED, changes.expose),
]

# What bin/ask says in the place of these, since it has no routes and no scenario: the condition, and what to change.
ASKED = {
    "link/unknown-name": ("the name in `{c.route}` is not known here",
                          "mend the name; or say where its server is by --connect-to"),
    "link/refused": ("nothing listens at {c.route}", "start the server, or mend the port of the URL"),
    "seen/body-cut": ("the body ends before the end that its head announced{c.or_unfit}{c.but_length}"
                      "{c.length_as_measured}", "{c.whole_again}"),
    "seen/body-hang": ("the head came, and the body did not end before the time limit{c.but_length}",
                       "end it{c.or_length}; of a stream that has no end a page reads what comes, which is not done "
                       "here"),
    "no-verdict/coded": ("no verdict: {c.coding} is not decoded here{c.why_coded}{c.if_coded}{c.but_gzip}; known "
                         "without it: the status {c.status}, and that CORS, policies and types let it",
                         "{c.if_gzip}{c.or_install}for a verdict here send the body uncoded, and "
                         "{change}{c.unless_gzip}"),
    "seen/body-toobig": ("the body is longer than the 1,048,576 bytes that are read here", "nothing: a page reads on"),
}

TABLE = DIRECT + CORS_CHECK + PREFLIGHTS + BEFORE_SENDING + ANSWERS + LINKS + REQUESTS + SEEN


# Parts of conditions that are there for some fetches alone, and an answer that stands for that to a preflight too.
SOMETIMES = re.compile(r"\{c\.(?:where|back_where|next_differs|no_cookie|but_known|why_scheme|but_gzip|but_length|"
                       r"as_measured|as_decoded|as_cut|as_refused|though_read)\}")


def way_lines() -> Iterator[str]:
    """Each way in a line: its name, its results, and its condition, in which words in capitals stand for what is told
    of the fetch."""
    for way in TABLE:
        text = SOMETIMES.sub("", way.condition).replace("{c.the_answer}", "the answer")
        condition = re.sub(r"\{c\.(?:\w+[.\[])*(\w+)\]?\}",
                           lambda found: found.group(1).replace("_", " ").upper(), text)
        yield f"{way.name} ({way.results}): {condition}"


# Here nothing was sent to the server: what CORS will want of it is said at once.
UNSENT = [way for way in TABLE if way.results in ("3", "4") or way.name in ("head/no-server", "same-origin/other")]


class Explanation:
    """A way that holds of a case, with its texts filled in. `edits` are the change as data (edits.py), and `others`
    what would do in its place, which `change` says too, and `first_change` does not. `of_headers` says those of them
    that change headers alone, where the first changes more and no line `in all` has them."""

    def __init__(self, way: Way, c: Case) -> None:
        condition, change, rule = way.condition, way.change, way.rule
        if c.is_direct:
            condition, change = ASKED.get(way.name, (condition, change))
            rule = "../why.md#binask" if rule == "../why.md#your-own-server" else rule
        found = [one for one in way.changes(c) if one]
        is_of_cors = key_of(c.result) in (*PREFLIGHTED, "12") and c.about is None and way not in DIRECT
        is_asked = is_of_cors and key_of(c.result) != "12" and c.origin != "null"
        self.way = way.name
        self.condition = condition.format(c=c)
        if c.verdict == "refused":  # by a policy, whatever this engine loads
            self.condition = self.condition.removeprefix("no verdict: ")
        asked = "" if is_of_cors and c.is_of_chain else c.preflighted_url
        told = edits.sentence(found, asked)
        change = change if told else change.replace("{change}; or ", "")
        self.change = change.format(c=c, change=told or NOTHING)
        self.first_change = change.format(c=c, change=edits.sentence(found[:1], asked) or NOTHING)
        self.edits = found[0] if found else []
        self.others = found[1:]
        self.rule = "docs/rules/" + rule if not rule.startswith("../") else "docs/" + rule[3:]
        self.header = way.header.format(c=c)
        self.value = c.get(self.header) if self.header else None
        self.misspelt = misspelt(c, self.header) if self.header and self.value is None else None
        if is_asked and self.header and self.value is None and c.own_head and c.own_head.get(self.header) is not None:
            absent = "has no " + self.header
            self.condition = self.condition.replace(absent, f"{absent} (that to {c.method} has it)")
        self.needs = c.needs_told.by_method() if is_asked else {}
        self.chain: list[Object] = []
        self.exposing: list[Edit] = []
        self.in_all: list[str] = []
        if is_of_cors:
            self.tell_chain(c, is_asked)
        elif way in UNSENT and c.about is None:
            self.in_all = c.lacking_behind
        of_headers = [] if edits.is_of_headers(self.edits) else list(filter(edits.is_of_headers, self.others))
        self.of_headers = [edits.phrase(one, asked) for one in of_headers if not edits.are_said(one, self.in_all)]

    def tell_chain(self, c: Case, is_asked: bool) -> None:
        """What CORS wants of each answer, up to the last of the chain."""
        own, is_led_back = chains.in_place_of_null(c), c.origin == "null" and changes.leads_back(c)
        ahead = chains.NOTHING if self.way == "redirect/cycle" or is_led_back else chains.ahead(c)
        last = ahead.needs[-1] if ahead.needs and not chains.is_guessed(c) else own
        self.exposing = changes.expose_too(c, last)
        is_of_null = own.origin == "*" and not is_led_back
        if is_asked or is_of_null and is_preflight(c.request):
            self.in_all, self.chain = own.lines(), own.by_answer()
        elif is_of_null or own.origin != "null" and any(ahead):
            self.in_all, self.chain = [own.own_line()], own.by_answer()[-1:]
        self.in_all += chains.lines(c, ahead)
        self.in_all += [let_pass(c.of_violation(one)) for one in ahead.violations]
        self.chain += [one for needs in ahead.needs for one in needs.by_answer()]
        self.in_all += [exposed(edit, last.own is None) for edit in self.exposing]
        self.change += "".join(exposed_too(edit, c, last) for edit in self.exposing)
        self.change += own.marks() if is_asked else ""

    def reasons(self) -> list[str]:
        """As it stands between the lines of a play, without what to change."""
        lines = ["why: " + self.condition]
        if self.header:
            value = "is not there" if self.value is None else ": " + self.value
            value += f"; is `{self.misspelt}` meant for it?" if self.misspelt else ""
            lines.append(f"header: {self.header}{value if value.startswith(':') else ' ' + value}")
        return lines + [f"rule: {self.rule} ({self.way})"]

    def lines(self) -> list[str]:
        """The same, with it."""
        *reasons, rule = self.reasons()
        return [*reasons, "change: " + self.change, *("in all: " + line for line in self.in_all), rule]

    def data(self) -> Object:
        return {name: value for name, value in self.__dict__.items() if name not in ("first_change", "of_headers")}


class PolicyExplanation(Explanation):
    """The same of one violated policy."""

    def __init__(self, way: Way, c: Case) -> None:
        super().__init__(way, c)
        self.policy = c.violated.policy
        self.enforced = c.violated.enforced
        self.directive = c.violated.directive
        self.url = c.violated.url

    def reasons(self) -> list[str]:
        return ["policy: " + self.condition]

    def lines(self) -> list[str]:
        return [*self.reasons(), "change: " + self.change]


# where no change is to be made
NOTHING = "nothing is to be changed"


def exposed(edit: Edit, is_unknown: bool) -> str:
    return (f"where the script is to see these headers too, the answer to {edit['method']} at {edit['url']} needs "
            f"{edits.told(edit)}{edits.UNSEEN if is_unknown else ''}")


def exposed_too(edit: Edit, c: Case, needs: Needs) -> str:
    """The same behind a change. It does not ask about headers that the script reads."""
    names = {name.lower() for name in c.unexposed_names(needs.own)}
    read = [name for name in dict.fromkeys(c.read_names) if name.lower() in names]
    why = f"since the script reads {edits.listed(read)}" if read else "where the script is to see these headers"
    return f"; and {why}, {edits.told(edit)}{edits.answer_named([edit], '' if c.is_of_chain else c.asked_url)}"


def let_pass(about: Case) -> str:
    """What a policy has to say, so that the target of a redirect passes it."""
    change = policy_explanation(about).first_change
    return f"{about.policy} does not let {about.policy_url} pass, where the redirect leads: {change}"


def misspelt(c: Case, wanted: Any) -> str | None:
    """The name in the answer that comes near to a CORS header that is not there, or None."""
    right = {"access-control-" + one for one in ("allow-origin", "allow-credentials", "allow-methods", "allow-headers",
                                                 "expose-headers", "max-age")}
    names = {name.lower(): name for name, _ in (c.head.headers if c.head else [])}
    if wanted.lower() not in right:
        return None
    near = difflib.get_close_matches(wanted.lower(), sorted(set(names) - right), 1, 0.85)
    return names[near[0]] if near else None


def key_of(result: Result) -> str:
    if not result.is_refused():
        return "s"
    return f"f{result.number}" if result.is_fault else str(result.number)


def way_of(case: Case, key: str) -> Way | None:
    return next((way for way in TABLE if key in way.results.split() and way.holds(case)), None)


def explain(case: Case) -> Explanation | None:
    """The explanation of a case; None where nothing is to be said of it."""
    way = way_of(case, key_of(case.result))
    return None if way is None else Explanation(way, case)


def lines_of(case: Case, with_reports: bool = False, with_all: bool = True) -> list[str]:
    """What is said of one that is refused: why, and what to change in each policy that refuses it, or reports it.
    Without all it is said of the policies alone."""
    told = [policy for policy in case.policies_told if policy.enforced or with_reports]
    is_of_policy = case.explanation is not None and case.explanation.way.startswith("policy/")
    own = case.explanation.lines() if case.explanation and (with_all or is_of_policy) else []
    return own + [line for policy in told for line in policy.lines()]


def explain_policies(case: Case) -> list[PolicyExplanation]:
    """What to change in each violated policy, except the one that the explanation is about."""
    way = case.explanation.way if case.explanation else ""
    own = [case.violated] if way.startswith("policy/") else []
    found = []
    for violation in case.violations:
        if violation not in own:
            found.append(policy_explanation(case.of_violation(violation)))
    return found


def policy_explanation(about: Case) -> PolicyExplanation:
    """That of the violation that a case is about."""
    return PolicyExplanation(there(way_of(about, "19" if is_of_port(about) else "4")), about)


def is_of_port(case: Case) -> bool:
    """Whether a policy is violated by a response, since its word has port 80."""
    return case.violated.at_response and csp.passes(changes.portless(case.directive[1]), case.policy_asked)
