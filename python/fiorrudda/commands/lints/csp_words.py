"""Lints of the words of a policy's directives."""
from __future__ import annotations

import re
from typing import TYPE_CHECKING
from urllib.parse import unquote, urlsplit

from fiorrudda.commands import csp
from fiorrudda.commands.lints import grammar
from fiorrudda.commands.lints.entry import DOCUMENT, Lint, nearest, write
from fiorrudda.commands.lints.policies import SCHEME_ALONE
from fiorrudda.commands.lints.reading import is_address, is_loopback
from fiorrudda.commands.scenario import origin_of
from fiorrudda.commands.there import there

if TYPE_CHECKING:
    from fiorrudda.commands.lints.policies import Directive, Word
    from fiorrudda.commands.shapes import Found

QUOTES = "\"`"


def is_proof_text(text: str) -> bool:
    return re.fullmatch(r"(?:nonce|sha256|sha384|sha512)-[A-Za-z0-9+/_=-]+", text, re.I) is not None


# ---- words of any directive

def missing_semicolon(word: Word) -> bool:
    return word.is_directive and not word.source


def name_behind_source(word: Word) -> Found:
    return word.is_directive and word.source or None


def unknown_sandbox(word: Word) -> Found:
    return word.directive.name == "sandbox" and not_one_of(word, grammar.SANDBOX)


def not_one_of(word: Word, known: tuple[str, ...]) -> str | bool:
    return word.lower not in known and not word.is_directive and write(nearest(word.text.strip("'"), known))


def unknown_sink(word: Word) -> bool:
    return word.directive.name == "require-trusted-types-for" and word.text != "'script'" and not word.is_directive


def unknown_trusted(word: Word) -> Found:
    """A keyword of trusted-types that is none, or one without quotes."""
    if word.directive.name != "trusted-types":
        return None
    if word.inner is not None:
        return word.inner not in grammar.TRUSTED and write(quoted(nearest(word.inner, grammar.TRUSTED)))
    return word.text in grammar.TRUSTED and write(quoted(word.text))


def unknown_webrtc(word: Word) -> bool:
    return word.directive.name == "webrtc" and word.text not in ("'allow'", "'block'") and not word.is_directive


def quoted(word: str | None) -> str | None:
    return word and f"'{word}'"


def insecure_report(word: Word) -> Found:
    if word.directive.name != "report-uri" or not word.lower.startswith("http://"):
        return None
    return word.policy.headers.scheme == "https" and not is_loopback(word.place) and "https" + word.text[4:]


def source_as_endpoint(word: Word) -> Found:
    """Another origin without a path that the page asks, behind an endpoint. Reports go to each of them."""
    if word.directive.name != "report-uri" or word.text == word.directive.rest[0]:
        return None
    origin = word.host and word.host.group("path") in (None, "", "/") and origin_of(word.text)
    return bool(origin) and any(ask.is_foreign and ask.origin == origin for ask in word.policy.headers.asks)


WORDS = [
    Lint("csp/semicolon-missing", "a word", missing_semicolon,
         "`{it.text}` stands as a word of `{it.directive.name}`, and is the name of a directive",
         "put a semicolon before `{it.text}`"),
    Lint("csp/name-behind-source", "a word", name_behind_source,
         "in `{it.written}` the name of a directive stands right behind `{meant}`",
         "put a semicolon behind `{meant}`"),
    Lint("csp/sandbox-word", "a word", unknown_sandbox, "`{it.text}` is no word of `sandbox`", "{meant}"),
    Lint("csp/trusted-sink", "a word", unknown_sink, "`{it.text}` is no word of `require-trusted-types-for`",
         "write `'script'`"),
    Lint("csp/trusted-word", "a word", unknown_trusted, "`{it.text}` is no keyword of `trusted-types`", "{meant}"),
    Lint("csp/webrtc-word", "a word", unknown_webrtc, "`{it.text}` is no word of `webrtc`",
         "write `'allow'` or `'block'`"),
    Lint("csp/report-over-http", "a word", insecure_report,
         "a page over https sends no report to `{it.text}`, which is mixed content", "write `{meant}`"),
    Lint("csp/source-as-endpoint", "a word", source_as_endpoint,
         "`{it.text}` stands in `report-uri`, so it is sent each report, and the page asks it for other things",
         "write it in the directive whose source it is; or add the path of its endpoint", (DOCUMENT,)),
]


# ---- quotes

def bare_keyword(word: Word) -> Found:
    return grammar.MEANT.get(word.lower) or word.lower in grammar.KEYWORDS and quoted(word.lower)


def bare_nonce(word: Word) -> Found:
    return word.lower.startswith("nonce-") and is_proof_text(word.text) and quoted(word.text)


def bare_hash(word: Word) -> Found:
    return word.lower.startswith("sha") and is_proof_text(word.text) and quoted(word.text)


def other_quotes(word: Word) -> Found:
    inner = word.text.strip(QUOTES + "'")
    if word.policy.is_pasted or not inner or not (word.text[0] in QUOTES or word.text[-1] in QUOTES):
        return None
    return quoted(inner) if inner.lower() in grammar.KEYWORDS or is_proof_text(inner) else inner


def half_quoted(word: Word) -> Found:
    inner = word.text.strip("'")
    is_known = inner.lower() in grammar.KEYWORDS or is_proof_text(inner)
    if word.text.count("'") != 1 or not (word.text[0] == "'" or (word.text[-1] == "'" and is_known)):
        return None
    meant = quoted(inner) if is_known else inner if "." in inner else None
    return write(meant, "write both quotes, and no blank between them")


def quoted_with_more(word: Word) -> Found:
    found = re.match(r"('[^']+')(.+)", word.text)
    return found and found.group(1)


def unknown_keyword(word: Word) -> Found:
    inner = word.inner
    if inner is None or inner in ("*", "localhost") or re.search(r"[.:]", inner):
        return None
    if inner.lower() in (*grammar.KEYWORDS, "unsafe-allow-redirects") or is_like_proof(inner):
        return None
    return write(grammar.MEANT.get(inner.lower()) or quoted(nearest(inner, grammar.KEYWORDS)))


def is_like_proof(inner: str) -> bool:
    """Whether a nonce or a hash is meant."""
    return any(form.fullmatch(inner) for form in (grammar.NONCE, grammar.HASH, grammar.HASH_LIKE))


def quoted_host(word: Word) -> Found:
    inner = word.inner
    if not inner or is_like_proof(inner):
        return None
    return (inner in ("*", "localhost") or re.search(r"[.:]", inner) is not None) and inner


def redirects_keyword(word: Word) -> bool:
    return word.lower == "'unsafe-allow-redirects'"


def bare_scheme(word: Word) -> Found:
    is_scheme = word.lower in ("http", "https", "ws", "wss", "data", "blob", "filesystem", "mediastream")
    return is_scheme and word.lower + ":"


QUOTING = [
    Lint("csp/keyword-unquoted", "a source", bare_keyword, "`{it.text}` without quotes is a host's name",
         "write `{meant}`"),
    Lint("csp/nonce-unquoted", "a source", bare_nonce, "`{it.text}` without quotes is a host's name, and no nonce",
         "write `{meant}`"),
    Lint("csp/hash-unquoted", "a source", bare_hash, "`{it.text}` without quotes is no hash", "write `{meant}`"),
    Lint("csp/other-quotes", "a source", other_quotes, "`{it.text}` is in quotes that mean nothing in a policy",
         "write `{meant}`"),
    Lint("csp/quote-missing", "a source", half_quoted, "`{it.text}` has a quote on one side alone", "{meant}"),
    Lint("csp/quoted-with-more", "a source", quoted_with_more, "`{it.text}` goes on behind its quotes, and is no word",
         "put a blank behind `{meant}`; or write it alone"),
    Lint("csp/unknown-keyword", "a source", unknown_keyword, "`{it.text}` is no keyword, and matches nothing",
         "{meant}"),
    Lint("csp/host-quoted", "a source", quoted_host, "`{it.text}` matches nothing: hosts and schemes have no quotes",
         "write `{meant}`"),
    Lint("csp/unsafe-allow-redirects", "a source", redirects_keyword,
         "`{it.text}` goes with `navigate-to`, which is not in the standard any more", "take it out"),
    Lint("csp/scheme-without-colon", "a source", bare_scheme, "`{it.text}` without a colon is a host's name",
         "write `{meant}`"),
]


# ---- nonces and hashes

def bad_nonce(word: Word) -> bool:
    found = grammar.NONCE.fullmatch(word.inner or "")
    return found is not None and grammar.BASE64.fullmatch(found.group(1)) is None


def hash_in_hex(word: Word) -> bool:
    found = grammar.HASH.fullmatch(word.inner or "")
    return found is not None and grammar.is_hex(*found.groups())


def bad_hash(word: Word) -> Found:
    found = grammar.HASH.fullmatch(word.inner or "")
    if found is None or grammar.is_digest(*found.groups()) or grammar.is_hex(*found.groups()):
        return None
    return found.group(1).lower()


def other_algorithm(word: Word) -> Found:
    found = grammar.HASH_LIKE.fullmatch(word.inner or "")
    if found is None or (found.group(1).lower() in grammar.DIGESTS and found.group(2) == "-"):
        return None
    meant = re.sub("[-_/]", "", found.group(1).lower())
    return meant if meant in grammar.DIGESTS else "sha256"


def proof_elsewhere(word: Word) -> bool:
    return word.is_proof and word.directive.name not in grammar.OF_CODE


def code_elsewhere(word: Word) -> bool:
    return word.inner is not None and word.directive.name not in grammar.OF_CODE and word.inner.lower() in grammar.CODE


def dynamic_elsewhere(word: Word) -> bool:
    places = (*grammar.SCRIPTS, "script-src-attr", "worker-src")
    return word.lower == "'strict-dynamic'" and word.directive.name not in places


PROOFS = [
    Lint("csp/nonce-characters", "a source", bad_nonce,
         "`{it.text}` matches nothing: a nonce is letters, digits, `+` and `/`, as base64 has them",
         "write such a value, new in each answer"),
    Lint("csp/hash-hex", "a source", hash_in_hex, "`{it.text}` is in hexadecimal digits, and matches nothing",
         "write the digest in base64"),
    Lint("csp/hash-length", "a source", bad_hash, "`{it.text}` is no digest of {meant} in base64, and matches nothing",
         "make it anew, and write all of it, its `=` too"),
    Lint("csp/hash-algorithm", "a source", other_algorithm,
         "`{it.text}` is of no algorithm that a policy knows, and matches nothing",
         "write `'{meant}-..'`, with a digest of that"),
    Lint("csp/nonce-elsewhere", "a source", proof_elsewhere,
         "a nonce or a hash counts for scripts and styles alone, and means nothing in `{it.directive.name}`",
         "take `{it.text}` out"),
    Lint("csp/unsafe-elsewhere", "a source", code_elsewhere,
         "`{it.text}` is of scripts and styles, and means nothing in `{it.directive.name}`", "take it out"),
    Lint("csp/strict-dynamic-elsewhere", "a source", dynamic_elsewhere,
         "`'strict-dynamic'` is of scripts, and means nothing in `{it.directive.name}`", "take it out"),
]


# ---- hosts, schemes and paths

def is_url(word: Word) -> bool:
    return not word.text.startswith("'") and not word.is_directive


def insecure_source(word: Word) -> Found:
    """What a page over https never loads so, as it is written and as it should be."""
    found = re.match(r"(http|ws):", word.lower)
    if not found or word.policy.headers.scheme != "https" or word.directive.name not in grammar.FETCH:
        return None
    if "strict-dynamic" in word.directive.inner or is_loopback(word.place):
        return None
    if word.policy.is_report_only:  # it is asked before an image becomes https
        return None
    return re.sub(r":80(?=/|$)", "", found.group(1) + "s" + word.text[len(found.group(1)):])


def with_query(word: Word) -> Found:
    found = re.match(r"([^?#]+)[?#]", word.text)
    return is_url(word) and found is not None and grammar.HOST.fullmatch(found.group(1)) is not None and found.group(1)


def wildcard_inside(word: Word) -> Found:
    is_inside = is_url(word) and "*" in re.sub(r"^\*(\.|$)", "", word.place)
    return is_inside and write(with_star_in_front(word.text), "write `*.` and the domain")


def with_star_in_front(text: str) -> str | None:
    """`*.` and the domain behind the label that has the star, where that is no top level; else behind the star
    itself."""
    behind_label, behind_star = (re.fullmatch(r"(.*://)?" + form + r"([^/:*]+\.[^/:*]+)([:/].*)?", text)
                                 for form in (r"[^/:]*\*[^./:]*\.", r"\*"))
    found = behind_label or behind_star
    return f"{found.group(1) or ''}*.{found.group(2)}{found.group(3) or ''}" if found else None


def wildcard_scheme(word: Word) -> Found:
    found = re.match(r"\*:/*(.*)", word.text)
    is_port = re.fullmatch(r"\*:(\d+|\*)(/.*)?", word.text) is not None
    return found is not None and not is_port and "https://" + (found.group(1) or "*")


def wildcard_path(word: Word) -> Found:
    path = word.host and word.host.group("path")
    if not path or "*" not in path:
        return None
    return word.text[:word.text.index("*", there(word.host).start("path"))].rpartition("/")[0] + "/"


def folder(word: Word) -> str | None:
    """A path whose slash is missing: the page loads what stands below it."""
    path = word.host and word.host.group("path")
    if not path or path.endswith("/") or word.text + "/" in word.directive.rest:
        return None
    return next((url for url in word.asks() if unquote(urlsplit(url).path).startswith(unquote(path) + "/")), None)


def file_path(word: Word) -> str | None:
    """The path of a word, where it matches that alone, as the URL of a file has one; or None."""
    path: str | None = word.host.group("path") if word.host else None
    is_one = path and not path.endswith("/") and "*" not in path and grammar.PATH.fullmatch(path)
    return path if is_one and word.text + "/" not in word.directive.rest else None


def dead_path(word: Word) -> Found:
    """What the page asks of this host, where none of it has this path, and no word lets it pass."""
    path, urls = file_path(word), word.asks()
    if path is None or folder(word) or any(is_at(url, path) for url in urls):
        return None
    page = word.policy.headers.url
    asked = [csp.Asked(url, page, "fetch", "", "", True, False) for url in urls]
    return next((one.url for one in asked if not csp.passes(word.directive.rest, one)), None)


def lone_path(word: Word) -> bool:
    """A word without a scheme, as a host is written, whose path no load of the page has."""
    path = file_path(word)
    is_bare = path is not None and there(word.host).group("scheme") is None and "." not in path.rpartition("/")[2]
    is_asked = any(is_at(url, path or "") for url in word.asks())
    return is_bare and not folder(word) and not dead_path(word) and not is_asked


def is_at(url: str, path: str) -> bool:
    return unquote(urlsplit(url).path) == unquote(path)


def scheme_alone(word: Word) -> Found:
    found = SCHEME_ALONE.fullmatch(word.text)
    return found and word.start not in word.directive.split_urls and found.group(1)


def star_behind_scheme(word: Word) -> Found:
    found = re.fullmatch(r"((?:data|blob|filesystem):)\*", word.text, re.I)
    return found and found.group(1)


def one_slash(word: Word) -> Found:
    found = re.fullmatch(r"(https?|wss?):/?([^/].*)", word.text, re.I)
    return found and f"{found.group(1)}://{found.group(2)}"


def other_address(word: Word) -> bool:
    return is_url(word) and is_address(word.place) and word.place != "127.0.0.1"


def loopback_address(word: Word) -> bool:
    return is_url(word) and word.place == "127.0.0.1"


def local_without_scheme(word: Word) -> Found:
    """`localhost`, where a page over https asks for its http URL."""
    found = re.fullmatch(r"localhost(:\d+)?(/.*)?", word.lower)
    if not found or word.policy.headers.scheme != "https":
        return None
    origin = "http://localhost" + (found.group(1) or "")
    return any(origin_of(url) == origin for url in word.asks()) and "http://" + word.text


def more_behind_scheme(word: Word) -> Found:
    """A scheme that has no host. It is no good for scripts."""
    found = re.fullmatch(r"((?:data|blob|filesystem|mediastream):)/*[^/].*", word.text, re.I)
    if not found or word.host is not None:
        return None
    return write("" if found.group(1).lower() == "data:" and opens_scripts(word.directive) else found.group(1))


def data_scripts(word: Word) -> bool:
    return word.lower == "data:" and opens_scripts(word.directive)


def opens_scripts(directive: Directive) -> bool:
    """Whether a word counts for scripts, and those that stand in the page are not let through anyhow."""
    is_open = "unsafe-inline" in directive.inner and not directive.has_proof
    if "strict-dynamic" in directive.inner or is_open:
        return False
    return directive.name in grammar.SCRIPTS and directive.policy.decides("script-src-elem") == directive.name


def ancestor_path(word: Word) -> Found:
    path = word.host and word.host.group("path")
    is_deep = word.directive.name == "frame-ancestors" and path not in (None, "", "/")
    return is_deep and word.text[:there(word.host).start("path")]


def is_again(word: Word) -> bool:
    return word.is_again


def no_word(word: Word) -> Found:
    """What the grammar has no word for."""
    if word.is_directive or word.inner is not None or word.policy.is_pasted or grammar.SCHEME.fullmatch(word.text):
        return None
    path = word.host and word.host.group("path")
    if word.text in ("=", ":") and word.text == word.directive.rest[0]:  # csp/sign-alone tells it
        return None
    if word.start in word.directive.split_urls:  # csp/blank-in-url tells it
        return None
    is_none = word.host is None or bool(path and not grammar.PATH.fullmatch(path))
    return is_none and write(meant_source(word), ANY_SOURCE)


ANY_SOURCE = "write a host, such as `https://cdn.example`, a scheme or a keyword"


def meant_source(word: Word) -> str | None:
    """What is surely meant by what is no word: a scheme without its colon, a URL with a user name, a path, a keyword
    in other signs."""
    page, text = word.policy.headers.origin or "", word.text
    inner = re.sub(r"%27|&#39;?|&quot;?|[()\[\]{}<>]", "", text)
    if inner.lower() in grammar.KEYWORDS:
        return quoted(inner.lower())
    for form, meant in ((r"(https?|wss?)//+(.+)", r"\1://\2"), (r"//(.+)", rf"{word.policy.headers.scheme}://\1"),
                        (r"([a-z]+://)[^/@]*@(.+)", r"\1\2"), (r"\.?(/.*)", page + r"\1")):
        found = re.fullmatch(form, text, re.I)
        if found and grammar.HOST.fullmatch(found.expand(meant)):
            return found.expand(meant)
    return None


URLS = [
    Lint("csp/http-on-https", "a source", insecure_source,
         "a page over https loads nothing over http, which is mixed content, and `{it.text}` says so",
         "write `{meant}`"),
    Lint("csp/query-or-fragment", "a source", with_query,
         "`{it.text}` is no word of the grammar: a source has no query and no fragment", "write `{meant}`"),
    Lint("csp/wildcard-inside", "a source", wildcard_inside,
         "`{it.text}` matches nothing: `*` stands for all labels before a host's first dot, and nowhere else",
         "{meant}, or each host"),
    Lint("csp/wildcard-scheme", "a source", wildcard_scheme, "`{it.text}` matches nothing: no `*` stands for a scheme",
         "write `{meant}`, or the host without a scheme"),
    Lint("csp/wildcard-path", "a source", wildcard_path, "`*` in the path of `{it.text}` stands for itself",
         "write `{meant}`, which has all that is below it"),
    Lint("csp/folder-without-slash", "a source", folder,
         "`{it.text}` is this path alone, and the page asks for {meant}", "write `{it.text}/`"),
    Lint("csp/dead-path", "a source", dead_path,
         "`{it.text}` is this path alone, and the page asks for {meant}, which no word lets pass",
         "write `{it.text}/` for what is below a folder, or the path that is meant"),
    Lint("csp/scheme-alone", "a source", scheme_alone, "`{it.text}` has no host, and matches nothing",
         "write `{meant}`"),
    Lint("csp/star-behind-scheme", "a source", star_behind_scheme, "`{it.text}` is a host with any port",
         "write `{meant}`"),
    Lint("csp/more-behind-scheme", "a source", more_behind_scheme,
         "`{it.text}` matches nothing: such a scheme stands alone, with its colon", "{meant}"),
    Lint("csp/one-slash", "a source", one_slash, "`{it.text}` is no word: two slashes stand behind the scheme",
         "write `{meant}`"),
    Lint("csp/address", "a source", other_address,
         "by CSP 3 no IP address matches but `127.0.0.1`, and this engine matches none",
         "write a domain for {it.place}"),
    Lint("csp/loopback-address", "a source", loopback_address,
         "browsers match `127.0.0.1`, as CSP 3 has it, and this engine matches no IP address",
         "write `localhost`, and ask for that", (DOCUMENT,), is_note=True),
    Lint("csp/localhost-without-scheme", "a source", local_without_scheme,
         "`{it.text}` has the page's scheme, https, and the page asks for it over http", "write `{meant}`"),
    Lint("csp/data-in-scripts", "a source", data_scripts,
         "`data:` lets whoever can write into the page run any script by its URL",
         "take it out; of `default-src` by a `script-src` without it"),
    Lint("csp/ancestor-path", "a source", ancestor_path,
         "of an ancestor the origin alone is looked at, so `{it.text}` with its path matches none", "write `{meant}`"),
    Lint("csp/source-twice", "a source", is_again, "`{it.text}` stands twice in `{it.directive.name}`", "take one out"),
    Lint("csp/no-word", "a source", no_word, "by the grammar of CSP 3 `{it.text}` is no word, and matches nothing",
         "{meant}", is_last=True),
]

NOTES = [
    Lint("csp/lone-path", "a source", lone_path, "`{it.text}` is this path alone, and has nothing that is below it",
         "write `{it.text}/` for a folder; a file needs no change", is_note=True),
]

TABLE = WORDS + QUOTING + PROOFS + URLS + NOTES
