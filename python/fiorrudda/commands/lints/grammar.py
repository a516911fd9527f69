"""The words that a policy may have: those of the grammar of CSP 3 and of the standards that add to it (HTML's sandbox,
Trusted Types, Mixed Content, WebRTC, fenced frames, Speculation Rules), and those that were taken out of them."""
from __future__ import annotations

import re

FETCH = ("child-src", "connect-src", "default-src", "fenced-frame-src", "font-src", "frame-src", "img-src",
         "manifest-src", "media-src", "object-src", "script-src", "script-src-attr", "script-src-elem", "style-src",
         "style-src-attr", "style-src-elem", "worker-src")
SOURCES = FETCH + ("base-uri", "form-action", "frame-ancestors")
OTHERS = ("report-to", "report-uri", "require-trusted-types-for", "sandbox", "trusted-types",
          "upgrade-insecure-requests", "webrtc")
# Directives that were taken out of the standards, and what to write in their place.
OBSOLETE = {
    "block-all-mixed-content": "take it out: browsers block or upgrade all mixed content without it",
    "disown-opener": "send the header `Cross-Origin-Opener-Policy: same-origin`",
    "navigate-to": "write `form-action` for forms, and take it out",
    "plugin-types": "write `object-src 'none'`",
    "prefetch-src": "write `default-src`, which prefetches fall back to, and take it out",
    "referrer": "send the header Referrer-Policy",
    "reflected-xss": "take it out, and keep injected scripts away by `script-src`",
    "require-sri-for": "send the header Integrity-Policy",
}
# Names that only miss what stands behind them, and are too short to come near to one by their letters.
SHORT = {"font": "font-src", "img": "img-src", "image": "img-src", "images": "img-src"}
DIRECTIVES = SOURCES + OTHERS + tuple(OBSOLETE)
WITH_SIGN = re.compile(r"([a-z-]+)[:=]+(.*)", re.I)  # a directive's name with a sign behind it
NO_WORDS = ("block-all-mixed-content", "upgrade-insecure-requests")

# Keywords without their quotes. 'none' is no source, and stands alone.
CODE = ("inline-speculation-rules", "report-sample", "trusted-types-eval", "unsafe-eval", "unsafe-hashes",
        "unsafe-inline", "wasm-unsafe-eval")
REPORTS = ("report-sample", "report-sha256", "report-sha384", "report-sha512")
KEYWORDS = CODE + REPORTS[1:] + ("none", "self", "strict-dynamic")
# What people write for sources that have another name.
MEANT = {"all": "*", "any": "*", "eval": "'unsafe-eval'", "inline": "'unsafe-inline'",
         "unsafe-wasm-eval": "'wasm-unsafe-eval'", "wasm-eval": "'wasm-unsafe-eval'"}
TRUSTED = ("allow-duplicates", "none")
SANDBOX = ("allow-downloads", "allow-forms", "allow-modals", "allow-orientation-lock", "allow-pointer-lock",
           "allow-popups", "allow-popups-to-escape-sandbox", "allow-presentation", "allow-same-origin", "allow-scripts",
           "allow-storage-access-by-user-activation", "allow-top-navigation",
           "allow-top-navigation-by-user-activation", "allow-top-navigation-to-custom-protocols")

SCRIPTS = ("script-src", "script-src-elem", "default-src")
# Directives of scripts and styles: a nonce, a hash and the keywords of code count there alone.
OF_CODE = ("default-src", "script-src", "script-src-attr", "script-src-elem", "style-src", "style-src-attr",
           "style-src-elem", "worker-src")

DIGESTS = {"sha256": 32, "sha384": 48, "sha512": 64}  # bytes
BASE64 = re.compile(r"[A-Za-z0-9+/_-]+={0,2}")
NONCE = re.compile(r"nonce-(.*)", re.I)
HASH = re.compile(r"(sha256|sha384|sha512)-(.*)", re.I)
# What is meant for a hash, with any algorithm and any sign behind it.
HASH_LIKE = re.compile(r"(md5|sha[0-9/_-]*?)([-:=])([A-Za-z0-9+/_=-]{8,})", re.I)
SCHEME = re.compile(r"[A-Za-z][A-Za-z0-9+.-]*:")
HOST = re.compile(r"(?:(?P<scheme>[A-Za-z][A-Za-z0-9+.-]*)://)?"
                  r"(?P<host>\*|(?:\*\.)?[A-Za-z0-9-]+(?:\.[A-Za-z0-9-]+)*\.?)"
                  r"(?::(?P<port>[0-9]+|\*))?(?P<path>/.*)?")
SIGNS, ESCAPE = "A-Za-z0-9._~!$&'()*+=:@", "%[0-9A-Fa-f]{2}"
PATH = re.compile(f"/(?:(?:[{SIGNS}-]|{ESCAPE})(?:[{SIGNS}/-]|{ESCAPE})*)?")

# Names of directives that no other word has; one of them at the end of a word; and hosts that end where one may: in a
# top level, or that of this machine.
NAMES = tuple(name for name in DIRECTIVES if "-" in name)
NAME_AT_END = re.compile(f"(.+?)({'|'.join(NAMES)})", re.I)
WHOLE_HOST = re.compile(r"\*|localhost|\d+(?:\.\d+){3}|.*\.(?:[a-z]{2,}|xn--[a-z0-9-]+)", re.I)
# Sources that are no hosts: in quotes, schemes; and words of directives that take no sources.
WHOLE_SOURCE = re.compile(rf"'[^']+'|\*|[a-z][a-z0-9+-]*:|{'|'.join(SANDBOX + NO_WORDS)}", re.I)


def before_name(word: str) -> str:
    """What stands in a word before the name of a directive, where both are surely meant and a semicolon is missing; an
    empty text where the word may be meant as it is."""
    found = NAME_AT_END.fullmatch(word) if word.lower().endswith(NAMES) else None
    return found.group(1) if found and is_whole(found.group(1)) else ""


def is_whole(source: str) -> bool:
    """Whether a source may end there, and none that goes on with the name of a directive is likely: no top level, no
    port and no extension of a file ends so."""
    if WHOLE_SOURCE.fullmatch(source):
        return True
    host = HOST.fullmatch(source)
    if host is None:
        return False
    if host.group("path"):
        return re.search(r"/[^/]*[A-Za-z0-9]\.[A-Za-z0-9]{1,5}$", source) is not None
    return bool(host.group("port")) or WHOLE_HOST.fullmatch(host.group("host")) is not None


def is_digest(algorithm: str, value: str) -> bool:
    """Whether a text may be the digest of an algorithm in base64."""
    size = DIGESTS[algorithm.lower()]
    letters = value.rstrip("=")
    lengths = len(letters), len(value) - len(letters)
    return BASE64.fullmatch(value) is not None and lengths == ((size * 8 + 5) // 6, -size % 3)


def is_hex(algorithm: str, value: str) -> bool:
    """Whether a text is the digest of an algorithm in hexadecimal digits."""
    return len(value) == 2 * DIGESTS[algorithm.lower()] and re.fullmatch(r"[0-9a-fA-F]+", value) is not None
