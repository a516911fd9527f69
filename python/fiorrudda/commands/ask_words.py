"""The words of bin/ask: its own, and those of curl, so that what a browser copies as cURL is taken as it is."""
from __future__ import annotations

import argparse
import functools
import re
from urllib.parse import quote

from fiorrudda import names
from fiorrudda.commands import forms, stray_words, streams

KINDS = list(names.LOADS)
POLICIES = sorted(name for name in names.REFERRER_POLICIES if name)
# Words of curl that change nothing: redirects are followed, and what they print is printed, or is decoded, anyhow.
WITHOUT_EFFECT = [("-i", "--include"), ("-s", "--silent"), ("-S", "--show-error"), ("-v", "--verbose"),
                  ("-L", "--location"), ("-g", "--globoff"), ("-f", "--fail"), ("-N", "--no-buffer"),
                  ("-O", "--remote-name"), ("-#", "--progress-bar"), ("--basic",),
                  ("--fail-with-body",), ("--http1.0",), ("--http1.1",), ("--http2",), ("--http2-prior-knowledge",),
                  ("--http3",), ("--no-progress-meter",), ("--path-as-is",), ("--tlsv1.2",), ("--tlsv1.3",)]
# The same, with a value.
VALUES_WITHOUT_EFFECT = [("-o", "--output"), ("-w", "--write-out"), ("-c", "--cookie-jar"), ("-D", "--dump-header"),
                         ("--connect-timeout",), ("--retry",)]
BODIES = [
    (("-d", "--data", "--data-ascii"), "data", "TEXT|@FILE",
     "the request's body, or its file; @- is standard input; several are joined by &"),
    (("--data-binary",), "data", "TEXT|@FILE", "the same"),
    (("--data-raw",), "data-raw", "TEXT", "the body, also where it begins with an @"),
    (("--data-urlencode",), "data-urlencode", "TEXT", "the body, percent-encoded: of TEXT, =TEXT or NAME=TEXT"),
]


class Wrong(Exception):
    """Words that no page could ask by, in a sentence."""


def header(word: str) -> tuple[str, str]:
    fault = stray_words.of_header(word)
    if fault:
        raise argparse.ArgumentTypeError(fault)
    name, colon, value = word.partition(":")
    if not colon:  # as curl writes an empty value
        return word[:-1].strip(), ""
    return name.strip(), value.strip()


def connection(word: str) -> tuple[tuple[str, int], tuple[str, int]]:
    found = re.fullmatch(r"(\[[^\]]+\]|[^:]+):(\d{1,5}):(\[[^\]]+\]|[^:]+):(\d{1,5})", word)
    if not found:
        raise argparse.ArgumentTypeError("write it as HOST:PORT:TO:PORT")
    host, port, other, otherwise = found.groups()
    if max(int(port), int(otherwise)) > 65535:
        raise argparse.ArgumentTypeError("a port is at most 65535")
    return (host.strip("[]"), int(port)), (other.strip("[]"), int(otherwise))


def resolution(word: str) -> tuple[tuple[str, int], tuple[str, int]]:
    """The same of the word of curl that names an address alone."""
    found = re.fullmatch(r"\+?([^:]+):(\d{1,5}):(\[[^\]]+\]|[^:,]+)", word)
    if not found:
        raise argparse.ArgumentTypeError("write it as HOST:PORT:ADDRESS")
    host, port, address = found.groups()
    return connection(f"{host}:{port}:{address}:{port}")


def form_part(word: str) -> str:
    fault = forms.problem(word)
    if fault:
        raise argparse.ArgumentTypeError(fault)
    return word


def known_host(word: str) -> tuple[str, bool]:
    host, comma, more = word.partition(",")
    if not host or comma and more.lower() not in ("subdomains", "includesubdomains"):
        raise argparse.ArgumentTypeError("write it as HOST, or as HOST,subdomains")
    return host.lower(), bool(comma)


def pasted_cookies(word: str) -> str:
    if "=" not in word:
        raise argparse.ArgumentTypeError("curl would take it for a file: write the cookies themselves, as 'N=V; M=W'")
    return word


def user(word: str) -> str:
    if ":" not in word:
        raise argparse.ArgumentTypeError("write it as USER:PASSWORD")
    return word


def jobs(word: str) -> int:
    if not (word.isascii() and word.isdigit()) or not 1 <= int(word[:9]) <= 64:
        raise argparse.ArgumentTypeError("a number from 1 to 64")
    return int(word)


def of_page(parser: argparse.ArgumentParser) -> None:
    given = parser.add_argument_group("the page")
    given.add_argument("--from", dest="page", metavar="PAGE",
                       help="the URL of the page that asks (a page of URL's own origin)")
    given.add_argument("--policy", metavar="CSP", action="append", default=[],
                       help="a Content-Security-Policy of the page")
    given.add_argument("--referrer-policy", choices=POLICIES)
    given.add_argument("--cookie", metavar="N=V", action="append", default=[],
                       help="a cookie that URL's origin has set")
    given.add_argument("--hsts", metavar="HOST[,subdomains]", action="append", type=known_host, default=[],
                       help="a host that is known to want https (HSTS)")
    given.add_argument("--book", metavar="FILE",
                       help="what is known of earlier calls: known hosts and the preflight cache")


def with_kind(kind: str, text: str) -> tuple[str, str]:
    return kind, text


def of_request(parser: argparse.ArgumentParser) -> None:
    given = parser.add_argument_group("what the page asks for")
    given.add_argument("-X", "--method", "--request", metavar="M", help="GET where there is no body, else POST")
    given.add_argument("-H", "--header", metavar="'N: V'", action="append", type=header, default=[])
    for words, kind, form, told in BODIES:
        given.add_argument(*words, dest="bodies", metavar=form, action="append", default=[], help=told,
                           type=functools.partial(with_kind, kind))
    given.add_argument("-F", "--form", dest="forms", metavar="N=V|N=@FILE", action="append", type=form_part, default=[],
                       help="a part of a form, which makes the body multipart/form-data")
    given.add_argument("--credentials", choices=list(names.CREDENTIALS))
    given.add_argument("--mode", choices=[mode for mode in names.MODES if mode != "navigate"])
    given.add_argument("--redirect", choices=list(names.REDIRECTS))
    given.add_argument("--integrity", metavar="TEXT")
    given.add_argument("--load", metavar="KIND", choices=KINDS, help="what an element loads: " + ", ".join(KINDS))
    given.add_argument("--crossorigin", choices=list(names.CROSSORIGINS), help="the element's attribute")
    given.add_argument("--twice", action="store_true",
                       help="ask again: what the preflight cache and known hosts change")


def of_curl(parser: argparse.ArgumentParser) -> None:
    given = parser.add_argument_group(
        "words of curl",
        "a command that a browser copies as cURL is taken as it is, with the word curl or without; what a page could "
        "not send is left out, and noted; -i, -s, -S, -v, -L, -g, -f and -o change nothing")
    given.add_argument("-b", dest="pasted", metavar="'N=V; ..'", action="append", type=pasted_cookies, default=[],
                       help="the cookies that went along")
    given.add_argument("-A", "--user-agent", metavar="TEXT", dest="agent")
    given.add_argument("-e", "--referer", metavar="URL")
    given.add_argument("-u", "--user", metavar="USER:PASSWORD", type=user, help="sent as the header Authorization")
    given.add_argument("-I", "--head", action="store_true", help="the method HEAD")
    given.add_argument("-G", "--get", action="store_true", help="put the data into the URL")
    given.add_argument("--compressed", action="store_true",
                       help="ask with the Accept-Encoding of what is decoded here, in the place of identity")
    given.add_argument("-k", "--insecure", action="store_true", help="noted: it changes nothing for a page")
    given.add_argument("--url", metavar="URL", action="append", default=[])
    for words in WITHOUT_EFFECT:
        given.add_argument(*words, dest="without_effect", action="store_true", help=argparse.SUPPRESS)
    for words in VALUES_WITHOUT_EFFECT:
        given.add_argument(*words, dest="unused", metavar="VALUE", help=argparse.SUPPRESS)


def of_asking(parser: argparse.ArgumentParser) -> None:
    given = parser.add_argument_group("how it is asked, and what is printed")
    given.add_argument("--from-file", metavar="FILE",
                       help="more URLs, one a line, but for lines that begin with #; - is standard input")
    given.add_argument("--jobs", metavar="N", type=jobs, default=1, help="URLs side by side (1)")
    given.add_argument("--timeout", "-m", "--max-time", metavar="S", type=streams.seconds, default=20,
                       help="seconds for all of it, for each URL (20)")
    given.add_argument("--connect-to", metavar="HOST:PORT:TO:PORT", action="append", type=connection, default=[],
                       help="connect to another address in the place of a host and port")
    given.add_argument("--resolve", dest="connect_to", metavar="HOST:PORT:ADDRESS", action="append", type=resolution,
                       help="the same, as curl has it")
    printed = given.add_mutually_exclusive_group()
    printed.add_argument("--brief", action="store_true", help="print the verdict alone, and what to change")
    printed.add_argument("--json", action="store_true", help="print JSON")
    given.add_argument("--export", metavar="FILE", help="write a scenario that plays the same by scripted servers")
    given.add_argument("--with-secrets", action="store_true", help="with its cookies and Authorization")


def read(self: str, words: list[str]) -> argparse.Namespace:
    """What the words say, as `given`; wrong words end the program with the status 2."""
    parser = argparse.ArgumentParser(
        prog=self, usage="%(prog)s URL.. [--from PAGE] [words]", allow_abbrev=False,
        description="makes the fetch that a page would make, and says what came and why",
        epilog="status: 0 read, 1 not read, 2 wrong words, 3 no connection or the time limit, 4 no verdict")
    parser.add_argument("urls", metavar="URL", nargs="*")
    for part in (of_page, of_request, of_curl, of_asking):
        part(parser)
    known = [word for action in parser._actions for word in action.option_strings]
    fault = stray_words.of_paste(words) or stray_words.of_dashes(words, known)
    if fault:
        parser.error(fault)
    given, unknown = parser.parse_known_intermixed_args(stray_words.with_values(words, known))
    given.is_curl = given.urls[:1] == ["curl"]
    given.urls = given.urls[given.is_curl:] + given.url
    given.glued = stray_words.glued(words)
    fault = (stray_words.of_copy(given.urls) or stray_words.of_unknown(unknown, known)
             or stray_words.of_urls(words, given.urls, given.is_curl) or lacking(given))
    if fault:
        parser.error(fault)
    given.connect_to = dict(given.connect_to)
    try:
        given.body, given.body_type = body_of(given.bodies), None
        if given.forms:
            given.body, given.body_type = forms.body_of(given.forms)
    except Wrong as wrong:
        parser.error(str(wrong))
    except OSError as error:
        parser.error(f"--form: {error.filename}: {error.strerror}")
    return given


def lacking(given: argparse.Namespace) -> str | None:
    """What words lack, or have too much, in a sentence; None where all is well."""
    if not given.urls and given.from_file is None:
        return "name a URL" + "".join(f"; the header `{name}` has one as its value{stray_words.OWN_WORD}"
                                      for name in given.glued[:1])
    if given.with_secrets and not given.export:
        return "--with-secrets is for --export"
    if given.forms and (given.bodies or given.get):
        return f"a form is the whole body: leave {'--data' if given.bodies else '-G'} out"
    return None


# ---- the body

def body_of(bodies: list[tuple[str, str]]) -> bytes | None:
    """The bytes of the request's body, of all words that name some, joined as curl does; None where there is none."""
    return b"&".join(part_of(kind, text) for kind, text in bodies) if bodies else None


def part_of(kind: str, text: str) -> bytes:
    if kind == "data-urlencode":
        return encoded(text)
    if kind == "data-raw" or not text.startswith("@"):
        return text.encode("utf-8", "surrogateescape")
    try:
        return streams.read(text[1:])
    except OSError as error:
        raise Wrong(f"--data: {text[1:]}: {error.strerror}") from None


def encoded(text: str) -> bytes:
    """What --data-urlencode makes of TEXT, =TEXT or NAME=TEXT."""
    name, equals, value = text.partition("=")
    if "@" in name:
        raise Wrong(f"--data-urlencode {text}: a file is not read here: write the text itself, as NAME=TEXT")
    name, value = (name + "=" if name else "", value) if equals else ("", text)
    return (name + quote(value.encode("utf-8", "surrogateescape"), safe="")).encode("utf-8", "surrogateescape")
