"""Words of bin/ask that are none, or that came apart between a browser and the shell: headers whose quotes are
missing, are no quotes of a shell, or stand twice. They are refused before anything is asked, and what may be a secret
is not said again."""
from __future__ import annotations

import difflib
import re
from typing import TYPE_CHECKING

from fiorrudda.commands.there import there

if TYPE_CHECKING:
    from collections.abc import Collection

# What stands here for words that people take from elsewhere.
MEANT = {
    **dict.fromkeys(("--origin", "--page", "-from"), "write --from PAGE"), "--csp": "write --policy",
    **dict.fromkeys(("--body", "--post-data"), "write --data"), "--post": "write --method POST",
    **dict.fromkeys(("--with-credentials", "--withcredentials"), "write --credentials include"),
    **dict.fromkeys(("-x", "--proxy"), "no proxy is asked; leave it out"),
    **dict.fromkeys(("-e", "--cert", "--key"), "no certificate of a client is shown; leave it out"),
    "--cacert": "name the authority before the command, by SSL_CERT_FILE=FILE",
    "--oauth2-bearer": "write -H 'Authorization: Bearer ..'", "--url-query": "write it into the URL",
    **dict.fromkeys(("-t", "--upload-file"), "write --method PUT --data-binary @FILE"),
}
CURLY = re.compile("[\u2018\u2019\u201a\u201c\u201d\u201e]")
SCHEME = re.compile(r"\s*[A-Za-z][A-Za-z0-9+.\-]*:(?!\d)")  # and no host with its port
PATH = re.compile(r"/|(?:[\w\-]+\.)*[\w\-]+(?::\d+)?/")  # of a URL whose beginning is missing
NAME = re.compile(r"[A-Za-z\-]{1,40}(?=[\s=]|$)")
OF_HEADERS = re.compile("(?:-H|--header=)(.+)", re.DOTALL)
# A URL with nothing before it, or right behind what is no place for one.
WHOLE_URL = re.compile(r"\s*(?:https?|wss?)://|.*[\w*/+]https?://", re.I)
# Headers whose values have no URL in such a place.
WITHOUT_URLS = re.compile(r"accept(?:-\w+)?|authorization|cache-control|connection|content-(?:length|type)|dnt|if-.*|"
                          r"pragma|priority|range|sec-.*|te", re.I)
WITH_A_VALUE = ("-d", "--data", "--data-raw", "--data-binary", "--data-ascii", "--data-urlencode", "-b", "--cookie",
                "-A", "--user-agent", "-u", "--user")
CMD = "copied for cmd: copy as cURL (bash)"
OTHER_PROGRAM = "copied for another program: copy as cURL (bash)"
METHODS = ("GET", "HEAD", "POST", "PUT", "PATCH", "DELETE", "OPTIONS")
BLANK = "a word is a blank: take the blank behind the \\ at a line's end away"
OWN_WORD = ": is a quote or a blank missing before the URL? One that is to be asked is a word of its own"
WHOLE = "write it whole, as https://api.example/x"
# What stands before a secret, and is none.
KINDS_OF_SECRETS = ("basic", "bearer", "digest", "dpop", "negotiate", "token")


def of_header(word: str) -> str | None:
    """What is wrong in the text of a header, or None."""
    name, colon, value = word.partition(":")
    if CURLY.match(word):
        return of_curly(word)
    if not colon and not word.endswith(";"):
        first = NAME.match(word.strip())
        if first is None:
            return "a header has no colon: write it as 'Name: value'"
        return f"the header `{first.group()}` has no colon: write it as '{first.group()}: value'"
    if name.strip().lower() in ("http", "https", "ws", "wss") and value.startswith("//"):
        return "a URL stands where a header belongs: let it stand as a word of its own, and write -H 'Name: value'"
    if WITHOUT_URLS.fullmatch(name.strip()) and WHOLE_URL.match(value):
        return f"the header `{name.strip()}` has a URL as its value{OWN_WORD}"
    if '"' in name or name.startswith("'") and value.endswith("'"):
        return f"the header `{name.strip()}` has a quote in its name: take the inner quotes away"
    return None


def of_curly(word: str) -> str:
    if there(CURLY.search(word)).group() in "\u2018\u2019\u201a":
        return "\u2018 and \u2019 are no quotes of a shell: write '"
    return "\u201c and \u201d are no quotes of a shell: write \""


def with_values(words: list[str], known: Collection[str]) -> list[str]:
    """The words, where a value that begins with a dash, as a body may, is joined to the word that takes it."""
    found: list[str | None] = []
    ahead = iter(words)
    for word in ahead:
        value = next(ahead, None) if word in WITH_A_VALUE else None
        is_text = value is not None and len(value) > 1 and value[0] == "-" and value not in known
        found += [word + ("=" if word[1] == "-" else "") + str(value)] if is_text else [word, value]
    return [word for word in found if word is not None]


def of_dashes(words: list[str], known: Collection[str]) -> str | None:
    """What is to be said of a long word that has one dash alone, or None."""
    word = next((one for one in words if len(one) > 4 and one[:1] == "-" != one[1:2] and "-" + one in known), None)
    return f"`{word}` has one dash: write -{word}" if word else None


def of_unknown(unknown: list[str], known: Collection[str]) -> str | None:
    """What is to be said of words that are none here, by those that are; None where there is no unknown one. What
    stands behind them may be a secret."""
    word = next((one.partition("=")[0] for one in unknown if one.startswith("-")), None)
    if word is None:
        return "a word is too much: name each URL once" if unknown else None
    meant = MEANT.get(word.lower())
    if meant is None:
        near = difflib.get_close_matches("--" + word.lstrip("-"), known, 1, 0.8)
        meant = f"write {near[0]}" if near else "--help lists them"
    return f"`{word}` is no word here: {meant}"


def of_paste(words: list[str]) -> str | None:
    """What was copied for another shell, as single words of it show; or None."""
    if any('^"' in word for word in words):
        return CMD
    is_powershell = any(word in ("New-Object", "-UseBasicParsing") or word.startswith("Invoke-") for word in words)
    return OTHER_PROGRAM if is_powershell else None


def of_copy(urls: list[str]) -> str | None:
    """What is wrong in what was copied from a browser for something else than bash, or None."""
    if any(url.strip().startswith("^") for url in urls):
        return CMD
    is_other = urls and re.match(r"(?:await )?fetch\(|Invoke-WebRequest$|\$session", urls[0])
    return OTHER_PROGRAM if is_other else None


def of_urls(words: list[str], urls: list[str], is_curl: bool) -> str | None:
    """What is wrong in the words that stand as URLs, or None. `words` are all words as they came."""
    curly = next((url for url in urls if CURLY.match(url) or CURLY.search(url[-1:])), None)
    if curly is not None:
        return of_curly(curly)
    is_pasted = is_curl or any(word.startswith("-H") for word in words)
    for url in urls:
        if is_pasted and not url.strip():
            return BLANK if url else "the word of a URL is empty"
        before, header = behind(words, url)
        is_whole = SCHEME.match(url) is not None
        if len(urls) > 1 and is_whole and header is not None and header.endswith(":"):
            return (f"a URL stands behind the header `{header}`: are the quotes of the header missing? A URL that is "
                    "to be "
                    "asked stands before it")
        if not is_whole and (len(urls) > 1 or is_pasted and not url.startswith("/")):
            return of_no_url(url, before, header, len(urls) > 1)
    return None


def of_no_url(url: str, before: str | None, header: str | None, is_among_others: bool) -> str:
    if url in ("-4", "-6"):
        return f"`{url}` is no word here: leave it out"
    if url.upper() in METHODS:
        return f"`{url}` is no URL: write --method {url.upper()}"
    if before == "--json":
        return "--json prints JSON here, and takes no value: write -H 'Content-Type: application/json' --data '{..}'"
    if header is not None:
        name = header.partition(":")[0].strip()
        if url.lower() in KINDS_OF_SECRETS:
            return f"`{url}` is no URL; are the quotes of the header `{name}:` missing?"
        or_whole = " If it is meant as a URL, " + WHOLE if PATH.match(url) and not header.endswith(":") else ""
        return f"what stands behind the header `{name}:` is no URL; are the quotes of the header missing?{or_whole}"
    if before in WITH_A_VALUE:
        return f"what stands behind the value of {before} is no URL; are the quotes of that value missing?"
    return f"`{url}` is no URL: {WHOLE}" + ("; of several each is whole" if is_among_others else "")


def behind(words: list[str], url: str) -> tuple[str | None, str | None]:
    """The word with a dash that a URL stands behind, with no other URL between, and its text where it is a header; None
    where there is none."""
    place = next((at for at, word in enumerate(words) if word == url and words[at - 1:at] != ["--url"]), 0)
    for at in range(place - 1, -1, -1):
        word, value = words[at], words[at + 1]
        joined = OF_HEADERS.fullmatch(word)
        if joined:
            return word, joined.group(1)
        if word in ("-H", "--header"):
            return word, value
        if word.startswith("-"):
            return word, None
        if SCHEME.match(word) and not word.endswith(":") and not is_value(words, at):
            return None, None
    return None, None


def glued(words: list[str]) -> list[str]:
    """The names of the headers whose value is a URL right behind the colon, as where a quote or a blank is missing."""
    texts = [text for word, after in zip(words, [*words[1:], ""])
             for text in ([after] if word in ("-H", "--header") else OF_HEADERS.findall(word))]
    named = [text.partition(":") for text in texts]
    return [name.strip() for name, _, value in named
            if re.match(r"https?://", value, re.I) and name.strip().lower() not in ("origin", "referer")]


def is_value(words: list[str], at: int) -> bool:
    """Whether a word is the value of the one before it."""
    return words[at - 1:at] in (["-H"], ["--header"], *([word] for word in WITH_A_VALUE))
