"""Slips in URLs and cookies that are taken as they are written, and surely are meant otherwise."""
from __future__ import annotations

import re

# The beginning of a URL that is likely a host, and ends of the names of files.
HOST_FIRST = re.compile(r"(?:[\w-]+\.)+([a-z]{2,})(?=(/)|[?#]|$)", re.I | re.A)
FILES = set("js mjs css json html htm xml txt md csv png jpg jpeg gif svg webp avif ico woff woff2 ttf otf mp3 mp4 "
            "webm ogg wav pdf zip gz wasm map php asp aspx jsp cgi webmanifest".split())
ATTRIBUTES = ("domain", "expires", "httponly", "max-age", "partitioned", "path", "samesite", "secure")


def of_url(url: str) -> str | None:
    """What is wrong in a URL that begins with a host, and would be a path of the page, or that has a quote around it;
    None where nothing is."""
    quoted = re.fullmatch(r"(?:[\"'`<](https?://.*?)[\"'`>]?|(https?://[^\"'`<>]*)[\"'`>])", url, re.I)
    if quoted:
        return f"a quote or a bracket stands around {quoted.group(1) or quoted.group(2)}: take it away"
    scheme = re.match(r"(https?|wss?)//:?(?=[\w-]+\.|localhost\b)", url, re.I)
    if scheme:
        return f"`{scheme.group()}` is no beginning of a URL: write {scheme.group(1)}://"
    found = HOST_FIRST.match(url)
    if found is None or found.group(1).lower() in FILES and not found.group(2):
        return None
    return (f"`{found.group()}` has no scheme: write https://{found.group()}; what is a path of the page begins with / "
            "or ./")


def of_cookies(value: str) -> str | None:
    """What is to be said of attributes of Set-Cookie among the cookies that are sent, or None."""
    names = [part.partition("=")[0].strip() for part in value.split(";")[1:]]
    found = [name for name in names if name.lower() in ATTRIBUTES]
    if not found:
        return None
    return f"`{found[0]}` is an attribute of Set-Cookie, and is sent as a cookie here: leave it out"
