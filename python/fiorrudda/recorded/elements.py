"""What the HTML of a page says of its loads: policies of `meta`, the referrer policy, and the elements with their
URLs."""
from __future__ import annotations

import re
from html.parser import HTMLParser
from typing import Iterator, Optional

from fiorrudda.commands.scenario import joined
from fiorrudda.commands.there import there
from fiorrudda.commands.urls import secure
from fiorrudda.recorded.model import Element, Html

# What `as` of a preload names, in the words of a load.
PRELOADED = {"style": "style", "script": "script", "font": "font", "image": "image", "audio": "audio", "video": "video",
             "fetch": "fetch"}
SCHEME = re.compile(r"\s*[A-Za-z][A-Za-z0-9+.-]*:")
BETWEEN = re.compile(r"[\s,]*")
WRITTEN = re.compile(r"\S+")
LONGEST = 16777216  # bytes of a page that is read
CROSSORIGIN = {"use-credentials": "use-credentials"}


class Reader(HTMLParser):
    """Reads what loads. HTML that is broken is read as far as it goes."""

    def __init__(self, url: str):
        super().__init__(convert_charrefs=True)
        self.base = url
        self.is_based = False
        self.is_base_whole = False
        self.media = "video"
        self.is_in_body = False
        self.html = Html()

    def handle_starttag(self, tag: str, attrs: list[tuple[str, Optional[str]]]) -> None:
        given: dict[str, str] = {}
        for name, value in attrs:
            given.setdefault(name, value or "")
        self.html.inline["style attributes"] += "style" in given
        self.html.inline["event handlers"] += sum(name.startswith("on") for name in given)
        handle = getattr(self, "read_" + tag, None)
        if handle:
            handle(given)

    handle_startendtag = handle_starttag

    def add(self, kind: str, text: str, given: dict[str, str], crossorigin: Optional[str] = None) -> None:
        url = joined(text, self.base).partition("#")[0] if text.strip() else ""
        if "crossorigin" in given:
            crossorigin = CROSSORIGIN.get(given["crossorigin"].strip().lower(), "anonymous")
        is_whole = self.is_base_whole and not text.strip().startswith("//") or SCHEME.match(text) is not None
        element = Element(kind, url, crossorigin, given.get("integrity", ""), given.get("nonce", ""),
                          given.get("referrerpolicy", "").strip().lower(), is_whole)
        for one in {url, secure(url)} if url else ():
            self.html.elements.setdefault(one, []).append(element)

    def read_base(self, given: dict[str, str]) -> None:
        if given.get("href") and not self.is_based:
            self.base, self.is_based = joined(given["href"], self.base) or self.base, True
            self.is_base_whole = SCHEME.match(given["href"]) is not None

    def read_body(self, given: dict[str, str]) -> None:
        self.is_in_body = True

    def read_meta(self, given: dict[str, str]) -> None:
        content = given.get("content", "")
        is_policy = given.get("http-equiv", "").strip().lower() == "content-security-policy"
        if is_policy and content.strip() and not self.is_in_body:  # HTML: in the head alone
            self.html.policies.append(" ".join(content.split()))
        if given.get("name", "").strip().lower() == "referrer" and content.strip():
            self.html.referrer_policy = content.strip().lower()

    def read_script(self, given: dict[str, str]) -> None:
        kind = given.get("type", "").strip().lower()
        is_module = kind == "module"
        self.html.inline["scripts"] += "src" not in given and (is_module or not kind or "javascript" in kind)
        self.add("script", given.get("src", ""), given, "anonymous" if is_module else None)

    def read_style(self, given: dict[str, str]) -> None:
        self.html.inline["style elements"] += 1

    def read_link(self, given: dict[str, str]) -> None:
        words, href = given.get("rel", "").lower().split(), given.get("href", "")
        if "stylesheet" in words:
            self.add("style", href, given)
        elif "icon" in words or "apple-touch-icon" in words:
            self.add("image", href, given)
        elif "manifest" in words:
            self.add("manifest", href, given)
        elif "modulepreload" in words:
            self.add("script", href, given, "anonymous")
        elif "preload" in words and given.get("as", "").lower() in PRELOADED:
            self.add(PRELOADED[given["as"].lower()], href, given)

    def read_img(self, given: dict[str, str]) -> None:
        self.add("image", given.get("src", ""), given)
        self.add_set(given)

    def add_set(self, given: dict[str, str]) -> None:
        for text in candidates(given.get("srcset", "")):
            self.add("image", text, given)

    def read_input(self, given: dict[str, str]) -> None:
        if given.get("type", "").strip().lower() == "image":
            self.add("image", given.get("src", ""), given)

    def read_video(self, given: dict[str, str]) -> None:
        self.media = "video"
        self.add("video", given.get("src", ""), given)
        self.add("image", given.get("poster", ""), {})

    def read_audio(self, given: dict[str, str]) -> None:
        self.media = "audio"
        self.add("audio", given.get("src", ""), given)

    def read_source(self, given: dict[str, str]) -> None:
        self.add(self.media, given.get("src", ""), given)
        self.add_set(given)

    def read_iframe(self, given: dict[str, str]) -> None:
        if given.get("src", "").strip():
            self.html.frames.add(joined(given["src"], self.base).partition("#")[0])

    read_frame = read_iframe


def candidates(text: str) -> Iterator[str]:
    """The URLs of a `srcset`, each with what describes it up to a comma."""
    found = WRITTEN.match(text, there(BETWEEN.match(text)).end())
    while found:
        url, end = found.group().rstrip(","), found.end()
        if found.group() == url:
            end = text.find(",", end)
        yield url
        found = WRITTEN.match(text, there(BETWEEN.match(text, end)).end()) if end >= 0 else None


def read(body: Optional[bytes], url: str) -> Optional[Html]:
    """What a page's body says; None where it is not recorded."""
    if body is None:
        return None
    reader = Reader(url)
    try:
        reader.feed(body[:LONGEST].decode("utf-8", "replace"))
        reader.close()
    except (AssertionError, ValueError):  # of markup that html.parser cannot read on
        pass
    return reader.html
