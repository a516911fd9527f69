"""The least policy under which all that was recorded passes: made of the requests that came, shown by playing them
under it, and least, since without any of its words one of them is refused."""
from __future__ import annotations

from collections import Counter
from typing import Any, Iterator, Sequence
from urllib.parse import urlsplit

from fiorrudda.commands import csp
from fiorrudda.commands.case import LOCAL
from fiorrudda.commands.scenario import origin_of
from fiorrudda.commands.there import there
from fiorrudda.commands.urls import host_of, is_address, scheme_of
from fiorrudda.commands.verdicts import shown
from fiorrudda.recorded import differences, verdicts
from fiorrudda.recorded.changes import Changes
from fiorrudda.recorded.commands_of import policy_headers
from fiorrudda.recorded.differences import BROKEN, WORKED, Judged
from fiorrudda.recorded.model import Page
from fiorrudda.recorded.verdicts import Finding

ORDER = ("script-src", "style-src", "img-src", "font-src", "connect-src", "media-src", "manifest-src")
BY = ("host", "path", "scheme")
INLINE = {"script-src": ("scripts", "event handlers"), "style-src": ("style elements", "style attributes")}
UNSAFE = "'unsafe-inline'"
CAUSELESS = (verdicts.FAILED, verdicts.OPEN)
UNSEEN = ("a recording does not show eval, pages that were not visited, what a page asks for as it is left, frames, "
          "workers and forms")
Policy = dict[str, list[str]]


def suggested(judged: Judged, by: str, has_inline: bool = False, sources: Sequence[int] = ()) -> dict[str, Any]:
    """The policy as a text, its words with the entry that each is for, and what is to be said of it. `sources` has for
    each page the number of its recording, where there are several; with `has_inline` what stands in the HTML passes."""
    policy, kept, words = policy_of(judged, by), kept_of(judged), []
    broken = broken_under(judged, policy, kept)
    for name, word in [(name, word) for name, own in policy.items() for word in own]:
        fewer = without(policy, name, word)
        refused = next((one for one in broken_under(judged, fewer, kept) if one not in broken), None)
        if refused is None:
            policy = fewer
        else:
            words.append({"directive": name, "word": word, **source_of(refused["page"], sources),
                          "entry": refused["entry"], "url": refused["url"]})
    failed = list(failed_words(judged, policy, by, sources))
    inline = list(inline_words(judged, policy, sources)) if has_inline else []
    for one in inline:
        policy.setdefault(one["directive"], []).append(one["word"])
    policy = {name: policy[name] for name in ORDER if name in policy}
    left = inline_notes(judged, [one["directive"] for one in inline])
    return {"policy": text_of(policy, kept), "broken": broken, "words": words + inline,
            "failed": failed, "requests": len(list(working(judged))),
            "notes": [*nonce_notes(policy), *left, *map(failed_note, failed), UNSEEN]}


def source_of(page: int, sources: Sequence[int]) -> dict[str, int]:
    """The recording of a page, where there are several."""
    return {"recording": sources[page]} if sources else {}


def policy_of(judged: Judged, by: str) -> Policy:
    """The words for each directive, in the order of the first request that needs one."""
    found: Policy = {name: [] for name in ORDER}
    for page, finding in working(judged):
        words = found[csp.EFFECTIVE[finding.command.kind].replace("-elem", "")]
        for word in words_of(finding, page, by):
            words += [word] if word not in words else []
    return {name: words for name, words in found.items() if words}


def kept_of(judged: Judged) -> Policy:
    """What the pages' own policies say besides, which no load is asked by: `upgrade-insecure-requests`, `base-uri`
    and the like stay as they are."""
    found: Policy = {}
    for page, _ in judged:
        for policy in enforced_policies(page):
            for name, words in policy.items():
                if not name.endswith(("-src", "-elem", "-attr")):
                    found.setdefault(name, words)
    return found


def enforced_policies(page: Page) -> list[Policy]:
    return [policy for is_enforced, policy in csp.numbered(policy_headers(page)) if is_enforced]


def working(judged: Judged) -> Iterator[tuple[Page, Finding]]:
    """The requests that came, with their pages."""
    for page, parts in judged:
        for _, findings in parts:
            yield from ((page, finding) for finding in findings if finding.verdict in WORKED and finding.case)


def words_of(finding: Finding, page: Page, by: str) -> list[str]:
    """The words that let a request pass: its nonce, or one for each URL of its chain."""
    nonce = finding.command.options.get("nonce")
    if nonce and finding.command.kind in ("script", "style"):
        return [f"'nonce-{nonce}'"]
    is_local = scheme_of(finding.chain.url) in LOCAL
    urls = [finding.chain.url] if is_local else [there(finding.case).upgraded(hop) for hop in there(finding.case).hops]
    return [word_of(url, page, by, number > 0) for number, url in enumerate(urls)]


def word_of(url: str, page: Page, by: str, is_redirected: bool) -> str:
    scheme = scheme_of(url)
    asked = csp.Asked(url, page.url, "fetch", "", "", True, is_redirected)
    if scheme in LOCAL or is_address(host_of(url)) and origin_of(url) != page.origin:
        return scheme + ":"  # an address is matched by no word with a host
    if csp.matches("'self'", asked):
        return "'self'"
    if by == "scheme":
        return scheme + ":"
    parts = urlsplit(url)
    path = parts.path if by == "path" and not is_redirected else ""
    return f"{scheme}://{parts.netloc.rpartition('@')[2]}{path if csp.HOST.fullmatch('a' + path) else ''}"


def text_of(policy: Policy, kept: Policy) -> str:
    own = [" ".join([name, *words]) for name, words in (*policy.items(), *kept.items())]
    return "; ".join(["default-src 'none'", *own])


def without(policy: Policy, name: str, word: str) -> Policy:
    """The policy without a word; without the directive, where that was the last."""
    left = [one for one in policy[name] if one != word]
    return {key: left if key == name else words for key, words in policy.items() if key != name or left}


# ---- plays

def broken_under(judged: Judged, policy: Policy, kept: Policy) -> list[dict[str, Any]]:
    """What a policy would refuse of what came."""
    found = differences.of_pages(judged, Changes(csp=text_of(policy, kept)), "")
    return [{"page": one["page"], "entry": one["entry"], "url": one["url"], "why": one["why"]}
            for one in found["differences"] if one["kind"] == BROKEN]


# ---- what is in no play

def inline_words(judged: Judged, policy: Policy, sources: Sequence[int]) -> Iterator[dict[str, Any]]:
    """A word for what the recorded HTML has inside it, with the first page that needs it. Beside a nonce or a hash it
    would do nothing."""
    for name in INLINE:
        needing = [(number, page) for number, (page, _) in enumerate(judged) if inline_of(page, [name])]
        if needing and not csp.nonces(policy.get(name, [])):
            number, page = needing[0]
            yield {"directive": name, "word": UNSAFE, **source_of(number, sources),
                   "entry": page.entry.number if page.entry else None, "url": page.url,
                   "inline": inline_of(page, [name])}


def inline_of(page: Page, directives: Sequence[str]) -> str:
    """What stands in a page's HTML for which these directives decide, in words."""
    counts: Counter[str] = page.html.inline if page.html else Counter()
    return ", ".join(f"{counts[what]} {what}" for what in counts
                     if counts[what] and any(what in INLINE[name] for name in directives))


def inline_notes(judged: Judged, let_through: Sequence[str]) -> list[str]:
    """What the recorded HTML has inside it, which the policy refuses."""
    refused = [name for name in INLINE if name not in let_through]
    told = [(page.url, inline_of(page, refused)) for page, _ in judged if inline_of(page, refused)]
    if not told:
        return []
    url, what = told[0]
    others = f" ({len(told) - 1} more pages have such)" if len(told) > 1 else ""
    return [f"{url} has {what} of its own, which this policy refuses{others}: move them into files, or give them "
            "nonces or hashes; --inline lets all of them pass"]


def failed_words(judged: Judged, policy: Policy, by: str, sources: Sequence[int]) -> Iterator[dict[str, Any]]:
    """The words for what failed, for no rule that is known, and is not in the policy; each with its first request."""
    found: set[tuple[str, str]] = set()
    for number, (page, parts) in enumerate(judged):
        for finding in (finding for _, own in parts for finding in own if finding.verdict in CAUSELESS):
            name = csp.EFFECTIVE[finding.command.kind].replace("-elem", "")
            word = word_of(finding.chain.url, page, by, False)
            if word not in policy.get(name, []) and (name, word) not in found:
                found.add((name, word))
                yield {"directive": name, "word": word, **source_of(number, sources),
                       "entry": finding.chain.first.number, "url": finding.chain.url}


def failed_note(one: dict[str, Any]) -> str:
    entry = f"entry {one['entry']}, {shown(one['url'])}"
    return f"`{one['directive']} {one['word']}` is not in it: {entry}, which needs it, failed"


def nonce_notes(policy: Policy) -> list[str]:
    is_there = any(csp.nonces(words) for words in policy.values())
    return ["the nonces are those of the recording: each answer has one of its own"] if is_there else []
