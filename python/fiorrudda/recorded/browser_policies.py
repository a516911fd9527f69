"""How browsers read policies otherwise than CSP 3 has it: which words they take, and of which URL they ask."""
from __future__ import annotations

import re
from typing import Callable
from urllib.parse import urlsplit

from fiorrudda.commands import csp
from fiorrudda.commands.case import Violation
from fiorrudda.recorded.difference import Difference

Holds = Callable[[Difference], bool]


def passes_as(word_as: Callable[[str], str], url_as: Callable[[str], str] = str) -> Holds:
    """Whether the policy that refuses would let the URL pass, were its words, and the URL, read so."""
    def holds(d: Difference) -> bool:
        if d.case.result.number not in (4, 19) or d.case.violated is None:
            return False
        asked = d.case.policy_asked
        words = [word_as(word) for word in d.case.directive[1]]
        return csp.passes(words, asked._replace(url=url_as(asked.url)))
    return holds


def without_query(word: str) -> str:
    return re.sub("[?#].*", "", word)


def without_port_80(word: str) -> str:
    return re.sub(":80(?=/|$)", "", word)


def named(text: str) -> str:
    """A word or a URL with a name in the place of an IPv4 address."""
    return re.sub(r"(?<![\w.])(\d+)\.(\d+)\.(\d+)\.(\d+)(?![\w.])", r"a\1-\2-\3-\4.invalid", text)


def unescaped(text: str) -> str:
    """The same with slashes that are no longer escaped."""
    return re.sub("%2f", "/", text, flags=re.I)


def with_path_as_text(form: str) -> Holds:
    """Whether a word of the policy that refuses has a path of this form, which is the beginning of the URL's, or all of
    it where it ends in no slash."""
    def holds(d: Difference) -> bool:
        if d.case.result.number != 4 or d.case.violated is None:
            return False
        paths = [re.sub("^[a-z]+://[^/]*|^[^/]*", "", word, flags=re.I) for word in d.case.directive[1]]
        own = urlsplit(d.url).path
        return any(re.search(form, path, re.I) and (own.startswith(path) if path.endswith("/") else own == path)
                   for path in paths)
    return holds


def deciding_words(d: Difference) -> list[list[str]]:
    """The words of each enforced policy that decide."""
    enforced = [policy for is_enforced, policy in d.case.policies if is_enforced]
    decided = [(policy, *csp.deciding(policy, csp.EFFECTIVE[d.kind])) for policy in enforced]
    return [words for policy, name, words in decided if name in policy]


def asked_at(d: Difference, url: str) -> csp.Asked:
    return d.case.asked_of(Violation(0, True, "", url, len(d.case.chain) > 1, False))


def passes_only_by(form: str) -> Holds:
    """Whether a policy lets the URL pass, and would not without its words of this form."""
    def holds(d: Difference) -> bool:
        asked = asked_at(d, d.url)
        for words in deciding_words(d):
            left = [word for word in words if not re.match(form, word, re.I)]
            if csp.passes(words, asked) and not csp.passes(left, asked):
                return True
        return False
    return holds


def stops_before_upgrade(causes: str, is_behind_redirect: bool = False) -> Holds:
    """Whether a policy refuses the URL that is upgraded, as it is before: the first of the chain, or one behind it."""
    def holds(d: Difference) -> bool:
        hops = d.case.hops[1:] if is_behind_redirect else d.case.hops[:1]
        upgraded = [hop.asked for hop in hops if (d.case.upgrade_of(hop) or "none") in causes]
        return any(not csp.passes(words, asked_at(d, url)) for url in upgraded for words in deciding_words(d))
    return holds
