"""What is surely meant by the words of a test that are none: keys of `expect`, results, and requests as they are
sent."""
from __future__ import annotations

import difflib
import json
import re
from typing import TYPE_CHECKING
from urllib.parse import quote, urlsplit

from fiorrudda.commands import guards, results
from fiorrudda.commands.scenario import origin_of

if TYPE_CHECKING:
    from collections.abc import Container, Iterable

KEY = re.compile(r"(?:document ([0-9]{1,3}) )?(fetch|load) ([0-9]{1,4})")
LIKE_KEY = re.compile(r"\W*(?:doc(?:ument)?\W*(\d{1,3})\W*)?(fetch|load|image|audio|video|style|script|font|manifest)"
                      r"(?:e?s)?\W*(\d{1,4})\W*", re.I)
# What people call a result, in small letters.
MEANT = {
    **dict.fromkeys(("allowed", "ok", "pass", "passed", "passes", "succeeds", "success", "works"), '"read"'),
    **dict.fromkeys(("blocked", "cancelled", "denied", "error", "fail", "fails", "network error", "rejected"),
                    '"refused"'),
    **dict.fromkeys(("cors error", "corserror", "blocked by cors"), '"refused", or of the answer "12 CorsCheck"'),
    **dict.fromkeys(("csp", "csp error", "blocked by csp"), '"4 CspRequest"'),
    **dict.fromkeys(("type error", "typeerror"), '"refused": "type-error" is a request that no script may make'),
    **dict.fromkeys(("incomplete", "truncated"), '"cut"'),
    "mixed content": '"3 Mixed"', "no verdict": '"no-verdict"', "preflight": '"7 PreflightCors"',
}
NOT_OF = {"fetch": ("loaded", "failed"), "load": ("basic", "cors", "cut", "opaque", "opaqueredirect", "error")}


def key_meant(key: str, others: Iterable[str]) -> str | None:
    """The key that is surely meant by one that names no fetch, as it is written; or None."""
    found = LIKE_KEY.fullmatch(key)
    if found:
        document, kind, number = found.groups()
        before = f"document {int(document)} " if document and int(document) else ""
        name = "fetch" if kind.lower() == "fetch" else "load"
        return f'"{before}{name} {int(number)}"'
    if re.fullmatch(r"(?:not|un)\W?_?sent", key, re.I):
        return '"never sent"'
    plain = {re.sub(r"[\W_]", "", one): one for one in others}
    near = difflib.get_close_matches(re.sub(r"[\W_]", "", key).lower(), list(plain), 1, 0.65)
    return f'"{plain[near[0]]}"' if near else None


def result_problem(wanted: str, kind: str, ways: Container[str]) -> str | None:
    """What is wrong in a result that a test wants of a fetch or of a load, or None."""
    is_negated, rest = results.negated(wanted)
    words = rest.split()
    word = results.unknown_word(rest)
    before = '"not ' if is_negated else '"'
    if not words:
        return 'this text is empty: write "read", "refused", or a result as it is printed'
    if word is not None:
        return f'no result has the word "{word}": write {meant(rest, word, ways)}'
    if len(words) > 1 and set(words) & set(results.ALONE):
        other = " ".join(one for one in words if one not in results.ALONE) or words[0]
        return f'"{rest}" says two things at once: write {before}{other}"'
    if words[0] in NOT_OF[kind]:
        other = "refused" if words[0] in ("failed", "error") else "read"
        return f'no {kind} comes to "{words[0]}": write {before}{other}"'
    return number_problem(words, before)


def number_problem(words: list[str], before: str) -> str | None:
    """That a number of an error stands before the name of another one."""
    for number, name in zip(words, words[1:]):
        if number.isdigit() and name in results.NETWORK_ERRORS:
            right = results.NETWORK_ERRORS.index(name) + 1
            return None if int(number) == right else f'{name} is {right}: write {before}{right} {name}"'
    return None


def meant(text: str, word: str, ways: Container[str]) -> str:
    """What to write in place of a result with a word that none has."""
    if word in ways:
        return f'{{"why": "{word}"}}'
    if re.match(r"https?://", word) or re.fullmatch(r"\d{3} OK", text):
        return '"' + text.replace(word, "").strip() + '"'
    known = MEANT.get(text.lower()) or MEANT.get(word.lower())
    if known:
        return known
    near = [one for one in results.WORDS if one.lower() == word.lower()]
    near = near or difflib.get_close_matches(word, results.WORDS, 1, 0.8)
    return f'"{near[0]}"' if near else "read, refused, a result as it is printed, or not and one of these"


def request_problem(text: str) -> str | None:
    """What is wrong in a request that is written as no request is sent: it would never be met; or None."""
    method, _, where = text.partition(" ")
    right = guards.normalised(method)
    parts = urlsplit(where)
    target = quote(parts.path or "/", safe="/%:@!$&'()*+,;=~-._|^[]{}\\") + ("?" + parts.query if parts.query else "")
    sent = (origin_of(where) or "") + target if where else ""
    if (right, sent) == (method, where) or where.startswith("http") and origin_of(where) is None:
        return None
    return f"no request is sent as {json.dumps(text)}: write {json.dumps(' '.join(filter(None, [right, sent])))}"
