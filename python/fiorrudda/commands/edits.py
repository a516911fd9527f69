"""What is to be changed, as data, and the sentence that is made of it. An edit is an object: `at` says where
(preflight, answer, page, request or scenario), and `set`, `remove` or `add` what, with its `value`. That of an answer
has the `method` and the `url` of its request; that of a policy its number, and `set` is the name of the directive.

    {"at": "answer", "method": "PUT", "url": "https://api.test/x", "set": "Content-Type", "value": "text/css"}
    {"at": "preflight", "method": "OPTIONS", "url": "https://api.test/x", "set": "status", "value": 204}
    {"at": "answer", "method": "GET", "url": "https://api.test/x", "set": "Vary", "value": "A, Origin", "replaces": "A"}
    {"at": "answer", "method": "PUT", "url": "https://api.test/x", "set": "Access-Control-Allow-Origin",
     "value": "https://shop.test", "unseen": true, "stays": "*"}
    {"at": "page", "policy": 0, "set": "connect-src", "value": "'self' https://api.test"}
    {"at": "page", "policy": 0, "set": "img-src", "value": "'self'", "replaces": "img-scr 'self'"}
    {"at": "page", "policy": 0, "set": "img-src", "value": "'self'", "behind": "style-src"}
    {"at": "page", "policy": 0, "set": "img-src", "value": "'self'", "commas": ["font-src"]}
    {"at": "page", "policy": 0, "set": "img-src", "value": "'self' http://a.test", "reporting": "http://a.test"}
    {"at": "page", "add": "Content-Security-Policy", "value": "upgrade-insecure-requests"}
    {"at": "page", "add": "Content-Security-Policy", "value": "upgrade-insecure-requests",
     "unserved": ["http://localhost/x"]}
    {"at": "request", "set": "mode", "value": "cors"}
    {"at": "scenario", "set": "body_limit", "value": 1048576}

`python/tests/commands/advice.py` makes each of them."""
from __future__ import annotations

import re
from itertools import groupby
from typing import TYPE_CHECKING

if TYPE_CHECKING:
    from collections.abc import Iterable, Sequence
    from typing import Any

    from fiorrudda.commands.shapes import Edit, Object, Ways

LONGEST = 4096  # characters of a directive in a sentence
ENDS = 1000  # of a longer one so many stand there of its beginning and of its end


def preflight(url: str, name: str, value: int | str | None, before: str | None = None) -> Edit:
    return {"at": "preflight", "method": "OPTIONS", "url": url, "set": name, "value": value, **replacing(before)}


def answer(method: str, url: str, name: str, value: int | str | None, before: str | None = None,
           unseen: Edit | None = None) -> Edit:
    """At an answer. `unseen` says of one that is not seen yet that it may have that."""
    return {"at": "answer", "method": method, "url": url, "set": name, "value": value, **replacing(before),
            **(unseen or {})}


def may_have(other: str | None = None) -> Edit:
    """What an edit says of an answer that is not seen yet: it may have the value, or another that does as well."""
    return {"unseen": True} if other is None else {"unseen": True, "stays": other}


def replacing(before: str | None) -> dict[str, str]:
    """What an edit says of the value that the header has."""
    return {} if before is None else {"replaces": before}


def without(method: str, url: str, name: str) -> Edit:
    return {"at": "answer", "method": method, "url": url, "remove": name}


def policy(number: int, name: str, words: list[str], is_new: bool = False, before: str | None = None,
           behind: str | None = None, commas: list[str] | None = None) -> Edit:
    """A directive with these words, in the place of the one of its name, or of `before`, which is none as it is
    written; or beside default-src; or behind a directive that has swallowed it, since a semicolon is missing; or with
    the policies that begin with the directives `commas`, where the commas before these stand for semicolons."""
    beside = {"beside": "default-src"} if is_new else {}
    more = {"behind": behind, "commas": commas}
    return {"at": "page", "policy": number, "set": name, "value": " ".join(words), **beside,
            **{key: value for key, value in more.items() if value is not None}, **replacing(before)}


def while_reporting(own: list[Edit], word: str) -> list[Edit]:
    """Edits of a policy, which needs a word while it only reports."""
    return [*own[:-1], {**own[-1], "reporting": word}]


def page(name: str, value: str) -> Edit:
    return {"at": "page", "set": name, "value": value}


def upgrade_policy(unserved: Sequence[str] = ()) -> Edit:
    """A policy beside those that are there. `unserved` are URLs that it upgrades to where no server is."""
    more = {"unserved": list(unserved)} if unserved else {}
    return {"at": "page", "add": "Content-Security-Policy", "value": "upgrade-insecure-requests", **more}


def request(name: str, value: Any) -> Edit:
    return {"at": "request", "set": name, "value": value}


def no_body() -> Edit:
    return {"at": "request", "remove": "body"}


def server(origin: str, rules: list[Object]) -> Edit:
    return {"at": "scenario", "add": "server", "value": {"origin": origin, "rules": rules}}


def body_limit(number: int) -> Edit:
    return {"at": "scenario", "set": "body_limit", "value": number}


# ---- sentences

UNSEEN = ", where it does not send that yet"  # of an answer that has not come
ANY_OTHER = " in place of any other"  # an origin that it may send: two values pass no request
LONGEST_BEFORE = 80  # characters of a value that is replaced
STARRED = ("Access-Control-Allow-Methods", "Access-Control-Allow-Headers")
NO_WILDCARD = " (with credentials never send `*` here)"
REQUEST = {
    "url": "ask for %s",
    "mode": "ask in mode %s",
    "credentials": "ask with `credentials` `%s`, where the server needs no cookie",
    "redirect": "ask with `redirect` `%s`",
    "method": "use the method %s",
    "crossorigin": "write `crossorigin=\"%s\"` at the element",
    "nonce": "give the element the nonce `%s`, made anew for each answer",
    "integrity": "write the integrity text `%s`",
}


def line_of(edit: Edit) -> str:
    """A header as it is written."""
    return f"`{edit['set']}: {edit['value']}`"


def told(edit: Edit) -> str:
    """The same, and what stands in its place now."""
    before = edit.get("replaces")
    if before is None or before == edit["value"]:
        return line_of(edit) + of_any_other(edit)
    return f"{line_of(edit)} in place of `{cut(before)}`{NO_WILDCARD if is_star_gone(edit) else ''}"


def of_any_other(edit: Edit) -> str:
    """What an answer that is not seen yet is to send no more."""
    if not (edit.get("unseen") and edit["set"] == "Access-Control-Allow-Origin"):
        return ""
    return ANY_OTHER + (f" except `{edit['stays']}`" if "stays" in edit else "")


def cut(before: str) -> str:
    """What is replaced, as a sentence has it."""
    return before if len(before) <= LONGEST_BEFORE else before[:LONGEST_BEFORE] + ".."


def is_star_gone(edit: Edit) -> bool:
    """Whether names replace a `*` of what a preflight's answer lists, as they do where credentials go along."""
    was, is_now = ("*" in re.split(r"[,\s]+", edit[key]) for key in ("replaces", "value"))
    return edit["set"] in STARRED and was and not is_now


def is_of_headers(way: Iterable[Edit]) -> bool:
    """Whether a way changes headers of answers or policies of the page alone."""
    return all(edit["at"] in ("answer", "preflight") or "policy" in edit for edit in way)


def are_said(way: Iterable[Edit], lines: Iterable[str]) -> bool:
    """Whether lines name all headers of a way."""
    text = "\n".join(lines)
    return all(line_of(edit) in text for edit in way if edit.get("set") not in (None, "status"))


def listed(texts: Iterable[str]) -> str:
    texts = list(texts)
    return " and ".join(filter(None, [", ".join(texts[:-1]), texts[-1]]))


def place(edit: Edit) -> tuple[str, str | None, str | None]:
    return edit["at"], edit.get("method"), edit.get("url")


def sentence(changes: Ways, asked: str | None = None) -> str:
    """All ways to change it, each of which is a list of edits. `asked` is a URL whose preflight was answered: of the
    answer to its request is said which one it is."""
    return "; or ".join(filter(None, (phrase(one, asked) for one in changes)))


def phrase(edits: list[Edit], asked: str | None = None) -> str:
    """One of them. Edits of one place stand together."""
    parts, before = [], asked
    for where, own in groupby(edits, place):
        group = list(own)
        parts.append(PHRASES[where[0]](group, before))
        before = group[0].get("url", "")
    return ", and ".join(parts)


def of_preflight(edits: list[Edit], before: str | None) -> str:
    status = [edit["value"] for edit in edits if edit["set"] == "status"]
    lines = [told(edit) for edit in edits if edit["set"] != "status"]
    if before is None and not status:
        return f"send {listed(lines)} with the answer to OPTIONS"
    return f"answer OPTIONS at {edits[0]['url']} with {listed(map(str, [*status, *lines]))}"


def of_answer(edits: list[Edit], before: str | None) -> str:
    where = answer_named(edits, before)
    gone = [f"leave `{edit['remove']}` out" for edit in edits if "remove" in edit]
    status = [f"answer with {edit['value']}" for edit in edits if edit.get("set") == "status"]
    lines = [told(edit) for edit in edits if edit.get("set", "status") not in ("status", "head")]
    head = ["send a head that is one" for edit in edits if edit.get("set") == "head"]
    unseen = UNSEEN if any("unseen" in edit for edit in edits) else ""
    return listed([*gone, *status, *head, *([f"send {listed(lines)}{where}{unseen}"] if lines else [])])


def answer_named(edits: list[Edit], before: str | None) -> str:
    """Which answer it is, where another one was told of; `before` is the URL of that, or None."""
    if before is None and all(edit.get("set") != "Location" for edit in edits):
        return ""
    is_same = before == edits[0]["url"]
    return f" with the answer to {edits[0]['method']}{'' if is_same else ' at ' + edits[0]['url']}"


def of_page(edits: list[Edit], before: str | None) -> str:
    moved = [f"serve the page as {edit['value']}" for edit in edits if edit.get("set") == "url"]
    added = [f"serve the page with {added_line(edit)}, by which all that it loads over http is asked for "
             f"over https{of_unserved(edit)}" for edit in edits if "add" in edit]
    said = [of_policy(list(own)) for _, own in groupby((edit for edit in edits if "policy" in edit), policy_of)]
    return listed([*moved, *added, *(["let " + listed(said)] if said else [])])


def added_line(edit: Edit) -> str:
    """A header that the page gets, as it is written."""
    return f"`{edit['add']}: {edit['value']}`"


def of_unserved(edit: Edit) -> str:
    urls = edit.get("unserved", [])
    have = "has" if len(urls) == 1 else "have"
    return f": {listed(urls)} too, which {have} no https server" if urls else ""


def shortened(text: str) -> str:
    """A directive as a sentence has it; the data have all of it."""
    return text if len(text) <= LONGEST else f"{text[:ENDS]} .. {text[-ENDS:]}"


def policy_of(edit: Edit) -> int:
    return int(edit["policy"])


def of_policy(edits: list[Edit]) -> str:
    """The directives of one policy."""
    directives = "; ".join((f"{one['set']} {shortened(one['value'])}").strip() for one in edits)
    there = {one["set"] for one in edits}
    beside = [one["beside"] for one in edits if "beside" in one and one["beside"] not in there]
    said = f"policy {edits[0]['policy']} say `{directives}`{of_slips(edits)}"
    said += f" beside its `{beside[0]}`" if beside else ""
    return said + "".join(f", which it needs while it only reports: without `{one['reporting']}` once it is enforced, "
                          "and the page itself has the https URL, since Firefox asks it about the http one"
                          for one in edits if "reporting" in one)


def of_slips(edits: list[Edit]) -> str:
    """What stands there now in the place of directives, where it is misspelt or they lack their semicolons."""
    swallowed = [f"`{one['set']}`" for one in edits if "behind" in one]
    commas = [f"`{name}`" for one in edits for name in one.get("commas", [])]
    said = f" in place of `{shortened(edits[0]['replaces'])}`" if "replaces" in edits[0] else ""
    said += ", with the semicolon that is missing before " + listed(swallowed) if swallowed else ""
    return said + (", with a semicolon for the comma before " + listed(commas) if commas else "")


def of_request(edits: list[Edit], before: str | None) -> str:
    return listed(map(of_one_request, edits))


def of_one_request(edit: Edit) -> str:
    if "remove" in edit:
        return f"leave the {edit['remove']} out"
    if edit["set"] == "integrity" and not edit["value"]:
        return "leave the integrity text out"
    if edit["set"] == "parser":
        return "let a script insert the element"
    if edit.get("gone"):
        return f"leave {of_gone(edit['gone'])} out of the request"
    if edit["set"] == "headers":
        lines = listed(f"`{name}: {value}`" for name, value in edit["value"]) if edit["value"] else "no header"
        return "let the script set " + lines
    return str(REQUEST[edit["set"]] % edit["value"])


def of_gone(names: list[str]) -> str:
    """Headers that are to be left out of a request, and why, where they are those of answers."""
    what = "a header of answers" if len(names) == 1 else "headers of answers"
    told = listed(f"`{name}`" for name in names)
    return f"{told}, {what}," if all(name.startswith("access-control-") for name in names) else told


def of_scenario(edits: list[Edit], before: str | None) -> str:
    added = [f"add a server {edit['value']['origin']}" for edit in edits if edit.get("add") == "server"]
    set_to = [f"set `{edit['set']}` to {edit['value']}, in format 2" for edit in edits if "set" in edit]
    return listed(added + set_to)


PHRASES = {"preflight": of_preflight, "answer": of_answer, "page": of_page, "request": of_request,
           "scenario": of_scenario}
