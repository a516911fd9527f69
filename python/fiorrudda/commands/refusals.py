"""Why a scenario, or a test, is refused: the line, the column, and in a sentence what is wrong there and what to
change; with the words that may stand there and what the schema says."""
from __future__ import annotations

import difflib
import json
import re
from typing import TYPE_CHECKING

from fiorrudda.commands import json_text
from fiorrudda.commands.streams import CONTROL
from fiorrudda.commands.there import there

if TYPE_CHECKING:
    from collections.abc import Collection, Sequence
    from typing import Any

    from fiorrudda.commands.json_text import Fault, Node
    from fiorrudda.commands.schema import Problem, Schema
    from fiorrudda.commands.shapes import Object

ONLY_THE_PROGRAM = [
    (r"/headers$", "these headers hold more than 16 policies: join some of them"),
    (r"/(?:url|top)$", "this is no http or https URL without user name and password, and of at most 8,192 bytes"),
    (r"/hsts/\d+/host$", "this is no domain as URLs have it: lower case, no address, no port"),
    (r"/(?:origin|cookies/\d+/0|routes/\d+/0)$",
     "this is no origin as URLs have it: scheme, ://, the host in lower case, and a port that is not the scheme's "
     "default"),
    (r"/cookies/\d+/1$", "a cookie's value has 1 to 4,096 bytes"),
    (r"/repeat$", "at most eight repeat stand inside each other: this is one more"),
    (r"/if$", "at most sixteen if stand inside each other: this is one more"),
]
FAMILIAR = {"uri": "url", "href": "url", "src": "url", "type": "kind", "withcredentials": "credentials",
            "sleep": "wait", "delay": "wait", "times": "repeat", "loop": "repeat", "data": "body", "code": "status",
            "status_code": "status", "verb": "method", "target": "path", "response": "rules", "commands": "script",
            "steps": "script", "pages": "documents", "version": "format", "cookie": "cookies", "host": "origin",
            # of a test
            "status": "result", "error": "result", "comes": "result", "headers": "sees", "visible": "sees",
            "requests": "sent", "way": "why", "reason": "why"}
OWNERS = {"server": "a server", "rule": "a rule of a server", "fetch": "the fetch", "load": "the load",
          "document1": "a document", "document2": "a document", "format1": "the scenario", "format2": "the scenario",
          "host": "a known host"}
TYPES = {"object": "an object", "array": "a list", "string": "a text", "integer": "a whole number",
         "boolean": "true or false"}
GIVEN = {"object": "an object", "list": "a list", "string": "a text"}


MOST_ALSO = 5  # problems besides the first that are told


class Refusal:
    """One line that says what to change, with its place; `more` are lines behind it."""

    def __init__(self, text: str, at: int, place: str, sentence: str, more: Sequence[str] = ()) -> None:
        self.line, self.column = json_text.place_of(text, at)
        self.place = place
        self.sentence = sentence
        self.more = list(more)
        self.source = text.split("\n")[self.line - 1].rstrip("\r")

    def told(self, name: str) -> list[str]:
        """The lines that tell it."""
        first = f"{name}:{self.line}:{self.column}: {self.sentence}"
        source = CONTROL.sub(" ", self.source)
        start = max(0, self.column - 60)
        shown = source[start:start + 100]
        return [first, "    " + shown, "    " + " " * (self.column - 1 - start) + "^",
                *("  " + line for line in ["place: " + self.place, *self.more])]

    def data(self) -> Object:
        return {name: getattr(self, name) for name in ("line", "column", "place", "sentence", "more")}


def of_fault(text: str, fault: Fault) -> Refusal:
    return Refusal(text, fault.place, "json", fault.sentence)


def of_place(text: str, root: Node, place: str, schema: Schema) -> Refusal:
    """For the place that the program refuses."""
    problems = schema.check(root)
    near = [one for one in problems if one.place == place] or [one for one in problems if is_near(one.place, place)]
    node = node_at(root, place)
    if near:
        refusal = of_problem(text, near[0], schema)
        refusal.place = place
        refusal.more += also(text, [one for one in problems if one not in near], near, schema)
        return refusal
    sentence = next((sentence for form, sentence in ONLY_THE_PROGRAM if re.search(form, place)), "this is refused here")
    return Refusal(text, node.start, place, sentence)


def of_problem(text: str, problem: Problem, schema: Schema) -> Refusal:
    sentence = SENTENCES[problem.kind](problem, schema)
    return Refusal(text, problem.node.start, problem.place, sentence, more_of(problem))


def also(text: str, others: list[Problem], told: list[Problem], schema: Schema) -> list[str]:
    """Lines for the other problems, each once, so that all can be mended at once: without keys that are missing where
    one is unknown, which may be a misspelt one."""
    is_misspelt = any(one.kind == "unknown" for one in [*told, *others])
    own = [of_problem(text, one, schema) for one in others if one.kind != "missing" or not is_misspelt][:MOST_ALSO]
    return list(dict.fromkeys(f"also {one.line}:{one.column}: {one.sentence}" for one in own))


def is_near(one: str, other: str) -> bool:
    return (one + "/").startswith(other.rstrip("/") + "/") or (other + "/").startswith(one.rstrip("/") + "/")


def node_at(root: Node, place: str) -> Node:
    """The node at a place; of a key that is missing the object that lacks it."""
    node = root
    for word in filter(None, place.split("/")):
        if node.kind == "object":
            inner = node.member(word)
        else:
            inner = node.items[int(word)] if word.isdigit() and int(word) < len(node.items) else None
        if inner is None:
            break
        node = inner
    return node


def more_of(problem: Problem) -> list[str]:
    """What may stand there, and what the schema says."""
    lines = []
    if problem.kind == "word":
        lines.append("allowed: " + ", ".join(map(shown, problem.wanted)))
    if problem.kind == "unknown":
        lines.append("keys here: " + ", ".join(problem.wanted))
    if problem.described():
        lines.append("schema: " + problem.described())
    return lines


def shown(value: Any) -> str:
    return json.dumps(value, ensure_ascii=False)


def folded(word: str) -> str:
    return re.sub(r"[-_ ]", "", word).lower()


def nearest(word: str, known: Collection[str]) -> str | None:
    """The known word that is meant, or None."""
    plain = {folded(one): one for one in known}
    found = difflib.get_close_matches(folded(word), list(plain), 1, 0.7)
    meant = FAMILIAR.get(word.lower())
    return plain[found[0]] if found else meant if meant in known else None


# ---- keys

def unknown_key(problem: Problem, schema: Schema) -> str:
    meant = nearest(problem.name, problem.wanted)
    if meant is not None:
        return f'the key "{problem.name}" is unknown here: write "{meant}"'
    if problem.is_of("with_headers"):
        return (f'the key "{problem.name}" is unknown here: a request stands so, '
                '{"request": "PUT /x", "has": {"Cookie": true}}')
    owners = [OWNERS[one["is"]] for one in schema.owners(problem.name) if one["is"] in OWNERS]
    is_of_server = problem.path[:1] == ["servers"] and OWNERS["rule"] in owners
    first: str | None = owners[0] if owners else None
    owner = OWNERS["rule"] if is_of_server else first
    if problem.name == "body_limit" or problem.name == "top":
        return f'the key "{problem.name}" is of format 2: write "format": 2'
    if owner is not None:
        return f'the key "{problem.name}" has no place here: it belongs in {owner}'
    return f'the key "{problem.name}" is unknown here: take it out'


def missing_key(problem: Problem, schema: Schema) -> str:
    return f'the key "{problem.name}" is missing in this object: add it'


def key_beside(problem: Problem, schema: Schema) -> str:
    return f'the key "{problem.name}" does not stand beside "raw", which has the whole answer: take one of them out'


# ---- values

def other_type(problem: Problem, schema: Schema) -> str:
    node, wanted = problem.node, problem.wanted
    if node.kind == "word" and node.value is None:
        return "null is no value here: write one, or leave the key out"
    given = GIVEN.get(node.kind, node.text)
    return f"{TYPES[wanted]} belongs here, and here is {given}: {CHANGES[wanted](node, problem)}"


def change_to_number(node: Node, problem: Problem) -> str:
    digits = re.fullmatch(r"\s*(\d+)(?:\.0*|\s*s(?:econds?)?)?\s*", str(node.value))
    if node.kind == "string" and digits:
        return f"write {digits.group(1)} without quotes"
    if node.kind == "number":
        return f"write {max(0, round(node.value))}, without a fraction or an exponent"
    return "write its digits alone"


def change_to_word(node: Node, problem: Problem) -> str:
    meant = {"true": "true", "yes": "true", "1": "true", "false": "false", "no": "false", "0": "false"}
    word = meant.get(str(node.value).lower())
    return f"write {word} without quotes" if word else "write one of the two"


def change_to_text(node: Node, problem: Problem) -> str:
    if problem.is_of("route") or "routes" in problem.path:
        return f'write the whole address, such as "127.0.0.1:{node.text or 8000}"'
    if node.kind in ("object", "list"):
        return f"write it as one text: {shown(json.dumps(node.plain(), ensure_ascii=False))[:200]}"
    return f'write "{node.text}"'


def change_to_list(node: Node, problem: Problem) -> str:
    if node.kind == "object" and problem.path[-1] in ("headers", "cookies", "routes"):
        return f"write a list of pairs: {shown([list(pair) for pair in node.plain().items()])[:200]}"
    if node.kind == "string" and isinstance(problem.path[-1], int) and ":" in node.value:
        name, _, value = node.value.partition(":")
        return f"write a pair: {shown([name.strip(), value.strip()])}"
    if node.kind == "string" and isinstance(problem.path[-1], int):
        return f'each item is a pair in a list of its own, such as [["{node.value}", "..."]]'
    return "put it into brackets, [ and ]"


def change_to_object(node: Node, problem: Problem) -> str:
    if node.kind == "string" and problem.path and problem.path[-1] in ("fetch", "load"):
        kind = '"kind": "image", ' if problem.path[-1] == "load" else ""
        return f'write {{{kind}"url": {shown(node.value)}}}'
    if node.kind == "string" and problem.path[:1] == ["hsts"]:
        host = re.sub(r"^[a-z]+://|[/:].*$", "", str(node.value).lower())
        return f'write {{"host": {shown(host)}, "subdomains": true, "until": 31536000}}'
    if node.kind == "list" and problem.path[-1:] in (["sees"], ["has"]):
        names = [one.value for one in node.items if isinstance(one.value, str)] or ["X-Total"]
        pairs = ", ".join(f"{shown(name)}: true" for name in names)
        return f"write {{{pairs[:200]}}}"
    if node.kind == "list" and len(node.items) == 1:
        return "take the brackets away"
    return "write its keys and values between { and }"


CHANGES = {"integer": change_to_number, "boolean": change_to_word, "string": change_to_text, "array": change_to_list,
           "object": change_to_object}


def other_word(problem: Problem, schema: Schema) -> str:
    given = problem.node
    if given.kind == "word" and given.value is None:
        return "null is no value here: write one, or leave the key out"
    told = given.text or GIVEN[given.kind]
    texts = [one for one in problem.wanted if isinstance(one, str) and one]
    meant = nearest(given.value, texts) if given.kind == "string" and texts else None
    if problem.path[-1:] == ["credentials"] and given.value in (True, False):
        word = "include" if given.value else "omit"
        return f'{told} is none of the words that may stand here: write "{word}"'
    if problem.path and problem.path[-1] == "format":
        return f"{told} is no format: write 1, or 2"
    if meant is not None:
        return f"{told} is none of the words that may stand here: write {shown(meant)}"
    listed = ", ".join(map(shown, texts or problem.wanted))
    return f"{told} is none of the words that may stand here: write one of {listed}"


def other_number(problem: Problem, schema: Schema) -> str:
    least, most = problem.wanted
    given = problem.node.value
    return f"{given} is too {'small' if given < least else 'great'}: write a number from {least} to {most}"


def other_length(problem: Problem, schema: Schema) -> str:
    (least, most), count = problem.wanted, len(problem.node.items)
    if (least, most) == (2, 2):
        here = "is one" if count == 1 else f"are {count}"
        return f"a pair has two parts, and here {here}: write a list of two"
    if most is None or count < least:
        return f"at least {least} belong here, and these are {count}"
    return f"at most {most} may stand here, and these are {count}: take some out"


def other_form(problem: Problem, schema: Schema) -> str:
    keys = [key.value for key, _ in problem.node.members]
    if problem.is_of("header_value"):
        return "this is no value of a header: write it as a text, or true where any will do"
    if problem.is_of("request") or problem.is_of("sent"):
        return 'this is no request: write "PUT /x", or {"request": "PUT /x", "has": {"Cookie": true}}'
    if problem.path[-1:] == ["upgraded"]:
        return ('these are no URLs: write one, such as "https://b.test/logo.png mixed", a list of them, or [] where '
                "there is no upgrade")
    if problem.is_of("urls"):
        return 'these are no URLs: write each behind what loads it, such as "script https://cdn.example/app.js"'
    if problem.is_of("outcome"):
        return 'this is none of the forms that may stand here: write a result in words, or {"result": "read"}'
    commands = [key for key in keys if key in ("fetch", "load", "wait", "repeat", "if")]
    if problem.is_of("condition"):
        return 'this is no condition: write ["ok"], ["error"], ["type", "cors"], ["status", 404] or ["body", "done"]'
    if len(commands) > 1:
        return f"a command has one of the keys {' and '.join(commands)} alone: write a command for each"
    if "url" in keys:
        return 'this is no command: put it into one, {"fetch": {"url": ..}}'
    return "this is no command: it has one of the keys fetch, load, wait, repeat and if"


# ---- texts

def other_text(problem: Problem, schema: Schema) -> str:
    """A text that does not fit the form of its kind."""
    value, path = problem.node.value, problem.path
    for name, advice in ADVICE.items():
        if problem.is_of(name):
            return advice(value, problem)
    if value == "" and path[:1] == ["expect"]:
        return "this text is empty: write what is meant, or leave its key out"
    if path[-1] in ("url", "top"):
        return advice_on_url(value)
    if path[-1] == "host":
        return advice_on_host(value)
    if path[-3:-2] == ["headers"] or path[-3:-2] == ["cookies"]:
        return advice_on_header(value, path[-1])
    return "this text is not as it must be"


def advice_on_origin(value: str, problem: Problem) -> str:
    bare = re.fullmatch(r"([A-Za-z][A-Za-z0-9+.-]*)://([^/?#]*@)?([^/?#@:]*|\[[^\]]*\])(:\d*)?([/?#].*)?", value)
    if bare is None:
        if "://" in value or not re.fullmatch(r"[A-Za-z0-9.-]+(:\d+)?/?", value):
            return 'this is no origin: write scheme, host and port alone, such as "https://b.test:8443"'
        return f"the scheme is missing in this origin: write {shown('https://' + value.rstrip('/').lower())}"
    scheme, user, host, port, rest = bare.groups()
    default = {"http": ":80", "https": ":443"}.get(scheme.lower())
    if default is None:
        return f"an origin here is of http or https: write {shown('https://' + host.lower() + (port or ''))}"
    right = scheme.lower() + "://" + host.lower() + ("" if port in (None, ":", default) else port)
    wrong = [text for text, holds in [
        (f"the {rest} at its end", rest), ("its user name", user),
        ("the port that its scheme has anyhow", port == default),
        ("capital letters", (scheme + host).lower() != scheme + host)] if holds]
    return f"an origin is written without {' and '.join(wrong) or 'this'}: write {shown(right)}"


def advice_on_host(value: str) -> str:
    right = re.sub(r"^[a-z]+://|[:/].*$", "", value.lower())
    right = right if "." in right and not re.fullmatch(r"[0-9.]+", right) else "b.test"
    return f"a known host is a domain alone, in lower case, no address and not localhost: write {shown(right)}"


def advice_on_header(value: str, part: int) -> str:
    if part == 0:
        name = re.sub(r"[^!#$%&'*+\-.^_`|~0-9A-Za-z]", "", value)
        return f"a header's name has no blank, colon or line end: write {shown(name or 'X-A')}"
    right = re.sub(r"[\r\n\0]+", " ", value).strip(" \t")
    return f"a header's value has no blank at its ends, and no line end or zero byte: write {shown(right)}"


def advice_on_template(value: str, problem: Problem) -> str:
    found = there(re.search(r"\$\{[^}]*\}?", value)).group()
    return found + " is no template: there are ${status}, ${type}, ${url}, ${body} and ${header:NAME}"


def advice_on_url(value: str) -> str:
    host = re.match(r"(localhost|[\w.-]*\.[\w.-]*|\[[\da-f:]+\]):\d", value, re.I)
    if host:  # where a scheme stands else
        scheme = "http://" if re.match(r"localhost|[\d.]+$|\[", host.group(1), re.I) else "https://"
        return f"the scheme is missing in this URL: write {shown(scheme + value)}"
    if re.match(r"[A-Za-z][A-Za-z0-9+.-]*:", value):
        url = re.sub(r"^[A-Za-z0-9+.-]+:/*", "https://", value)
        return f"a document's URL is of http or https: write {shown(url)}"
    start = "https://" if re.match(r"/*[a-z0-9-]+\.", value) else "https://a.test/"
    return f"a document's URL is a whole one: write {shown(start + value.lstrip('/'))}"


ADVICE = {"origin": advice_on_origin, "template": advice_on_template}
SENTENCES = {"unknown": unknown_key, "missing": missing_key, "beside": key_beside, "type": other_type,
             "word": other_word, "number": other_number, "length": other_length, "form": other_form, "text": other_text}
