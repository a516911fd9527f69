"""Reads a JSON text to a tree whose nodes have their places, or says in one sentence what is wrong and what to change.

What is taken is what the program takes: RFC 8259 in UTF-8, nested no more than 127 deep. A place is a number of
characters from the beginning."""
from __future__ import annotations

import bisect
import functools
import re
from typing import TYPE_CHECKING

from fiorrudda.commands.there import there

if TYPE_CHECKING:
    from collections.abc import Callable, Sequence
    from typing import Any, NoReturn

DEEPEST = 127
BLANKS = re.compile(r"[ \t\n\r]*")
NUMBER = re.compile(r"-?(?:0|[1-9][0-9]*)(?:\.[0-9]+)?(?:[eE][-+]?[0-9]+)?")
WORD = re.compile(r"""[^\s{}\[\],:;"']+""")
SURROGATE = re.compile("[\ud800-\udfff]")
PLAIN = re.compile(r'[^"\\\x00-\x1f]*')
ESCAPE = re.compile(r'\\(?:["\\/bfnrt]|u[0-9a-fA-F]{4})')
WORDS = {"true": True, "false": False, "null": None}
MEANT = {"True": "true", "TRUE": "true", "yes": "true", "False": "false", "FALSE": "false", "no": "false"}
# An escape, or both of a surrogate pair.
ONE_CHARACTER = re.compile(r"\\u[dD][89abAB][0-9a-fA-F]{2}\\u[dD][c-fC-F][0-9a-fA-F]{2}|" + ESCAPE.pattern)
SHORT = {"b": "\b", "f": "\f", "n": "\n", "r": "\r", "t": "\t"}
CURLY = "\u201c\u201d\u201e\u201f\u00ab\u00bb"
SINGLE = "'`\u2018\u2019"
EXAMPLES = {"a scenario": '{"format": 1, "documents": []}', "a test": '{"scenario": "scenario.json", "expect": {}}'}


class Fault(Exception):
    """What is wrong at a place of the text, and what to change, in a sentence."""

    def __init__(self, place: int, sentence: str) -> None:
        super().__init__(sentence)
        self.place = place
        self.sentence = sentence


class Node:
    """A value of the text: `kind` is object, list, string, number or word. An object has `members`, pairs of a key's
    node and a value's; a list has `items`; any other has a `value`, and `text`, as it is written."""

    __slots__ = ("kind", "start", "end", "members", "items", "value", "text")

    def __init__(self, kind: str, start: int) -> None:
        self.kind = kind
        self.start = start
        self.end = start
        self.members: list[tuple[Node, Node]] = []
        self.items: list[Node] = []
        self.value: Any = None
        self.text = ""

    def is_whole(self) -> bool:
        """Whether it is a number that the program takes as a whole one."""
        return self.kind == "number" and not re.search(r"[.eE]", self.text) and self.text != "-0"

    def member(self, name: str) -> Node | None:
        """The value of a key; of one that comes twice the last one counts."""
        found = [value for key, value in self.members if key.value == name]
        return found[-1] if found else None

    def at(self, path: Sequence[int | str]) -> Node:
        """The value to which keys and numbers of items lead."""
        node: Any = self
        for word in path:
            node = node.items[word] if isinstance(word, int) else node.member(word)
        found: Node = node
        return found

    def place_of(self, index: int) -> int:
        """The place in the whole text of a character of a string's value."""
        ends, longer = escapes_of(self.text)
        return self.start + 1 + index + longer[bisect.bisect_right(ends, index)]

    def plain(self) -> Any:
        """The value as Python has it."""
        if self.kind == "object":
            return {key.value: value.plain() for key, value in self.members}
        if self.kind == "list":
            return [item.plain() for item in self.items]
        return self.value


@functools.lru_cache(16)
def escapes_of(text: str) -> tuple[list[int], list[int]]:
    """The numbers of the characters behind the escapes of a string, as it is written, and by how much it is longer
    there than its value: up to the first one, and behind each."""
    ends, longer = [], [0]
    for found in ONE_CHARACTER.finditer(text):
        ends.append(found.start() - longer[-1])
        longer.append(longer[-1] + len(found.group()) - 1)
    return ends, longer


def decoded(data: bytes) -> str:
    """The text of bytes."""
    if data[:2] in (b"\xff\xfe", b"\xfe\xff"):
        raise Fault(0, "this is UTF-16: save the file as UTF-8")
    if data[:3] == b"\xef\xbb\xbf":
        raise Fault(0, "the file begins with a byte order mark (BOM): save it as UTF-8 without one")
    try:
        return data.decode("utf-8")
    except UnicodeDecodeError as error:
        place = len(data[:error.start].decode("utf-8"))
        raise Fault(place, f"the byte 0x{data[error.start]:02x} is no UTF-8 here: save the file as UTF-8") from error


def place_of(text: str, at: int) -> tuple[int, int]:
    """The line and the column, from 1."""
    return text.count("\n", 0, at) + 1, at - text.rfind("\n", 0, at)


class Places:
    """Places of one text: its lines are looked for once, since many places of it may be told."""

    def __init__(self, text: str) -> None:
        self.starts = [0] + [found.end() for found in re.finditer("\n", text)]

    def of(self, at: int) -> tuple[int, int]:
        """The line and the column, from 1."""
        line = bisect.bisect_right(self.starts, at)
        return line, at - self.starts[line - 1] + 1


class Reader:
    def __init__(self, text: str) -> None:
        self.text = text
        self.at = 0
        self.depth = 0

    def whole(self, what: str) -> Node:
        if not self.sign():
            raise Fault(0, f"the file is empty: {what} is an object, such as {EXAMPLES[what]}")
        root = self.value()
        if self.sign() == ",":
            raise Fault(self.at, f"{what} ends before this comma: take out what follows")
        if self.sign():
            raise Fault(self.at, f"{what} ends before this: take out what follows, or a closing sign before it")
        return root

    def sign(self) -> str:
        """The next sign behind blanks; an empty text at the end."""
        self.at = there(BLANKS.match(self.text, self.at)).end()
        self.refuse_comment()
        return self.text[self.at:self.at + 1]

    def refuse_comment(self) -> None:
        if self.text.startswith(("//", "/*", "#"), self.at):
            raise Fault(self.at, "JSON has no comments: take this one out")

    def value(self) -> Node:
        sign = self.sign()
        if sign in ("{", "["):
            return self.nested(sign)
        if sign == '"':
            return self.string()
        if sign in CURLY or sign in SINGLE:
            self.refuse_quote(sign)
        return self.scalar(sign)

    def nested(self, sign: str) -> Node:
        self.depth += 1
        if self.depth > DEEPEST:
            raise Fault(self.at, f"lists and objects stand more than {DEEPEST} deep in each other here")
        node = self.object() if sign == "{" else self.list()
        self.depth -= 1
        return node

    def refuse_quote(self, sign: str) -> NoReturn:
        """What is in other quotes than double ones."""
        if not sign:
            raise Fault(len(self.text), "the text ends, and a value is missing")
        quotes = re.escape(SINGLE + CURLY)
        found = re.compile(rf"[{quotes}]([^\n{quotes}]{{0,60}})[{quotes}]").match(self.text, self.at)
        text = found.group(1).replace('"', '\\"') if found else None
        more = "" if text is None else f': write "{text}"'
        raise Fault(self.at, "a text stands in straight double quotes" + more)

    def scalar(self, sign: str) -> Node:
        node = Node("word", self.at)
        found = WORD.match(self.text, self.at)
        node.text = found.group() if found else ""
        node.end = found.end() if found else self.at
        if NUMBER.fullmatch(node.text):
            self.number(node)
        elif node.text in WORDS:
            node.value = WORDS[node.text]
        else:
            raise Fault(self.at, self.no_value(sign, node.text))
        self.at = node.end
        return node

    @staticmethod
    def number(node: Node) -> None:
        node.kind = "number"
        node.value = float(node.text)
        if node.value in (float("inf"), float("-inf")):
            raise Fault(node.start, "this number is greater than any that is read")
        if node.is_whole():  # and so of no more digits than Python takes
            node.value = int(node.text)

    @staticmethod
    def no_value(sign: str, word: str) -> str:
        """What stands where a value belongs."""
        if sign in ("}", "]"):
            return f"a value is missing before {sign}: write one, or take out what leads to it"
        if sign == ",":
            return "a value is missing before this comma: take out the comma, or write a value"
        if sign == ":":
            return "a colon has no place here: a key, in double quotes, stands before it"
        if word in MEANT:
            return f"{word} is no value: write {MEANT[word]}"
        if word in ("None", "undefined", "nil", "NaN", "Infinity", "NULL", "Null"):
            return f"{word} is no value: leave the key out"
        if re.match(r"[-+.0-9]", word):
            digits = re.sub(r"\D", "", word).lstrip("0") or "0"
            return f"{word} is no number as JSON has it: write its digits alone, such as {digits}"
        return f'a text stands in double quotes: write "{word}"'

    # ---- objects and lists

    def object(self) -> Node:
        node = Node("object", self.at)
        self.at += 1
        self.parts(node, "}", lambda: node.members.append(self.pair()))
        return node

    def list(self) -> Node:
        node = Node("list", self.at)
        self.at += 1
        self.parts(node, "]", lambda: node.items.append(self.value()))
        return node

    def parts(self, node: Node, close: str, read: Callable[[], None]) -> None:
        """All parts up to the closing sign."""
        if self.sign() != close:
            read()
            while self.goes_on(node, close):
                read()
        self.at += 1
        node.end = self.at

    def goes_on(self, node: Node, close: str) -> bool:
        """Whether a comma follows, and a part behind it; else the closing sign does."""
        before = self.at
        sign = self.sign()
        if sign == close:
            return False
        if sign == ",":
            comma = self.at
            self.at += 1
            self.refuse_comma(comma, close)
            return True
        raise Fault(before if sign and sign not in "}]" else self.at, self.not_closed(node, sign, close))

    def refuse_comma(self, comma: int, close: str) -> None:
        sign = self.sign()
        if sign == close:
            raise Fault(comma, f"no comma stands before {close}: take it out")
        if sign == ",":
            raise Fault(self.at, "two commas stand here, with nothing between them: take one out")

    def not_closed(self, node: Node, sign: str, close: str) -> str:
        opening = self.text[node.start]
        line = place_of(self.text, node.start)[0]
        if not sign:
            return f"the text ends, and the {opening} of line {line} is not closed: add {close}"
        if sign in "}]":
            return f"{sign} does not close the {opening} of line {line}: write {close} before it, or in its place"
        if sign == ";":
            return "a comma belongs here, and no ;"
        return f"a comma is missing here, before {self.shown()}"

    def shown(self) -> str:
        """What stands here, as it is told: a text, or what goes up to a blank or a sign."""
        return there(re.compile(r'"[^"\n]{0,40}"|[^\s,:{}\[\]]{1,40}|.').match(self.text, self.at)).group()

    def pair(self) -> tuple[Node, Node]:
        sign = self.sign()
        if sign in CURLY or sign in SINGLE:
            self.refuse_quote(sign)
        if sign != '"':
            word = WORD.match(self.text, self.at)
            raise Fault(self.at, f'a key stands in double quotes: write "{word.group()}"' if word
                        else f"a key in double quotes belongs here, not {self.shown()}")
        key = self.string()
        sign = self.sign()
        if sign == ":":
            self.at += 1
            return key, self.value()
        if sign == "=":
            raise Fault(self.at, "a colon stands between a key and its value, and no =")
        raise Fault(key.end, f'a colon and a value are missing behind the key "{key.value}"')

    # ---- texts

    def string(self) -> Node:
        node = Node("string", self.at)
        pieces = []
        self.at += 1
        while True:
            found = PLAIN.match(self.text, self.at)
            pieces.append(there(found).group())
            self.at = there(found).end()
            if self.text.startswith('"', self.at):
                break
            pieces.append(self.escaped(node))
        self.at += 1
        node.end = self.at
        node.text = self.text[node.start:node.end]
        node.value = "".join(pieces).encode("utf-16", "surrogatepass").decode("utf-16", "surrogatepass")
        if SURROGATE.search(node.value):
            raise Fault(node.start, "this text has half of a surrogate pair in it: write the character itself")
        return node

    def escaped(self, node: Node) -> str:
        found = ESCAPE.match(self.text, self.at)
        if found is None:
            raise Fault(*self.no_text(node))
        self.at = found.end()
        word = found.group()[1:]
        return chr(int(word[1:], 16)) if word[0] == "u" else SHORT.get(word, word)

    def no_text(self, node: Node) -> tuple[int, str]:
        """What ends a text, or has no place in it."""
        sign = self.text[self.at:self.at + 1]
        if sign == "\\":
            escape = self.text[self.at:self.at + 2].rstrip("\n")
            return self.at, f"{escape} is no escape: write \\\\ for a backslash"
        if sign == "\t":
            return self.at, "a tab stands in this text: write \\t for it"
        if sign and sign not in "\r\n":
            return self.at, f"a control character stands in this text: write \\u{ord(sign):04x} for it"
        return node.start, ("this text is not closed in its line: add a double quote, or write \\n for a line break in "
                            "it")


def read(text: str, what: str = "a scenario") -> Node:
    """The tree of a text."""
    return Reader(text).whole(what)
