"""An entry of the table of lints."""
from __future__ import annotations

import functools
import re
from typing import TYPE_CHECKING

if TYPE_CHECKING:
    from collections.abc import Callable, Collection
    from typing import Any

    from fiorrudda.commands.shapes import Found, Thing

# Where a header or an option stands.
DOCUMENT, ANSWER, COMMAND = "document", "answer", "command"
LONGEST = 120  # characters of what is quoted


def filled(text: str, it: Thing, meant: Found) -> str:
    """A sentence with what stands for its names; of what is long the beginning."""
    def value(found: re.Match[str]) -> str:
        first, *names = found.group(1).split(".")
        told = str(functools.reduce(getattr, names, meant if first == "meant" else it))
        return told if len(told) <= LONGEST else told[:LONGEST] + ".."
    return re.sub(r"\{([\w.]+)\}", value, text)


class Lint:
    """`looks_at` is what it is asked of: a header by its name, or one of the words of reading.py. `find` gives None or
    False of what is right, else what stands for `{meant}` in its sentence, or True where nothing does. `wrong` says
    what is wrong, and `fix` what to write; `{it}` is what was looked at. `among` says where it is looked for. One that
    `is_last` is said where no other of the same thing is. One that `is_note` is no fault of the text: a play does not
    look at it."""

    def __init__(self, name: str, looks_at: str, find: Callable[[Any], Found], wrong: str, fix: str,
                 among: tuple[str, ...] = (DOCUMENT, ANSWER), is_last: bool = False, is_note: bool = False) -> None:
        self.name = name
        self.looks_at = looks_at
        self.find = find
        self.wrong = wrong
        self.fix = fix
        self.among = among
        self.is_last = is_last
        self.is_note = is_note

    def sentence(self, it: Thing) -> str | None:
        """What is to be said of a thing, or None."""
        found = self.find(it)
        if found is None or found is False:
            return None
        return filled(f"{self.wrong}: {self.fix}", it, found)

    def line(self) -> str:
        """As `bin/why --lints` lists it: words in capitals stand for what is told of the text. `{meant.other}` is there
        for some texts alone."""
        sentence = (f"{self.wrong}: {self.fix}").replace("{meant.other}", "")
        text = re.sub(r"\{(?:\w+\.)*(\w+)\}", lambda found: found.group(1).upper(), sentence)
        return f"{self.name} ({self.looks_at}): {text}"


class Finding:
    """What a lint says of a thing, and where that stands: the number of a header or the key of an option, and in
    `header` the header's name or that key; `text` is the part of the value that it is said of, or None, and `start` its
    place there, where it is known. `url` is that of the document, of what was answered, or of what is asked."""

    def __init__(self, lint: Lint, it: Thing, sentence: str) -> None:
        self.lint = lint
        self.at = it.at
        self.header = it.header
        self.is_name = lint.looks_at == "a header's name"
        self.text = getattr(it, "text", None)
        self.start = getattr(it, "start", None)
        self.sentence = sentence
        self.url = ""
        self.value = it.whole_value

    @property
    def slip(self) -> tuple[str, str, str]:
        """What is the same of findings that one slip makes: in one text, be it sent once or often, by one lint."""
        return self.lint.name, self.header.lower(), self.value

    def told(self) -> str:
        """The sentence, with what it is said of and the lint's name."""
        return f"{self.header} of {shown(self.url)}: {self.sentence} ({self.lint.name})"


def shown(url: str) -> str:
    return url if len(url) <= LONGEST else url[:LONGEST] + ".."


@functools.lru_cache(4096)
def nearest(word: str, known: Collection[str]) -> str | None:
    """The one of known words that is meant, or None."""
    import difflib  # it is read where a word is unknown

    def plain(text: str) -> str:
        return re.sub(r"[-_ ]", "", text).lower()
    names = {plain(one): one for one in known}
    found = difflib.get_close_matches(plain(word[:64]), list(names), 1, 0.75)
    return names[found[0]] if found else None


def write(meant: Found, otherwise: str = "take it out") -> str:
    """What to write: the word that is meant, where there is one."""
    return f"write `{meant}`" if meant else otherwise
