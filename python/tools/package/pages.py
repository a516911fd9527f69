"""Writes the man pages of the programs, the commands and the formats, and bash completion of the first two:

    package/pages FOLDER      as man/man1/fetchplay.1 and bash-completion/completions/fetchplay

contents.py lists them; the pages are made of the documents that it names."""
from __future__ import annotations

import pathlib
import sys
from typing import Iterator, Union

from fiorrudda.places import ROOT
from fiorrudda.playground import markdown
from tools.package import changes, contents, man

COMPLETION = """# bash completion of %(name)s
complete %(files)s-W '%(words)s' %(name)s
"""


Given = Union[contents.Command, contents.Format]


def write(path: pathlib.Path, text: str) -> None:
    path.parent.mkdir(parents=True, exist_ok=True)
    path.write_text(text, "utf-8")


def commands() -> dict[str, contents.Command]:
    """The programs and the scripts by the names of their pages."""
    return {**{it.name: it for it in contents.PROGRAMS}, **{f"fiorrudda-{it.name}": it for it in contents.SCRIPTS}}


def pages() -> dict[tuple[str, int], Given]:
    """What has a page, by its name and its section."""
    return {**{(name, 1): it for name, it in commands().items()}, **{(it.name, 5): it for it in contents.FORMATS}}


def parts(given: Given) -> Iterator[man.Part]:
    """The documents, each under a title: its own, or `Description` where there is one alone."""
    for number, name in enumerate(given.documents):
        blocks = markdown.blocks((pathlib.Path(ROOT) / name).read_text("utf-8"))
        title = markdown.plain(blocks[0][2]) if len(given.documents) > 1 else "Description"
        yield title, given.synopsis if number == 0 else [], blocks[1:]


def write_page(folder: pathlib.Path, name: str, section: int, given: Given, others: list[tuple[str, int]]) -> None:
    version, day, _ = changes.entries()[0]
    text = man.page(name, section, given.what, version, day, list(parts(given)), others)
    write(folder / f"man/man{section}/{name}.{section}", text)


def write_completion(folder: pathlib.Path, name: str, given: contents.Command) -> None:
    takes_files = any(word in given.synopsis[0] for word in ("SCENARIO]", "TEST"))
    text = COMPLETION % {"name": name, "files": "-f " * takes_files, "words": " ".join(given.words)}
    write(folder / "bash-completion/completions" / name, text)


def main() -> None:
    if len(sys.argv) != 2:
        sys.exit("package/pages takes a folder")
    folder, found = pathlib.Path(sys.argv[1]), pages()
    for (name, section), given in found.items():
        write_page(folder, name, section, given, [other for other in found if other != (name, section)])
    for name, command in commands().items():
        write_completion(folder, name, command)
