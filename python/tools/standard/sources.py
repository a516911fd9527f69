"""The definitions of crates/*/specs, the functions of crates/*/src with their contracts, and the edits that must fail:
where each stands, what it says, and which definitions it cites."""
from __future__ import annotations

import functools
import pathlib
import re
from collections.abc import Iterator
from typing import NamedTuple

from fiorrudda import places

ROOT = pathlib.Path(places.ROOT)
CRATES = ROOT / "crates"
WORD = re.compile(r"(?<![\w.])[A-Za-z_]\w*(?:\.[A-Za-z_]\w*)*")
# `use Rattle.CRATE.specs.FILE.{a, b as c}`, `use Rattle.CRATE.specs.FILE as spec`; FILE may be a path.
USED = re.compile(r"\buse Rattle\.(\w+)\.specs\.([\w.]+?)(?:\.\{([^}]*)\}| as (\w+))")


class Definition(NamedTuple):
    """`name` is CRATE/FILE/NAME, as the table has it, and `cites` has such names."""

    name: str
    path: str
    line: int
    comment: str
    text: str
    cites: frozenset[str]


class Function(NamedTuple):
    """The same of a function: `text` ends with its contract, and `cites` is what the contract cites."""

    name: str
    path: str
    line: int
    comment: str
    text: str
    cites: frozenset[str]


class Change(NamedTuple):
    """What an edit writes in place of what, where; `within` is the function or definition in which it stands."""

    path: str
    line: int
    within: str
    old: str
    new: str


class Edit(NamedTuple):
    """An edit that must fail, as CRATE/NAME."""

    name: str
    path: str
    changes: list[Change]


def told(path: pathlib.Path) -> str:
    return path.relative_to(ROOT).as_posix()


def sources(folder: str, ending: str) -> list[pathlib.Path]:
    """The files of a folder of every crate, in order."""
    return sorted(path for path in CRATES.glob(f"*/{folder}/**/*{ending}") if path.name != "tests.rt")


def place_of(path: pathlib.Path, folder: str) -> str:
    """CRATE/FILE of a file: `fetch_rules/Switch`."""
    crate, _, rest = path.relative_to(CRATES).as_posix().partition(f"/{folder}/")
    return f"{crate}/{rest.rpartition('.')[0]}"


# ---- the words of other files

def names_used(text: str) -> tuple[dict[str, str], dict[str, str]]:
    """Which definition a name of this text means, and which file an alias before a dot does."""
    names: dict[str, str] = {}
    aliases: dict[str, str] = {}
    for crate, file, listed, alias in USED.findall(text):
        place = f"{crate}/{file.replace('.', '/')}"
        if alias:
            aliases[alias] = place
        for part in filter(str.strip, listed.split(",")):
            name, _, called = part.strip().partition(" as ")
            names[called or name] = f"{place}/{name}"
    return names, aliases


@functools.lru_cache(None)
def handed_on() -> dict[str, str]:
    """What the files that bring in words of other crates hand on, as `fetch_answers/Words`."""
    found = {}
    for path in sources("specs", ".antt"):
        lines = "\n".join(line for line in path.read_text("utf-8").split("\n") if line.startswith("pub use "))
        found.update({f"{place_of(path, 'specs')}/{name}": meant for name, meant in names_used(lines)[0].items()})
    return found


def meant_by(name: str) -> str:
    """The definition behind a name that another file hands on."""
    while name in handed_on():
        name = handed_on()[name]
    return name


def cited(text: str, own: dict[str, str], names: dict[str, str], aliases: dict[str, str]) -> frozenset[str]:
    found = set()
    for word in WORD.findall(text):
        first, _, rest = word.partition(".")
        if first in aliases and rest:
            found.add(meant_by(f"{aliases[first]}/{rest.split('.')[0]}"))
        elif first in names:
            found.add(meant_by(names[first]))
        elif first in own:
            found.add(own[first])
    return frozenset(found)


# ---- definitions

class Block(NamedTuple):
    name: str
    line: int
    comment: str
    text: str


def blocks(text: str, begins: re.Pattern[str]) -> Iterator[Block]:
    """The blocks between empty lines that begin with a definition, behind comments."""
    line = 1
    for block in text.split("\n\n"):
        lines = block.split("\n")
        at = next((at for at, one in enumerate(lines) if not one.startswith("--")), len(lines))
        found = begins.match(lines[at]) if at < len(lines) else None
        if found:
            comment = " ".join(one[2:].strip() for one in lines[:at])
            yield Block(found[1], line + at, comment, "\n".join(lines[at:]).rstrip())
        line += len(lines) + 1


DEFINES = re.compile(r"(?:abbrev pub|pub record) (\w+)")
DEFINED = re.compile(r"(?m)^" + DEFINES.pattern)


def definitions_in(path: pathlib.Path) -> Iterator[Definition]:
    text, place = path.read_text("utf-8"), place_of(path, "specs")
    found = list(blocks(text, DEFINES))
    own = {block.name: f"{place}/{block.name}" for block in found}
    names, aliases = names_used(text)
    for block in found:
        cites = cited(block.text, own, names, aliases) - {own[block.name]}
        yield Definition(own[block.name], told(path), block.line, block.comment, block.text, cites)


@functools.lru_cache(None)
def definitions() -> dict[str, Definition]:
    return {one.name: one for path in sources("specs", ".antt") for one in definitions_in(path)}


# ---- functions

FUNCTION = re.compile(r"(?m)^( *)((?:pub(?:\(crate\))? )?(?:const )?(?:unsafe )?(?:extern \"C\" )?fn (\w+))")


def functions_in(path: pathlib.Path) -> Iterator[Function]:
    text, place = path.read_text("utf-8"), place_of(path, "src")
    names, aliases = names_used(text)
    for found in FUNCTION.finditer(text):
        head = head_of(text[found.start():], found[1])
        contract = "\n".join(re.split(r"(?m)^ *(?=requires|ensures)", head, maxsplit=1)[1:])
        comment = comment_before(text[:found.start()])
        line = text.count("\n", 0, found.start()) + 1
        yield Function(f"{place}/{found[3]}", told(path), line, comment, undented(head, found[1]),
                       cited(contract, {}, names, aliases))


def head_of(text: str, indent: str) -> str:
    """A function from its name to its body, whose brace stands alone in a line where there is a contract."""
    lines: list[str] = []
    for line in text.split("\n"):
        if line in (indent + "{", indent + "{}"):
            break
        lines.append(line)
        if not has_contract(lines) and line.endswith((" {", " {}", ";")):
            return "\n".join(lines).rstrip(" {};")
    return "\n".join(lines).rstrip()


def has_contract(lines: list[str]) -> bool:
    return any(line.lstrip().startswith(("requires", "ensures")) for line in lines)


def undented(text: str, indent: str) -> str:
    return "\n".join(line.removeprefix(indent) for line in text.split("\n"))


def comment_before(text: str) -> str:
    lines: list[str] = []
    for line in reversed(text.rstrip("\n ").split("\n")):
        if not line.strip().startswith(("//", "#[")):
            break
        if line.strip().startswith("//"):
            lines.insert(0, line.strip().lstrip("/").strip())
    return " ".join(lines)


@functools.lru_cache(None)
def functions() -> list[Function]:
    return [one for path in sources("src", ".rt") for one in functions_in(path)]


@functools.lru_cache(None)
def proved() -> dict[str, list[Function]]:
    """The functions whose contracts cite a definition, by its name."""
    found: dict[str, list[Function]] = {}
    for one in functions():
        for name in one.cites:
            found.setdefault(name, []).append(one)
    return found


# ---- edits

def last_before(text: str, begins: re.Pattern[str], group: int) -> str:
    found = list(begins.finditer(text))
    return found[-1][group] if found else ""


def change_of(crate: str, file: str, old: str, new: str) -> Change:
    """A change, where the text that it replaces stands; line 0 where it stands nowhere."""
    path = CRATES / crate / file
    text = path.read_text("utf-8") if path.is_file() else ""
    at = text.find(old)
    if at < 0:
        return Change(f"crates/{crate}/{file}", 0, "", old, new)
    # A definition's own line may be what the change begins with.
    before = text[:at + len(old.split("\n")[0])]
    folder = file.split("/")[0]
    name = last_before(before, FUNCTION, 3) if folder == "src" else last_before(before, DEFINED, 1)
    return Change(told(path), text.count("\n", 0, at) + 1, f"{place_of(path, folder)}/{name}", old, new)


def edit_in(path: pathlib.Path) -> Edit:
    crate = path.relative_to(CRATES).parts[0]
    changes, file = [], ""
    text = path.read_text("utf-8")
    for key, value in re.findall(r"(?m)^(file|old|new): ?(.*(?:\n(?!file: |old: |new: ).+)*)", text):
        if key == "file":
            file = value.strip()
        elif key == "old":
            old = value
        else:
            changes.append(change_of(crate, file, old, value))
    return Edit(f"{crate}/{path.stem}", told(path), changes)


@functools.lru_cache(None)
def edits() -> dict[str, Edit]:
    found = (edit_in(path) for path in sorted(CRATES.glob("*/must-fail/*.edit")))
    return {edit.name: edit for edit in found}
