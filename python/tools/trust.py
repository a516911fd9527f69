"""Says whether docs/TRUST.md names all that the sources show to be trusted, and nothing that they do not show.

    bin/trust         fails where an item is not named, with its file and line
    bin/trust list    prints each item with the places where it stands

The page has rows for each kind of item. The first cell has the kind, and behind a comma what tells its rows apart; the
second names the items between backticks, and a `*` in a name stands for any letters."""
from __future__ import annotations

import argparse
import ast
import fnmatch
import functools
import os
import pathlib
import re
import sys
from collections.abc import Callable, Iterator
from typing import NamedTuple

from fiorrudda import places
from tools import crates as known_crates

ROOT = pathlib.Path(places.ROOT)
PAGE = "docs/TRUST.md"
# Folders that have no source of this repository.
NO_SOURCES = {"out", "__pycache__", "node_modules"}
# What Python's own library reads of the environment, by the call that reads it.
READ_BY_LIBRARY = {"ssl.create_default_context": ["SSL_CERT_FILE", "SSL_CERT_DIR"], "webbrowser.open": ["BROWSER"]}


class Item(NamedTuple):
    name: str
    path: str
    line: int


# ---- the sources

def files(*folders: str) -> Iterator[pathlib.Path]:
    """The files below folders of the repository, in order."""
    for folder in folders:
        for place, below, names in os.walk(ROOT / folder):
            below[:] = sorted(name for name in below if name not in NO_SOURCES and not name.startswith("."))
            yield from (pathlib.Path(place) / name for name in sorted(names))


@functools.lru_cache(None)
def text_of(path: pathlib.Path) -> str:
    try:
        return path.read_text("utf-8")
    except UnicodeDecodeError:
        return ""


def told(path: pathlib.Path) -> str:
    return path.relative_to(ROOT).as_posix()


def crates() -> dict[str, tuple[int, list[str]]]:
    """What each crate stands on, with its line in crates.txt."""
    return {crate.name: (crate.line, crate.below) for crate in known_crates.known()}


@functools.lru_cache(None)
def code() -> list[tuple[pathlib.Path, str]]:
    """What is shipped of the crates, without comments and tests: each file and its text."""
    paths = [path for name in crates() for path in files(f"crates/{name}/src")]
    shipped = [path for path in paths if path.suffix == ".rt" and path.name != "tests.rt"]
    return [(path, re.sub("//.*", "", text_of(path))) for path in shipped]


def crate_of(path: pathlib.Path) -> str:
    return path.relative_to(ROOT / "crates").parts[0]


def file_of(path: pathlib.Path) -> str:
    return path.relative_to(ROOT / "crates").as_posix()


def in_code(pattern: str, name: Callable[[pathlib.Path], str]) -> Iterator[Item]:
    """An item for each place of the crates' code in which a pattern stands."""
    for path, text in code():
        for found in re.finditer(pattern, text):
            yield Item(name(path), told(path), text.count("\n", 0, found.start()) + 1)


# ---- what is looked for

def ported_crates() -> Iterator[Item]:
    known = crates()
    for number, below in known.values():
        yield from (Item(name, "crates.txt", number) for name in below if name not in known)


def mains() -> Iterator[Item]:
    return in_code(r"\bfn main\(", crate_of)


def system_calls() -> Iterator[Item]:
    """Where std's modules of the outside are used, but in a program's main file, which a row of its own names."""
    values = r"(?:net::\{Ipv4Addr, Ipv6Addr\}|time::Duration|process::ExitCode);"  # no calls
    found = in_code(rf"\buse std::(?!{values})(?:env|fs|io|net|process|time)\b", crate_of)
    return (item for item in found if not item.path.endswith("/src/main.rt"))


def exports() -> Iterator[Item]:
    return in_code(r"\bno_mangle\b", crate_of)


def unsafe_code() -> Iterator[Item]:
    return in_code(r"\bunsafe (?:\{|fn\b|impl\b|extern\b)", file_of)


def waiting_calls() -> Iterator[Item]:
    """Where a bound of a handle lets a call not return."""
    return in_code(r"(?<!:)[:+] (?:Wait|Threads)\b", crate_of)


def statuses() -> Iterator[Item]:
    for path in scripts():
        for number, line in enumerate(text_of(path).splitlines(), 1):
            if re.search(r"\b(?:exit|exit\(|return|status=) ?125\b", line):
                yield Item(told(path), told(path), number)


# ---- the environment

def scripts() -> Iterator[pathlib.Path]:
    """The scripts and modules of the repository that are no crate's."""
    folders = [path.name for path in sorted(ROOT.iterdir()) if path.is_dir() and not path.name.startswith(".")]
    found = files(*(name for name in folders if name not in {*NO_SOURCES, "crates"}))
    return (path for path in found if language(path))


def language(path: pathlib.Path) -> str:
    """`python`, `shell` or `node`, by the ending or the first line; else nothing."""
    by_ending = {".py": "python", ".sh": "shell", ".bash": "shell", ".js": "node", ".mjs": "node"}
    if path.suffix:
        return by_ending.get(path.suffix, "")
    first = text_of(path).partition("\n")[0]
    found = re.match(r"#!.*\b(python3|bash|sh|node)\b", first)
    return {"python3": "python", "bash": "shell", "sh": "shell", "node": "node"}[found[1]] if found else ""


def environment() -> Iterator[Item]:
    readers = {"python": read_by_python, "shell": read_by_shell, "node": read_by_node}
    for path in scripts():
        for name, line in readers[language(path)](text_of(path)):
            yield Item(name, told(path), line)


def read_by_python(text: str) -> Iterator[tuple[str, int]]:
    may_read = re.search("|".join(["environ", "getenv", *READ_BY_LIBRARY]), text)
    for node in ast.walk(ast.parse(text)) if may_read else ():
        for key in keys_read(node):
            yield (key.value if isinstance(key, ast.Constant) else ast.unparse(key)), key.lineno
        if isinstance(node, ast.Call):
            yield from ((name, node.lineno) for name in READ_BY_LIBRARY.get(dotted(node.func), []))


def keys_read(node: ast.AST) -> list[ast.expr]:
    """What is looked up in os.environ: a name that is written out, or another expression."""
    if isinstance(node, ast.Call) and dotted(node.func) in {"environ.get", "getenv"}:
        return node.args[:1]
    if isinstance(node, ast.Subscript) and isinstance(node.ctx, ast.Load) and dotted(node.value) == "environ":
        return [node.slice]
    if isinstance(node, ast.Compare) and "environ" in map(dotted, node.comparators):
        return [node.left]
    return []


def dotted(node: ast.expr) -> str:
    """A name such as `webbrowser.open`, of any depth and without `os`; nothing of another expression."""
    if isinstance(node, ast.Name):
        return node.id
    if isinstance(node, ast.Attribute):
        return f"{dotted(node.value)}.{node.attr}".removeprefix("os.")
    return ""


def read_by_shell(text: str) -> Iterator[tuple[str, int]]:
    """Words in capitals that the script itself does not set, or for which it has another value."""
    own = set(re.findall(r"(?:^|[\s;(])([A-Z][A-Z0-9_]*)=", text))
    for number, line in enumerate(text.splitlines(), 1):
        code = "" if line.lstrip().startswith("#") else line
        for name, other in re.findall(r"\$\{?([A-Z][A-Z0-9_]*)\b(:?[-+?=])?", code):
            if not name.startswith("BASH") and (other or name not in own):
                yield name, number


def read_by_node(text: str) -> Iterator[tuple[str, int]]:
    for number, line in enumerate(text.splitlines(), 1):
        yield from ((name, number) for name in re.findall(r"\bprocess\.env\.([A-Z][A-Z0-9_]*)", line))


# What finds the items of each kind.
KINDS: dict[str, Callable[[], Iterator[Item]]] = {
    "ported crates": ported_crates,
    "`main`": mains,
    "system calls": system_calls,
    "exports": exports,
    "`unsafe`": unsafe_code,
    "status 125": statuses,
    "environment": environment,
    "`Wait`": waiting_calls,
}


# ---- the page

class Named(NamedTuple):
    kind: str
    name: str
    line: int


def named(text: str) -> Iterator[Named]:
    """What the rows of the page name."""
    for number, line in enumerate(text.splitlines(), 1):
        cells = [cell.strip() for cell in line.split("|")]
        if len(cells) > 3 and not cells[0]:
            kind = cells[1].partition(",")[0]
            yield from (Named(kind, name, number) for name in re.findall(r"`([^`]+)`", cells[2]))


def complaints(page: list[Named]) -> Iterator[str]:
    for kind, find in KINDS.items():
        first = {item.name: item for item in reversed(list(find()))}
        rows = [row for row in page if row.kind == kind]
        for item in sorted(first.values()):
            if not any(fnmatch.fnmatchcase(item.name, row.name) for row in rows):
                yield f"{item.path}:{item.line}: {kind}: {PAGE} does not name {item.name}"
        for row in rows:
            if not fnmatch.filter(first, row.name):
                yield f"{PAGE}:{row.line}: {kind}: no source has {row.name}"


def listed() -> Iterator[str]:
    for kind, find in KINDS.items():
        for item in find():
            yield f"{item.path}:{item.line}: {kind}: {item.name}"


def words() -> argparse.Namespace:
    given = argparse.ArgumentParser(prog="bin/trust", description=__doc__,
                                    formatter_class=argparse.RawDescriptionHelpFormatter)
    given.add_argument("what", nargs="?", choices=["list"], help="print each item")
    return given.parse_args()


def main() -> int:
    if words().what == "list":
        print("\n".join(listed()))
        return 0
    page = ROOT / PAGE
    if not page.is_file():
        sys.exit(f"bin/trust: there is no {PAGE}")
    found = list(complaints(list(named(text_of(page)))))
    for line in found:
        print(line, file=sys.stderr)
    return 1 if found else 0

