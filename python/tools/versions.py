"""In which version each export of the shared library came in: embed/libfiorrudda.map, the linker's script, tells it,
and an export that stands there is never lost, since programs link to it. debian/libfiorrudda1.symbols says the same to
Debian's tools."""
from __future__ import annotations

import pathlib
import re
from typing import Iterator

from fiorrudda.places import ROOT
from tools.names import Fault

TOP = pathlib.Path(ROOT)
MAP = TOP / "embed/libfiorrudda.map"
SYMBOLS = TOP / "debian/libfiorrudda1.symbols"
NODE = re.compile(r"^FIORRUDDA_(\d+\.\d+) \{\n(.*?)^\}", re.M | re.S)
HEADER = "# The exports by the version in which each came in. Written by embed/header: do not edit.\n"

Nodes = dict[str, list[str]]


def known() -> Nodes:
    """The versions with their exports, the oldest first, as they were written last."""
    text = MAP.read_text("utf-8") if MAP.is_file() else ""
    return {version: re.findall(r"^ +(fiorrudda_\w+);$", body, re.M) for version, body in NODE.findall(text)}


def with_new(exports: list[str], version: str) -> Nodes:
    """The same, with the exports that are new in this version."""
    nodes = known()
    old = [name for names in nodes.values() for name in names]
    lost = sorted(set(old) - set(exports))
    if lost:
        raise Fault(f"{lost[0]} is exported no more, and programs that are built link to it")
    new = sorted(set(exports) - set(old))
    if new:
        at = ".".join(version.split(".")[:2])
        nodes[at] = sorted(nodes.get(at, []) + new)
    return nodes


def as_map(nodes: Nodes) -> str:
    parts, before = [HEADER], ""
    for version, names in nodes.items():
        hidden = "" if before else "local:\n    *;\n"
        listed = "".join(f"    {name};\n" for name in names)
        parts.append(f"FIORRUDDA_{version} {{\nglobal:\n{listed}{hidden}}}{before};\n")
        before = f" FIORRUDDA_{version}"
    return "".join(parts)


def as_symbols(nodes: Nodes) -> str:
    lines = ["libfiorrudda.so.1 libfiorrudda1 #MINVER#", "* Build-Depends-Package: libfiorrudda-dev"]
    for version, names in nodes.items():
        lines += [f" {name}@FIORRUDDA_{version} {version}.0" for name in (f"FIORRUDDA_{version}", *names)]
    return "".join(f"{line}\n" for line in lines)


def written(exports: list[str], version: str) -> Iterator[tuple[pathlib.Path, str]]:
    nodes = with_new(exports, version)
    yield MAP, as_map(nodes)
    yield SYMBOLS, as_symbols(nodes)
