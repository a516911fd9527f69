"""The static libraries of crates.txt, and how they are built over the crates that `rt ci` left proved: what bin/lib and
bin/wasm share. Where a crate is missing or older than a source, all are proved first, by `rt ci` over a copy without
their edits. The static libraries themselves are proved as they are built, over what an earlier `rt check` of them
kept."""
from __future__ import annotations

import concurrent.futures
import os
import pathlib
import shutil
import subprocess
import sys
from typing import Any, Callable, Dict, Iterable, List, NoReturn, Optional, Sequence, Union

from fiorrudda.places import ROOT
from tools import crates as known_crates

TOP = pathlib.Path(ROOT)
SELF = f"bin/{pathlib.Path(sys.argv[0]).name}"
PARTS = ("src", "specs", "proofs")
Word = Union[str, pathlib.Path]
# The crates by their names.
Known = Dict[str, known_crates.Crate]


def fail(text: str) -> NoReturn:
    sys.exit(f"{SELF}: {text}")


def run(words: Sequence[Word], **how: Any) -> None:
    """Runs a command; where it fails, says so and ends."""
    if subprocess.run(words, **how).returncode:
        fail(f"failed: {' '.join(map(str, words))[:300]}")


def tool(name: str) -> str:
    return shutil.which(name) or fail(f"{name} is not on the PATH")


def crates() -> Known:
    """What each crate stands on, and of what kind it is."""
    return {crate.name: crate for crate in known_crates.known()}


def libraries(known: Known) -> List[str]:
    """The static libraries that the library is made of."""
    return [it for it, crate in known.items() if crate.kind == "staticlib"]


def below(known: Known, names: Iterable[str]) -> List[str]:
    """The repository's crates that crates stand on, lowest first."""
    names = list(names)
    lower = {it for name in names for it in known[name].below}
    return [it for it in known_crates.names(known_crates.below(names)) if it in lower or it not in names]


def newest(folder: pathlib.Path) -> float:
    files = [it for part in PARTS for it in (folder / part).rglob("*") if it.is_file()]
    return max(it.stat().st_mtime for it in files)


def rlib(root: pathlib.Path, name: str) -> pathlib.Path:
    return root / "crates" / name / "out/rlib" / f"{name}.rlib"


def are_built(names: Iterable[str]) -> bool:
    """Whether each is there and newer than its sources and than those below it."""
    latest = 0.0
    for name in names:
        made = rlib(TOP, name)
        latest = max(latest, newest(TOP / "crates" / name))
        if not made.exists() or made.stat().st_mtime < latest:
            return False
    return True


def prove_copy(names: Iterable[str], room: pathlib.Path) -> None:
    """Proves the crates from nothing in a folder, side by side."""
    names = list(names)
    shutil.copy(TOP / "HANDLES", room)
    (room / "crates.txt").write_text(known_crates.below(names))
    for name in names:
        for part in PARTS:
            if (TOP / "crates" / name / part).is_dir():
                shutil.copytree(TOP / "crates" / name / part, room / "crates" / name / part)
    print(f"{SELF}: proving what the library stands on, by rt ci over a copy", file=sys.stderr)
    with open(room / "log", "w") as log:
        subprocess.run([tool("rt"), "ci"], cwd=room, stdout=log, stderr=log)
    last = (room / "log").read_text().splitlines()[-1]
    if not last.endswith(" 0 failed"):
        shutil.copy(room / "log", TOP / "crates/c_calls/build.log")
        fail(f"rt ci says {last}: crates/c_calls/build.log has the rest")


def proved_root(names: Sequence[str], room: pathlib.Path) -> pathlib.Path:
    """The folder in whose crates/ the crates are proved: the repository, or `room`, where they are then proved now."""
    if are_built(names):
        return TOP
    prove_copy(names, room)
    return room


def kit() -> pathlib.Path:
    """The folder of the toolchain's kit."""
    beside = pathlib.Path(tool("rt")).resolve().parent.parent
    if (beside / "toolchain").is_dir():
        return beside
    return pathlib.Path(subprocess.check_output([tool("rt"), "doc"], text=True).strip()).parent


class Builder:
    """Builds static libraries over crates that are proved in the folder `root`, by the toolchain's kit."""

    def __init__(self, root: pathlib.Path, known: Known, names: Sequence[str]) -> None:
        self.root, self.known, self.names, self.kit = root, known, names, kit()

    def build(self, name: str, made: pathlib.Path, toolchain: Optional[pathlib.Path] = None) -> None:
        """Proves a static library, and builds it, by another toolchain than the kit's where one is given."""
        words: List[Word] = [self.kit / "bin/rattle", "build", "--crate-name", name, "src/lib.rt"]
        for it in ["std", *self.known[name].below]:
            found = rlib(self.root, it) if it in self.known else self.kit / "rlibs" / f"{it}.rlib"
            words += ["--extern", f"{it}={found}"]
        words += ["-L", f"dependency={self.kit / 'rlibs'}"]
        for it in self.names:
            words += ["-L", f"dependency={rlib(self.root, it).parent}"]
        words += ["--antt-project", self.kit / "rattle/logic/antt-project.json",
                  "--logic-built", self.kit / "logic_built"]
        words += ["--incremental", "out/incremental", "--jobs", "1", "--links", f"{name}=", "--crate-type", "staticlib"]
        words += ["--toolchain", toolchain or self.kit / "toolchain", "--backend", "llvm", "-o", made]
        run(words, cwd=TOP / "crates" / name, stdout=sys.stderr)


def builder(known: Known, room: pathlib.Path) -> Builder:
    """A builder of all the static libraries, over the crates that are proved, or are then proved in `room`."""
    names = below(known, libraries(known))
    return Builder(proved_root(names, room), known, names)


def each(names: Iterable[str], build: Callable[[str], None], jobs: Optional[int] = None) -> None:
    """Calls `build` with each name, side by side, each to its end, so that the first that fails ends the program."""
    with concurrent.futures.ThreadPoolExecutor(jobs or os.cpu_count()) as pool:
        list(pool.map(build, names))
