"""Makes what bin/package makes, out of a copy of the repository that has what is proved and built in built/."""
from __future__ import annotations

import calendar
import gzip
import io
import os
import pathlib
import shutil
import subprocess
import sys
import tarfile
import tempfile
import time
from typing import Any

from fiorrudda.places import ROOT
from fiorrudda.playground import page
from tools.package import changes, contents
from tools.package.changes import Refusal

TOP = pathlib.Path(ROOT)
# Debian's own python3 and no other is what dh_python3 and the packages' Depends speak of.
PATH = "/usr/sbin:/usr/bin:/sbin:/bin"
# The programs that the environment names.
GIVEN = {"fetchplay": os.environ.get("FETCHPLAY"), "cspreport": os.environ.get("CSPREPORT"),
         "corsserve": os.environ.get("CORSSERVE"), "playaudit": os.environ.get("PLAYAUDIT")}
# The wheel is built by the first of these that has what that takes.
INTERPRETERS = (sys.executable, "/usr/bin/python3")
WHEEL = "import setuptools, wheel, pip"


def run(words: list[str | pathlib.Path], **more: Any) -> str:
    """Runs a command, of which nothing is printed but where it fails."""
    try:
        done = subprocess.run(words, stdout=subprocess.PIPE, stderr=subprocess.STDOUT, text=True, **more)
    except FileNotFoundError as error:
        raise Refusal(f"{words[0]} is not there") from error
    said: str = done.stdout
    if done.returncode:
        raise Refusal(f"{words[0]} ended with the status {done.returncode}:\n{said[-3000:]}")
    return said


def program(name: str) -> pathlib.Path:
    """The file of a program: the one that the environment names, or the proved one, which is built where it must be."""
    given = GIVEN[name]
    if given:
        return pathlib.Path(given)
    words: list[str | pathlib.Path] = [TOP / "bin" / name, "--nothing"]  # (a word that each program refuses at once)
    status = subprocess.run(words, stdin=subprocess.DEVNULL, stderr=subprocess.PIPE).returncode
    if status != 1:
        raise Refusal(f"bin/{name} ended with the status {status}")
    return TOP / "crates" / name / "out" / name


def archive() -> pathlib.Path:
    """The static library: beside the shared one that the environment names, or as bin/lib leaves it."""
    given = os.environ.get("FIORRUDDA_LIBRARY")
    found = (pathlib.Path(given).parent if given else TOP / "out/lib") / "libfiorrudda.a"
    if not given and not found.exists():
        run([TOP / "bin/lib"])
    return found


def module() -> pathlib.Path:
    """The folder of the module by which the playground plays: the one that the environment names, or as bin/wasm leaves
    it."""
    given = os.environ.get("FIORRUDDA_JS")
    found = pathlib.Path(given) if given else TOP / "out/js"
    if not given and not (found / page.MODULE).exists():
        run([TOP / "bin/wasm"])
    return found


def sources() -> list[str]:
    """The files of the repository."""
    listed = run(["git", "ls-files", "-z", "--cached", "--others", "--exclude-standard"], cwd=TOP)
    return [name for name in listed.split("\0") if name and (TOP / name).is_file()]


def copy_of_sources(folder: pathlib.Path) -> None:
    for name in sources():
        (folder / name).parent.mkdir(parents=True, exist_ok=True)
        shutil.copy2(TOP / name, folder / name)
    (folder / "debian/changelog").write_text(changes.changelog(), "utf-8")
    (folder / "built/js").mkdir(parents=True)
    for it in contents.PROGRAMS:
        shutil.copy(program(it.name), folder / "built" / it.name)
    shutil.copy(archive(), folder / "built/libfiorrudda.a")
    for name in [page.MODULE, *page.ENGINE]:
        shutil.copy(module() / name, folder / "built/js" / name)


def seconds() -> int:
    """The day of the version, which stands for each file's time."""
    return calendar.timegm(time.strptime(changes.entries()[0][1], "%Y-%m-%d"))


def debian_packages(place: pathlib.Path, target: pathlib.Path) -> list[pathlib.Path]:
    """Built in a copy of the sources, which has the name that Debian gives it."""
    folder = place / f"fiorrudda-{changes.entries()[0][0]}"
    folder.mkdir()
    copy_of_sources(folder)
    own = {**os.environ, "PATH": PATH, "LC_ALL": "C.UTF-8"}
    run(["dpkg-buildpackage", "--build=binary", "--unsigned-changes", "--unsigned-buildinfo"], cwd=folder, env=own)
    return [pathlib.Path(shutil.copy(path, target)) for path in sorted(place.glob("*.deb"))]


def build_tar(packages: list[pathlib.Path], place: pathlib.Path, target: pathlib.Path) -> pathlib.Path:
    """All files of the packages below one folder, in the same order and of the same day each time."""
    name, root = f"fiorrudda-{changes.entries()[0][0]}", place / "root"
    for path in packages:
        run(["dpkg-deb", "--extract", path, root])
    path = target / f"{name}-{os.uname().machine}.tar.gz"

    def plain(entry: tarfile.TarInfo) -> tarfile.TarInfo:
        entry.uid = entry.gid = 0
        entry.uname = entry.gname = "root"
        entry.mtime = seconds()
        return entry

    held = io.BytesIO()
    with tarfile.open(fileobj=held, mode="w", format=tarfile.GNU_FORMAT) as made:
        made.add(root / "usr", os.path.join(name, "usr"), filter=plain)
    path.write_bytes(gzip.compress(held.getvalue(), 9, mtime=0))
    return path


def can_build(interpreter: str) -> bool:
    return os.path.exists(interpreter) and not subprocess.run([interpreter, "-c", WHEEL],
                                                              stderr=subprocess.PIPE).returncode


def builder() -> str | None:
    """The interpreter that can build a wheel, if one can."""
    return next((it for it in INTERPRETERS if can_build(it)), None)


def build_wheel(interpreter: str, place: pathlib.Path, target: pathlib.Path) -> list[pathlib.Path]:
    """A wheel that has the shared object in it."""
    folder, made = place / "python", place / "wheels"
    shutil.copytree(TOP / "python/fiorrudda", folder / "fiorrudda",
                    ignore=shutil.ignore_patterns("__pycache__", "*.so"))
    for name in ("pyproject.toml", "setup.py"):
        shutil.copy(TOP / "python" / name, folder)
    run([TOP / "bin/lib", "--archive", archive(), place / "library"])
    shutil.copy(place / "library/lib/libfiorrudda.so", folder / "fiorrudda")
    words = ["-m", "pip", "wheel", "--quiet", "--no-index", "--no-deps", "--no-build-isolation", "--wheel-dir"]
    run([interpreter, *words, made, folder], env={**os.environ, "SOURCE_DATE_EPOCH": str(seconds())})
    return [pathlib.Path(shutil.copy(path, target)) for path in made.glob("*.whl")]


def build(target: pathlib.Path) -> list[pathlib.Path]:
    """The paths of all that is made."""
    with tempfile.TemporaryDirectory() as room:
        place = pathlib.Path(room)
        packages = debian_packages(place, target)
        made = [*packages, build_tar(packages, place, target)]
        interpreter = builder()
        if interpreter is None:
            print("bin/package: left out, since no python3 has pip, setuptools and wheel: the wheel", file=sys.stderr)
            return made
        return made + build_wheel(interpreter, place, target)
