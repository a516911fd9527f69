"""Checks what bin/package makes: it is the same each time, lintian finds no error and nothing to warn of, its parts are
there, a program of C is built over the development files, and in a root that has nothing but the packages and the C
library it plays the first example, without `rt`.

    package/check             PACKAGE_ROOT may name a clean root of Debian, as debootstrap makes one with python3: there
                              the packages are installed, used and purged, and nothing of them is left

It needs python3 (3.9 or later) and what bin/package needs; what needs lintian, man, a compiler or a root of its own is
left out where these are not there, which it says. Nothing is installed on the machine itself."""
from __future__ import annotations

import gzip
import os
import pathlib
import re
import shutil
import subprocess
import sys
import tempfile
import unittest
import zipfile
from typing import Any, Union

from fiorrudda.places import ROOT
from tests import base
from tools.package import build, changes, contents

TOP = pathlib.Path(ROOT)
PACKAGES = ("fiorrudda", "libfiorrudda-dev", "libfiorrudda1", "python3-fiorrudda")
VERSION = (TOP / "VERSION").read_text("ascii").strip()
Word = Union[str, pathlib.Path]
Done = subprocess.CompletedProcess[bytes]


def ran(*words: Word, **more: Any) -> Done:
    return subprocess.run(words, stdout=subprocess.PIPE, stderr=subprocess.PIPE, **more)


def read(*path: Word) -> bytes:
    return pathlib.Path(*path).read_bytes()


def own_environment() -> dict[str, str]:
    """Without what names a program or the library."""
    own = {name: value for name, value in os.environ.items() if not name.startswith(("FIORRUDDA_", "PYTHON"))}
    return {name: value for name, value in own.items() if name.lower() not in {it.name for it in contents.PROGRAMS}}


def files(top: pathlib.Path) -> list[str]:
    return sorted(str(path.relative_to(top)) for path in top.rglob("*") if path.is_file())


ASKED = "import fiorrudda; print(fiorrudda.__version__, fiorrudda.origin('https://a.example/x'))"
ANSWERED = VERSION.encode() + b" https://a.example\n"


# ---- roots

def inside(root: pathlib.Path, *words: str, **more: Any) -> Done:
    """Runs a program with the root as all that there is."""
    enter = [] if os.geteuid() == 0 else ["unshare", "--user", "--map-root-user"]
    own = {"PATH": "/usr/sbin:/usr/bin:/sbin:/bin", "LC_ALL": "C.UTF-8"}
    return ran(*enter, "chroot", root, *words, env=own, **more)


def all_files(root: pathlib.Path) -> set[str]:
    """What is in the root except what dpkg and the machine write by themselves."""
    own = ("var/lib/dpkg", "var/log", "var/cache", "tmp", "root", "proc", "sys", "dev")
    found = (os.path.relpath(os.path.join(folder, name), root) for folder, _, names in os.walk(root) for name in names)
    return {path for path in found if not path.startswith(own)}


def lacking() -> str:
    """What bin/package needs and is not there, in a sentence; empty where all is there."""
    if not shutil.which("dpkg-buildpackage"):
        return "there is no dpkg-buildpackage"
    done = ran("dpkg-checkbuilddeps", cwd=TOP)
    return done.stderr.decode().strip().rpartition("error: ")[2] if done.returncode else ""


@unittest.skipIf(lacking(), lacking())
class Checks(base.Checks):
    def test_packages(self) -> None:
        with tempfile.TemporaryDirectory() as room:
            place = pathlib.Path(room)
            first, second = self.made(place / "1"), self.made(place / "2")
            for one, other in zip(first, second):
                self.compare(f"{one.name}: made twice", read(one) == read(other), True)
            packages = [path for path in first if path.suffix == ".deb"]
            self.compare("debian/changelog, which package/changelog writes", changes.CHANGELOG.read_text("utf-8"),
                         changes.changelog())
            self.compare("the packages", sorted(path.name.partition("_")[0] for path in packages), sorted(PACKAGES))
            root = place / "root"
            self.check_root(root, packages)
            self.check_parts(root)
            self.check_scripts(root, place)
            self.check_library(root, place)
            self.check_wheel([path for path in first if path.suffix == ".whl"], place)
            self.check_lintian(packages)
            self.check_installed(os.environ.get("PACKAGE_ROOT"), packages, place)
            self.counted(f"the packages have {sum(path.stat().st_size for path in packages) // 1024} KiB")

    def made(self, folder: pathlib.Path) -> list[pathlib.Path]:
        """All that is made, anew."""
        done = ran(TOP / "bin/package", folder)
        if done.returncode != 0:
            sys.exit(f"package/check: bin/package: {done.stderr.decode().strip()}")
        for part in re.findall(r"^bin/package: left out, (.*)$", done.stderr.decode(), re.M):
            self.leave(part)
        return [pathlib.Path(line) for line in done.stdout.decode().splitlines()]

    # ---- the parts

    def check_parts(self, root: pathlib.Path) -> None:
        """Programs, pages, completion, and what the scripts read."""
        share = root / "usr/share"
        names = [it.name for it in contents.PROGRAMS]
        for name in names:
            self.compare(f"{name}: the program", read(root, "usr/bin", name), read(build.program(name)))
        for name in names + [f"fiorrudda-{it.name}" for it in contents.SCRIPTS]:
            self.compare(f"{name}: where it leads", (root / "usr/bin" / name).exists(), True)
            self.check_man(share, name, 1)
            self.check_completion(share, name)
        for one in contents.FORMATS:
            self.check_man(share, one.name, 5)
        for top in ("gallery", "schema"):
            self.compare(top, files(share / "fiorrudda" / top), [name for name in files(TOP / top) if "." in name])
        for name in PACKAGES:
            first = gzip.decompress(read(share, "doc", name, "changelog.gz")).decode().partition(")")[0]
            self.compare(f"{name}: the first change", first, f"fiorrudda ({VERSION}")

    def check_man(self, share: pathlib.Path, name: str, section: int) -> None:
        path = share / f"man/man{section}/{name}.{section}.gz"
        if shutil.which("man"):
            shown = ran("man", "--warnings", "-E", "UTF-8", "-l", path, env={**os.environ, "MANWIDTH": "80"})
            self.compare(f"{path}: what man complains of", shown.stderr.decode(), "")
            self.compare(f"{path}: how it begins", shown.stdout.decode().startswith(f"{name.upper()}({section})"), True)

    def check_completion(self, share: pathlib.Path, name: str) -> None:
        path = share / "bash-completion/completions" / name
        words = ran("bash", "-c", 'source "$1" && complete -p "$2"', "bash", path, name)
        self.compare(f"{name}: its completion", (words.returncode, words.stdout.decode().endswith(f" {name}\n")),
                     (0, True))

    def check_scripts(self, root: pathlib.Path, place: pathlib.Path) -> None:
        """They find what they read beside them, and name themselves as they were called."""
        share, page, own = root / "usr/share/fiorrudda", place / "page.html", own_environment()

        def command(name: str, *words: Word) -> Done:
            return ran(root / "usr/bin" / f"fiorrudda-{name}", *words, env=own)

        drawn = command("view", "--text", share / "gallery/json-post/play.txt", "-o", page)
        self.compare("fiorrudda-view", (drawn.returncode, drawn.stderr, b"<title>A play</title>" in read(page)),
                     (0, b"", True))
        held = command("playground", "--page", page)
        self.compare("fiorrudda-playground", (held.returncode, held.stderr, b"<title>Playground" in read(page)),
                     (0, b"", True))
        why = command("why", share / "examples/known-host.json")
        self.compare("fiorrudda-why", (why.returncode, why.stderr, b"(same-origin/known-host)" in why.stdout),
                     (0, b"", True))
        met = command("expect", share / "gallery/json-post")
        self.compare("fiorrudda-expect", (met.returncode, met.stderr, b"\nok 1 - " in met.stdout), (0, b"", True))

    def check_library(self, root: pathlib.Path, place: pathlib.Path) -> None:
        """A program of C by what pkg-config says of the development files, over the shared object, wherever they
        lie."""
        if not (shutil.which("cc") and shutil.which("pkg-config")):
            self.leave("a program of C over the packages, since there is no cc or no pkg-config")
            return
        folder = next((root / "usr/lib").glob("*/pkgconfig")).parent
        words = ran("pkg-config", "--cflags", "--libs", f"fiorrudda = {VERSION}",
                    env={**os.environ, "PKG_CONFIG_PATH": str(folder / "pkgconfig")})
        built = ran("cc", "-std=c11", TOP / "embed/rules.c", *words.stdout.decode().split(), "-o", place / "rules")
        self.compare("cc", (built.returncode, built.stderr), (0, b""))
        done = ran(place / "rules", env={**os.environ, "LD_LIBRARY_PATH": str(folder)})
        self.compare("embed/rules.c", (done.returncode, done.stderr), (0, b""))

    def check_wheel(self, wheels: list[pathlib.Path], place: pathlib.Path) -> None:
        for wheel in wheels:
            with zipfile.ZipFile(wheel) as packed:
                packed.extractall(place / "wheel")
            own = {**own_environment(), "PYTHONPATH": str(place / "wheel")}
            said = ran(sys.executable, "-c", ASKED, cwd=place, env=own)
            self.compare("the wheel", (said.stderr, said.stdout), (b"", ANSWERED))

    def check_lintian(self, packages: list[pathlib.Path]) -> None:
        if not shutil.which("lintian"):
            self.leave("lintian, which is not there")
            return
        told = ran("lintian", "--allow-root", *packages).stdout.decode().splitlines()
        self.compare("what lintian says", [line for line in told if line.startswith(("E:", "W:"))], [])

    def fill(self, root: pathlib.Path, packages: list[pathlib.Path]) -> None:
        """The files of the packages, and of the C library what the dynamic linker takes for the programs."""
        for path in packages:
            self.compare("dpkg-deb", ran("dpkg-deb", "--extract", path, root).returncode, 0)
        for program in contents.PROGRAMS:
            for path in re.findall(r"(/\S+)", ran("ldd", root / "usr/bin" / program.name).stdout.decode()):
                os.makedirs(os.path.dirname(f"{root}{path}"), exist_ok=True)
                shutil.copy(path, f"{root}{path}")

    def check_example(self, root: pathlib.Path) -> None:
        played = inside(root, "/usr/bin/fetchplay", "play", input=read(TOP, "examples/known-host.json"))
        self.compare("the first example there", (played.returncode, played.stdout),
                     (0, read(TOP, "examples/known-host.out")))

    def check_root(self, root: pathlib.Path, packages: list[pathlib.Path]) -> None:
        self.fill(root, packages)
        if inside(root, "/usr/bin/fetchplay").returncode != 1:
            self.leave("the play in a root of its own, since none can be entered")
            return
        self.check_example(root)
        refused = inside(root, "/usr/bin/corsserve", input=b"")
        self.compare("corsserve without words there", (refused.returncode, refused.stderr),
                     (1, b"corsserve: usage: corsserve ADDRESS N\n"))

    def check_installed(self, given: str | None, packages: list[pathlib.Path], place: pathlib.Path) -> None:
        """In a copy of a clean root: installed by dpkg, used, and purged, after which nothing is left."""
        if not given:
            self.leave("an installation, since PACKAGE_ROOT names no root")
            return
        root = place / "clean"
        self.compare("cp", ran("cp", "-a", given, root).returncode, 0)
        before = all_files(root)
        for path in packages:
            shutil.copy(path, root / "root")
        done = inside(root, "sh", "-c", "dpkg --install /root/*.deb")
        self.compare("dpkg --install", (done.returncode, done.stderr.decode()[-300:] if done.returncode else ""),
                     (0, ""))
        self.check_example(root)
        said = inside(root, "python3", "-c", ASKED)
        self.compare("the module there", (said.stderr, said.stdout), (b"", ANSWERED))
        told = inside(root, "fiorrudda-ask", "--help")
        self.compare("fiorrudda-ask there", (told.returncode, told.stderr), (0, b""))
        why = inside(root, "fiorrudda-why", "/usr/share/fiorrudda/examples/known-host.json")
        self.compare("fiorrudda-why there", (why.returncode, b"(same-origin/known-host)" in why.stdout), (0, True))
        done = inside(root, "dpkg", "--purge", *PACKAGES)
        self.compare("dpkg --purge", (done.returncode, done.stderr), (0, b""))
        self.compare("what is left", sorted(all_files(root) ^ before), [])


def main() -> int:
    return base.main("package/check", __name__)
