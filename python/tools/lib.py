"""Builds the C library into a folder, out/ where none is given: include/fiorrudda.h, lib/libfiorrudda.a, the shared
object lib/libfiorrudda.so.VERSION with its names libfiorrudda.so.1 and libfiorrudda.so, and lib/pkgconfig/fiorrudda.pc.
All of the folder may be moved elsewhere.

With --archive it takes a static library that was built, and makes the rest of it. Else the library is made of the
static libraries of crates.txt: an object of each, with its exports. The crates below them are those that `rt ci` left
proved here. Where one is missing or older than a source, they are proved first, by `rt ci` over a copy without their
edits. The static libraries themselves are proved as they are built, side by side, over what an earlier `rt check` of
them kept."""
from __future__ import annotations

import argparse
import pathlib
import shutil
import subprocess
import tempfile

from tools import libraries as built
from tools.libraries import TOP, run

NAME = "fiorrudda"
VERSION = (TOP / "VERSION").read_text().strip()
SONAME = f"lib{NAME}.so.{VERSION.split('.')[0]}"
PKG_CONFIG = f"""prefix=${{pcfiledir}}/%(up)s
includedir=${{prefix}}/include
libdir=${{prefix}}/%(libdir)s

Name: {NAME}
Description: a browser's fetch engine, proved
Version: {VERSION}
Cflags: -I${{includedir}}
Libs: -L${{libdir}} -l{NAME}
"""


def archive(builder: built.Builder, made: pathlib.Path) -> None:
    """Builds the static libraries, and puts their objects into one archive."""
    objects = ["heap.pic.o"]
    # The three functions by which the library allocates, over malloc, realloc and free.
    run(["ar", "x", builder.kit / "c/liblibc_c.a", *objects], cwd=made.parent)
    parts = {name: made.parent / f"part-{name}.a" for name in built.libraries(builder.known)}
    built.each(parts, lambda it: builder.build(it, parts[it]))
    for part in parts.values():
        objects += subprocess.check_output(["ar", "t", part], text=True).split()
        run(["ar", "x", part], cwd=made.parent)
        part.unlink()
    run(["ar", "rcs", made.name, *objects], cwd=made.parent)
    for it in objects:
        (made.parent / it).unlink()


def link(name: pathlib.Path, to: str) -> None:
    name.unlink(missing_ok=True)
    name.symlink_to(to)


def shared(static: pathlib.Path, folder: pathlib.Path) -> None:
    """The shared object, with the names by which programs are linked to it and find it."""
    made = folder / f"lib{NAME}.so.{VERSION}"
    whole: list[built.Word] = ["-Wl,--whole-archive", static, "-Wl,--no-whole-archive"]
    script = TOP / f"embed/lib{NAME}.map"
    safe = ["-Wl,-z,defs", "-Wl,-z,relro", "-Wl,-z,now"]
    run(["cc", "-shared", f"-Wl,-soname,{SONAME}", f"-Wl,--version-script={script}", *whole, *safe, "-o", made])
    link(folder / SONAME, made.name)
    link(folder / f"lib{NAME}.so", SONAME)


def lay_out(static: pathlib.Path, into: pathlib.Path, libdir: str) -> None:
    """The header, the library in both kinds, and what pkg-config reads of it, which names nothing outside the
    folder."""
    (into / "include").mkdir(parents=True, exist_ok=True)
    (into / libdir / "pkgconfig").mkdir(parents=True, exist_ok=True)
    shared(static, into / libdir)
    shutil.copyfile(static, into / libdir / f"lib{NAME}.a")
    shutil.copyfile(TOP / f"include/{NAME}.h", into / f"include/{NAME}.h")
    up = "/".join(".." for _ in [*pathlib.PurePath(libdir).parts, "pkgconfig"])
    (into / libdir / f"pkgconfig/{NAME}.pc").write_text(PKG_CONFIG % {"up": up, "libdir": libdir})


def words() -> argparse.Namespace:
    given = argparse.ArgumentParser(prog="bin/lib", description=__doc__,
                                    formatter_class=argparse.RawDescriptionHelpFormatter)
    given.add_argument("folder", nargs="?", metavar="FOLDER", type=pathlib.Path, default=TOP / "out",
                       help="out/ of the repository")
    given.add_argument("--libdir", metavar="NAME", default="lib", help="the libraries' folder below it: lib")
    given.add_argument("--archive", metavar="FILE", type=pathlib.Path,
                       help="a static library, from which the rest is made")
    return given.parse_args()


def main() -> None:
    given = words()
    into = given.folder.resolve()
    run([TOP / "embed/header", "--check"])
    built.tool("cc")
    with tempfile.TemporaryDirectory(prefix="fiorrudda-") as room:
        static = pathlib.Path(room) / f"lib{NAME}.a"
        if given.archive is None:
            archive(built.builder(built.crates(), pathlib.Path(room)), static)
        else:
            shutil.copy(given.archive, static)
        lay_out(static, into, given.libdir)
    print(f"bin/lib: the C library is in {into}")

