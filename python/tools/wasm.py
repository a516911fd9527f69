"""Builds the engine for JavaScript into a folder, out/js/ where none is given: fiorrudda.wasm, the ES module around it
with its TypeScript declarations, and package.json, so that `npm pack` there makes what npm installs.

It is made of the same static libraries as the C library of bin/lib: the LLVM module to which each was lowered when it
was proved. The same clang compiles them as one for WebAssembly with a 64-bit memory, and they are linked with
js/memory.c and js/numbers.c. Binaryen's wasm-opt then makes that a memory with 32-bit addresses, which all engines
have, and in which they check no access; a memory of 4 GB is all that it can have."""
from __future__ import annotations

import argparse
import json
import os
import pathlib
import re
import shutil
import subprocess
import sys
import tempfile
from typing import Sequence

from tools import libraries as built
from tools.libraries import TOP, Word

NAME = "fiorrudda"
TARGET = ["--target=wasm64-unknown-unknown", "--no-default-config", "-O2"]
OWN = ("memory", "numbers")  # of js/
# What clang uses of WebAssembly beyond its first version.
FEATURES = ("memory64", "bulk-memory", "sign-ext", "mutable-globals", "nontrapping-float-to-int", "multivalue",
            "reference-types")
# What clang says of modules of another target.
OF_TARGET = ("is not a recognized processor", "different target triples")
SHUFFLE = "llvm.x86.ssse3.pshuf.b.128"
STACK = 1 << 20  # bytes, at the beginning of the memory: what goes beyond traps
ROOMS = ("room_of", "room_grow", "room_free", "room_limit", "room_used", "room_lent")
# What the linker needs of the toolchain beside clang, which is asked through a script of ours.
TOOLS = ("ld.lld", "llvm-ar", "rattle-x64")


def keeping_toolchain(kit: pathlib.Path, folder: pathlib.Path, module: pathlib.Path) -> pathlib.Path:
    """A toolchain whose clang leaves a copy of the LLVM module that it compiles."""
    (folder / "bin").mkdir(parents=True)
    for name in TOOLS:
        os.symlink(kit / "toolchain/bin" / name, folder / "bin" / name)
    os.symlink(kit / "toolchain/lib", folder / "lib")
    clang = folder / "bin/clang"
    clang.write_text(f'#!/bin/bash\nfor word in "$@"; do [[ $word == *.bc && -f $word ]] && cp "$word" {module}; done\n'
                     f'exec {kit}/toolchain/bin/clang "$@"\n')
    clang.chmod(0o755)
    return folder


def compiled(clang: pathlib.Path, words: Sequence[Word], source: pathlib.Path, made: pathlib.Path) -> None:
    """Compiles, and shows what clang says, except the processor of another target."""
    done = subprocess.run([clang, *TARGET, *words, "-c", source, "-o", made], stderr=subprocess.PIPE, text=True)
    said = [line for line in done.stderr.splitlines() if not any(it in line for it in OF_TARGET)]
    if said:
        print("\n".join(said), file=sys.stderr)
    if done.returncode:
        built.fail(f"clang does not compile {source}")


def module_of(builder: built.Builder, name: str, room: pathlib.Path) -> None:
    """The LLVM module of a static library."""
    module = room / f"{name}.bc"
    builder.build(name, room / f"{name}.a", keeping_toolchain(builder.kit, room / f"toolchain-{name}", module))
    if not module.exists():
        built.fail(f"the toolchain compiled no LLVM module of {name}")


def shuffle() -> str:
    """The instruction that SHUFFLE names, in LLVM's own terms: a lane is that of the first whose index the second has,
    or 0 where that is negative."""
    lines, last = [], "poison"
    for lane in range(16):
        lines += [f"%at{lane} = extractelement <16 x i8> %by, i32 {lane}", f"%none{lane} = icmp slt i8 %at{lane}, 0",
                  f"%low{lane} = and i8 %at{lane}, 15", f"%one{lane} = extractelement <16 x i8> %of, i8 %low{lane}",
                  f"%lane{lane} = select i1 %none{lane}, i8 0, i8 %one{lane}",
                  f"%made{lane} = insertelement <16 x i8> {last}, i8 %lane{lane}, i32 {lane}"]
        last = f"%made{lane}"
    head = "define internal <16 x i8> @shuffled(<16 x i8> %of, <16 x i8> %by) noinline {"
    return "\n".join([head, *lines, f"ret <16 x i8> {last}", "}", ""])


def without_x86(clang: pathlib.Path, module: pathlib.Path) -> None:
    """Replaces the one instruction of x86 that a module may name, which no other target has."""
    if SHUFFLE.encode() not in module.read_bytes():
        return
    text = module.with_suffix(".ll")
    words = ["-O0", "-Xclang", "-disable-llvm-passes", "-emit-llvm", "-Wno-override-module", "-x", "ir"]
    compiled(clang, [*words, "-S", "-Wno-unused-command-line-argument"], module, text)
    lines = [line for line in text.read_text().splitlines() if not line.startswith("declare") or SHUFFLE not in line]
    text.write_text("\n".join(lines).replace(f"@{SHUFFLE}", "@shuffled") + "\n" + shuffle())
    compiled(clang, words, text, module)


def joined(clang: pathlib.Path, modules: Sequence[pathlib.Path], made: pathlib.Path) -> None:
    """The object of all libraries: each has what it reaches of the others, and what is equal is kept once."""
    first, *others = modules
    words = ["-mllvm", "-no-trap-after-noreturn", "-ffunction-sections", "-fdata-sections", "-Wno-override-module",
             "-Xclang", "-fmerge-functions"]
    beside = [word for it in others for word in ("-Xclang", "-mlink-bitcode-file", "-Xclang", str(it))]
    compiled(clang, [*words, *beside, "-x", "ir"], first, made)


def linked(kit: pathlib.Path, objects: Sequence[Word], made: pathlib.Path, room: pathlib.Path) -> None:
    linker = room / "wasm-ld"
    os.symlink(kit / "toolchain/bin/clang", linker)
    exports = re.findall(rf"^\w+ ({NAME}_\w+)\(", (TOP / f"include/{NAME}.h").read_text(), re.M)
    words = ["-mwasm64", "--no-entry", "--gc-sections", "--strip-all", "--stack-first", "-z", f"stack-size={STACK}"]
    built.run([linker, *words, *[f"--export={it}" for it in [*exports, *ROOMS]], "-o", made, *objects])


def lowered(made: pathlib.Path) -> None:
    """Makes the 64-bit memory one with 32-bit addresses. What the module was compiled with is said, since it does
    not."""
    optimiser = shutil.which("wasm-opt")
    if optimiser is None:
        built.fail("wasm-opt is not on the PATH: it comes with binaryen (Debian: apt install binaryen)")
    features = [f"--enable-{it}" for it in FEATURES]
    built.run([optimiser, *features, "--memory64-lowering", "-O3", "-Oz", made, "-o", made])


def make_module(made: pathlib.Path, room: pathlib.Path, jobs: int) -> None:
    builder = built.builder(built.crates(), room)
    names = built.libraries(builder.known)
    built.each(names, lambda it: module_of(builder, it, room), jobs)
    clang = builder.kit / "toolchain/bin/clang"
    for name in names:
        without_x86(clang, room / f"{name}.bc")
    joined(clang, [room / f"{name}.bc" for name in names], room / f"{NAME}.o")
    for name in OWN:
        words = ["-nostdlib", "-ffreestanding", "-ffunction-sections"]
        compiled(clang, words, TOP / "js" / f"{name}.c", room / f"{name}.o")
    linked(builder.kit, [room / f"{it}.o" for it in (NAME, *OWN)], made, room)
    lowered(made)


def copy_package(into: pathlib.Path) -> None:
    for file in sorted((TOP / "js/package").iterdir()):
        shutil.copy(file, into)
    package = json.loads((into / "package.json").read_text())
    version = (TOP / "VERSION").read_text().strip()
    (into / "package.json").write_text(json.dumps({"name": package["name"], "version": version, **package}, indent=2)
                                       + "\n")


def words() -> argparse.Namespace:
    given = argparse.ArgumentParser(prog="bin/wasm", description=__doc__,
                                    formatter_class=argparse.RawDescriptionHelpFormatter)
    given.add_argument("folder", nargs="?", metavar="FOLDER", type=pathlib.Path, default=TOP / "out/js",
                       help="out/js/ of the repository")
    given.add_argument("--jobs", metavar="N", type=int, default=os.cpu_count(),
                       help="how many libraries are built side by side")
    return given.parse_args()


def main() -> None:
    given = words()
    into = given.folder.resolve()
    built.run([TOP / "embed/header", "--check"])
    with tempfile.TemporaryDirectory(prefix="fiorrudda-") as folder:
        room = pathlib.Path(folder)
        made = room / f"{NAME}.wasm"
        make_module(made, room, given.jobs)
        into.mkdir(parents=True, exist_ok=True)
        copy_package(into)
        shutil.copy(made, into)
    print(f"bin/wasm: the package is in {into}")
