"""Makes the Debian packages of debian/, a tar of all their files, and a wheel of the Python module.

    bin/package [FOLDER]      writes them there (out/), and prints their names

Programs that are not built, or older than a source, are proved and built first, by bin/proved, the C library by
bin/lib, and the playground's module by bin/wasm; or FETCHPLAY, CSPREPORT, CORSSERVE and PLAYAUDIT name programs,
FIORRUDDA_LIBRARY a libfiorrudda.so beside its libfiorrudda.a, and FIORRUDDA_JS the module's folder. The version is that
of VERSION, and docs/CHANGES.md tells what is new in it. It needs python3 (3.9 or later), dpkg-buildpackage and what
debian/control names; for the wheel pip, setuptools and wheel. It asks no network."""
import argparse
import os
import pathlib
import sys

from fiorrudda.places import ROOT
from tools.package import build
from tools.package.changes import Refusal


def main() -> None:
    words = argparse.ArgumentParser(prog="bin/package", description="makes Debian packages, a tar and a wheel")
    words.add_argument("folder", nargs="?", metavar="FOLDER", type=pathlib.Path, default=pathlib.Path(ROOT, "out"),
                       help="out/ of the repository")
    given = words.parse_args()
    try:
        given.folder.mkdir(parents=True, exist_ok=True)
        for path in build.build(given.folder.resolve()):
            print(path)
    except Refusal as refusal:
        sys.exit(f"bin/package: {refusal}")
    except OSError as error:
        sys.exit(f"bin/package: {error.filename}: {os.strerror(error.errno or 0)}")
