"""Checks the types of the package, of the tools and of the checks by `mypy --strict`, where mypy is there."""
from __future__ import annotations

import os
import shutil
import subprocess
import sys

from fiorrudda.places import ROOT


def main() -> int:
    if not shutil.which("mypy"):
        print("python/types: left out, since there is no mypy", file=sys.stderr)
        return 0
    words = ["mypy", "--strict", "--config-file", os.path.join(ROOT, "python", "pyproject.toml"),
             "--cache-dir", os.devnull, "fiorrudda", "tools", "tests"]
    told = subprocess.run(words, cwd=os.path.join(ROOT, "python"), stdout=subprocess.PIPE, stderr=subprocess.STDOUT,
                          text=True)
    if told.returncode:
        print(told.stdout, end="", file=sys.stderr)
    else:
        print(f"python/types: {told.stdout.split()[-3]} modules have the types that they say")
    return told.returncode
