"""Finds packages that are installed beside Python: bin/har runs without their folders (-S)."""
from __future__ import annotations

import site
import sys
from importlib import util

FOLDER = "/usr/lib/python3/dist-packages"  # where Debian has them, which another Python may read too


def add_folders(package: str) -> None:
    """Adds the folders of packages, and Debian's before them where they lack this one: what it needs itself is there,
    of the version that it needs. It is the one place that does so: recordings that need no package are read without the
    time that this takes."""
    site.main()
    if util.find_spec(package) is None:
        own = [place for place, path in enumerate(sys.path) if path.endswith("-packages")]
        site.addsitedir(FOLDER)
        sys.path.remove(FOLDER)
        sys.path.insert(min(own, default=len(sys.path)), FOLDER)
