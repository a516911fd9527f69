"""Checks that no recording makes bin/har fail: recordings that were cut or changed at random, and random JSON texts,
are each refused with a place or judged, by all that bin/har can be asked. recorded/check tries a few.

    recorded/check_hostile             200 recordings and 2,000 texts
    recorded/check_hostile SEED        others of them

It needs python3 (3.9 or later). Plays are made by bin/fetchplay, or by the program that FETCHPLAY names."""
from __future__ import annotations

import glob
import os
import sys

from fiorrudda.places import ROOT
from tests.recorded import hostile

CASES = os.path.join(ROOT, "recorded", "cases")
MUTATED, RANDOM, SEED = 200, 2000, 64


def texts() -> list[str]:
    """The texts of all recordings of recorded/cases."""
    found = []
    for path in sorted(glob.glob(os.path.join(CASES, "*.har"))):
        with open(path, encoding="utf-8") as file:
            found.append(file.read())
    return found


def main() -> int:
    seed = int(sys.argv[1]) if sys.argv[1:] else SEED
    faults, counts = hostile.faults_of(texts(), MUTATED, RANDOM, seed)
    for fault in faults:
        print("recorded/check_hostile: " + fault, file=sys.stderr)
    if not faults:
        print(f"recorded/check_hostile: of {MUTATED + RANDOM} recordings that are none or were changed "
              f"{counts[hostile.REFUSED]} refused, {counts[hostile.JUDGED]} judged")
    return 1 if faults else 0
