"""Prints the scenarios that schema/check looks at, as JSON lines: the text, the line of the stored run that it comes
from, and the place at which the program refuses it, or null."""
from __future__ import annotations

import json

from tests.schema import check


def main() -> None:
    for name, line, text, place in [*check.examples(), *check.gallery(), *check.rows()]:
        print(json.dumps({"name": name, "line": line, "text": text, "place": place}))
    print(json.dumps({"alone": list(check.listed())}))
