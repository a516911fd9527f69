"""Makes one HTML page of parts: the scripts and the style go into it, its policy lets only these run, each by its hash,
and data goes into a block of JSON that nothing in it can end."""
from __future__ import annotations

import base64
import hashlib
import json
import os
from typing import TYPE_CHECKING

from fiorrudda.places import ROOT

if TYPE_CHECKING:
    from collections.abc import Collection, Iterable
    from typing import Any

FOLDER = os.path.join(ROOT, "view")
SCRIPTS = ["names.js", "errors.js", "play.js", "told.js", "steps.js", "shapes.js", "shown.js", "svg.js", "rows.js",
           "draw.js", "controls.js", "start.js"]
NO_PLAY = '<script type="application/json" id="play">null</script>'


def part(folder: str, name: str) -> str:
    with open(os.path.join(folder, name), encoding="ascii", newline="") as file:
        return file.read()


def replaced(page: str, old: str, new: str) -> str:
    if page.count(old) != 1:
        raise ValueError("the page must have this once: " + old)
    return page.replace(old, new)


def hash_of(text: str) -> str:
    digest = base64.b64encode(hashlib.sha256(text.encode("ascii")).digest()).decode("ascii")
    return f"'sha256-{digest}'"


def policy(styles: Iterable[str], scripts: Collection[str], more: str = "", also: str = "") -> str:
    """What a page may do: be dressed by these styles, and run these scripts, and `also` what these words allow; `more`
    are directives beside it."""
    allowed = f"default-src 'none'; style-src {' '.join(map(hash_of, styles))}"
    if scripts:
        allowed += f"; script-src {' '.join([*map(hash_of, scripts), *also.split()])}"
    return allowed + "; base-uri 'none'; form-action 'none'" + more


def data_of(value: Any) -> str:
    """A value as JSON that is plain text to an HTML parser."""
    data = json.dumps(value)
    for sign in "<>&":
        data = data.replace(sign, f"\\u{ord(sign):04x}")
    return data


def filled(page: str, styles: dict[str, str], scripts: dict[str, str], more: str = "", also: str = "") -> str:
    """The page with its styles and scripts in it, each a name and its text, and with its policy."""
    told = '<meta charset="utf-8">\n'
    allowed = policy(styles.values(), scripts.values(), more, also)
    meta = f'<meta http-equiv="Content-Security-Policy" content="{allowed}">\n'
    page = replaced(page, told, told + meta)
    for name, style in styles.items():
        page = replaced(page, f'<link rel="stylesheet" href="{name}">', f"<style>{style}</style>")
    for name, script in scripts.items():
        page = replaced(page, f'<script src="{name}"></script>', f"<script>{script}</script>")
    return page


def drawing(text: str, docs: str) -> str:
    """The page that draws a play; `docs` is the address of docs/, as seen from the page."""
    scripts = {name: part(FOLDER, name) for name in SCRIPTS}
    page = filled(part(FOLDER, "page.html"), {"view.css": part(FOLDER, "view.css")}, scripts)
    return replaced(page, NO_PLAY, NO_PLAY.replace("null", data_of({"text": text, "docs": docs})))
