"""Makes the playground's page, one HTML file that needs nothing more: it has its scripts and its style, the schema, the
gallery with what bin/why says of it, the WebAssembly module that plays, and all documents, compressed where they are
large. Where bin/playground serves it, it asks there what bin/why says of other plays."""
from __future__ import annotations

import base64
import json
import os
import re
import zlib
from typing import TYPE_CHECKING

from fiorrudda.places import ROOT
from fiorrudda.playground import documents
from fiorrudda.playground.questions import questions
from fiorrudda.view import page as drawn, telling

if TYPE_CHECKING:
    from typing import Any

FOLDER = os.path.join(ROOT, "playground")
SCRIPT = re.compile(r'<script src="(\w+\.js)"></script>')
NO_DATA = '<script type="application/json" id="given">null</script>'
PARTS = "<!-- the parts of view/page.html -->\n"
MODULE = "fiorrudda.wasm"
ENGINE = ["calls.js", "engine.js"]
IMPORT = re.compile(r"^import [^;]*;\n", re.M)
EXPORT = re.compile(r"^export (?=const|class|function|async)", re.M)
MEGABYTES = 512
MAY = "; worker-src blob:"
MAY_ASK = "; connect-src 'self'"


def packed(data: bytes) -> str:
    """Bytes as a page holds them: raw deflate, in base64."""
    maker = zlib.compressobj(9, zlib.DEFLATED, -15)
    return base64.b64encode(maker.compress(data) + maker.flush()).decode("ascii")


def read(*path: str) -> bytes:
    with open(os.path.join(*path), "rb") as file:
        return file.read()


def plain_page() -> str:
    """The page with the sections of the page that draws a play, before its scripts are in it."""
    parts = drawn.part(drawn.FOLDER, "page.html").split("<main>\n")[1].split("</main>\n")[0]
    return drawn.replaced(drawn.part(FOLDER, "page.html"), PARTS, parts)


def filled(page: str, may: str) -> str:
    """The page with its style and its scripts; `may` is what it may do beside running them."""
    def text(name: str) -> str:
        return drawn.part(FOLDER if os.path.exists(os.path.join(FOLDER, name)) else drawn.FOLDER, name)
    styles = {name: text(name) for name in ("view.css", "playground.css")}
    scripts = {name: text(name) for name in SCRIPT.findall(page)}
    return drawn.filled(page, styles, scripts, may, "'wasm-unsafe-eval'")


def engine_script(built: str) -> str:
    """The package's calls of the module, and the worker that plays by them, as one script."""
    parts = [read(built, name).decode("ascii") for name in ENGINE]
    bare = [EXPORT.sub("", IMPORT.sub("", part)) for part in parts]
    return "\n".join([*bare, drawn.part(FOLDER, "play_worker.js")])


def told_gallery(root: str) -> list[dict[str, Any]]:
    """The groups of the gallery, each question with its stored play as bin/why tells it."""
    groups = questions(root)
    for question in (question for group in groups for question in group["questions"]):
        play = read(root, "gallery", question["name"], "play.txt").decode("latin-1")
        question["told"] = telling.told_text(question["scenario"].encode("utf-8"), play)
    return groups


def made(root: str, built: str, seconds: float, is_served: bool) -> bytes:
    """The page, with the module that bin/wasm has built into a folder; a play may take so many seconds."""
    page = filled(plain_page(), MAY + (MAY_ASK if is_served else ""))
    schema = json.loads(read(root, "schema", "scenario.schema.json"))
    given = {"schema": schema, "gallery": told_gallery(root), "module": packed(read(built, MODULE)),
             "worker": engine_script(built), "seconds": seconds, "megabytes": MEGABYTES, "isServed": is_served,
             "texts": packed(json.dumps(documents.texts(root)).encode("ascii"))}
    return drawn.replaced(page, NO_DATA, NO_DATA.replace("null", drawn.data_of(given))).encode("ascii")
