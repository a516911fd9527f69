"""Writes the scenarios of a recording's pages, for bin/why, bin/expect and the playground."""
from __future__ import annotations

import json
import os
from typing import Any, Iterator, Optional

from fiorrudda.commands import files
from fiorrudda.recorded.changes import NONE, Changes
from fiorrudda.recorded.model import Recording
from fiorrudda.recorded.rules import PASSING
from fiorrudda.recorded.scenarios import layers_of, parts_of

# A header of the document, which says nothing to a play: the mark of a file that may be written over.
MARK = ["X-Made-By", "bin/har --scenario"]


def is_own(data: bytes) -> bool:
    return MARK in json.loads(data.decode("utf-8"))["documents"][0]["headers"]


def scenarios(recording: Recording, changes: Changes = NONE) -> Iterator[tuple[str, dict[str, Any]]]:
    """Each scenario with its file's name: by the page, the part, and the layer of answers."""
    for number, page in enumerate(recording.pages):
        parts = parts_of(page)
        for part in parts:
            layers, _ = layers_of(part, PASSING, changes)
            for place, layer in enumerate(layers):
                name = f"page-{number}" + (f"-part-{part.number}" if len(parts) > 1 else "")
                layer.data["documents"][0]["headers"].append(MARK)
                yield name + (f"-answers-{place + 1}" if place else "") + ".json", layer.data


def write(folder: str, recording: Recording, changes: Changes = NONE) -> tuple[list[str], Optional[str]]:
    """Writes them. The files, with what is to be said of them, and what is wrong, in a sentence, or None."""
    try:
        os.makedirs(folder, mode=0o700, exist_ok=True)
    except OSError as error:
        return [], f"--scenario: {folder}: {error.strerror}"
    written: list[str] = []
    for name, data in scenarios(recording, changes):
        path = os.path.join(folder, name)
        text = json.dumps(data, indent=1) + "\n"
        wrong = files.refusal(path, "--scenario", is_own) or files.replace(path, text.encode("ascii"))
        if wrong:
            return written, wrong
        written.append(path)
    return written, None
