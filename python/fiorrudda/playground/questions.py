"""The gallery's questions with their scenarios, by the groups of gallery/README.md."""
from __future__ import annotations

import os
import re
from typing import TYPE_CHECKING

if TYPE_CHECKING:
    from typing import Any

TITLE = re.compile(r"## (.*)")
ROW = re.compile(r"\| \[(.*)\]\(([a-z0-9-]+)/README\.md\) \|.*")


def read(*path: str) -> str:
    with open(os.path.join(*path), encoding="utf-8", newline="") as file:
        return file.read()


def questions(root: str) -> list[dict[str, Any]]:
    """Groups with a title each, and in them questions: the folder's name, the question and the scenario's text."""
    groups: list[dict[str, Any]] = []
    for line in read(root, "gallery", "README.md").splitlines():
        title, row = TITLE.fullmatch(line), ROW.fullmatch(line)
        if title:
            groups.append({"title": title.group(1), "questions": []})
        elif row and groups:
            scenario = read(root, "gallery", row.group(2), "scenario.json")
            groups[-1]["questions"].append(
                {"name": row.group(2), "question": row.group(1).replace("`", ""), "scenario": scenario})
    return [group for group in groups if group["questions"]]
