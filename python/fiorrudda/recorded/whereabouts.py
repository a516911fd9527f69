"""Several URLs of one origin in one text, whose `*` stands for any text: a pattern as `--set` takes it."""
from __future__ import annotations


def pattern_of(urls: list[str]) -> str:
    """The pattern that fits all of them: one URL as it is, without what its query says; of several what they have in
    common, by the pieces of their paths."""
    paths = [url.partition("?")[0].split("/") for url in urls]
    queried = ["?" in url for url in urls]
    end = "?*" if all(queried) else "*" if any(queried) else ""
    if len({len(path) for path in paths}) == 1:
        path = "/".join(pieces[0] if len(set(pieces)) == 1 else "*" for pieces in zip(*paths))
        return path if path.endswith("*") and end == "*" else path + end
    common = []
    for pieces in zip(*paths):
        if len(set(pieces)) > 1:
            break
        common.append(pieces[0])
    return "/".join(common) + "/*"
