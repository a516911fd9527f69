"""The text of a play with what bin/why says between its lines: the answers, why each fetch came to what it came, and
what to change. Where nothing can be said the play stays as it is, with a line that says so."""
from __future__ import annotations

from typing import TYPE_CHECKING

from fiorrudda.commands import asking, doubts, lints, play_text, told, verdicts
from fiorrudda.commands.scenario import Scenario

if TYPE_CHECKING:
    from collections.abc import Iterator

LINE_END = "\n"
LONGEST = 262144  # bytes of a scenario or of a play: of a longer one nothing is said
MOST = 20  # verdicts above a diagram


def told_text(data: bytes, text: str) -> str:
    """`data` has the bytes of the scenario, and `text` a character for each byte of its play."""
    if len(data) > LONGEST or len(text) > LONGEST:
        return unsaid(text, f"the scenario or the play has more than {LONGEST} bytes")
    try:
        return "".join(line + "\n" for line in lines(data, text))
    except Exception as error:  # a fault in what is said must not cost the play
        return unsaid(text, f"{type(error).__name__}: {error}")


def unsaid(text: str, reason: str) -> str:
    return f"# note: nothing is said of this play: {' '.join(reason.split())}\n{text}"


def lines(data: bytes, text: str) -> Iterator[str]:
    """The verdicts, the warnings, and then each line of the play with what is said behind it."""
    source, root = asking.read(data)
    scenario = Scenario(root)
    all_told = told.scripted(scenario, play_text.read(text))
    for line in verdicts.heading(all_told, MOST):
        yield "# " + " ".join(line.splitlines())
    rows = [(f"# warning: line {source.count(LINE_END, 0, one.at) + 1} of the scenario: {one.told}", one.slip)
            for one in doubts.doubts(scenario, all_told.play, False)]
    yield from (line for line, _ in lints.told_once(rows))
    behind = [own for _, own in all_told.pieces()]
    for line, own in zip(all_told.play.lines, behind):
        yield line
        yield from (" ".join(said.splitlines()) for said in own if said[:1] in ("<", "#"))
