"""What is wrong with the table: names that are gone, links that lead nowhere, steps without a proof or a reason, and
what should stand on the page and does not."""
from __future__ import annotations

import re
from collections.abc import Container, Iterable, Iterator
from html import unescape

from tools.standard import names, proof, sources
from tools.standard.proof import Proof
from tools.standard.sources import ROOT, Definition
from tools.standard.table import Algorithm, Step, Table

Proofs = dict[str, Proof]
STEPS = re.compile(r"\bsteps? (\d[\d.]*\d|\d)((?:(?:,? and |, | to )(?:\d[\d.]*\d|\d))*)")
OWN_CHOICE = re.compile(r"project's own|this project's limit|\(profile")


def all_faults(table: Table, proofs: Proofs) -> list[str]:
    return [*unknown_names(table), *of_steps(table, proofs), *dead_links(table), *missing(table, proofs),
            *missing_numbers(table), *other_numbers(table), *untold_choices(table)]


# ---- names

def unknown_names(table: Table) -> Iterator[str]:
    """Each name has to be there, by what it names."""
    for _, step in table.steps():
        yield from (f"{step.id}: {fault}" for fault in [
            *gone("definition", step.definitions, sources.definitions()),
            *gone("function", step.code, proof.by_name()),
            *gone("edit", step.edits, sources.edits()),
            *gone("rule of browsers/rules", step.browsers, names.rules()),
            *gone("play of the gallery", step.plays, names.gallery()),
            *gone("way of bin/why --ways", (one for one in step.ways if not names.matching(one, names.ways())), ()),
            *gone("point of covered/", (one for one in step.reached if not names.matching(one, names.points())), ())])


def gone(kind: str, wanted: Iterable[str], there: Container[str]) -> Iterator[str]:
    return (f"there is no {kind} {name}" for name in wanted if name not in there)


# ---- steps

def of_steps(table: Table, proofs: Proofs) -> Iterator[str]:
    for _, step in table.steps():
        for fault in [*of_kind(step, proofs[step.id]), *of_plays(step), *of_edits(step, proofs[step.id])]:
            yield f"{step.id}: {fault}"


def of_kind(step: Step, behind: Proof) -> Iterator[str]:
    if step.left_out and (step.definitions or step.code or step.edits):
        yield "it is left out, and has a definition, code or an edit"
    if step.left_out and not step.see:
        yield "it is left out, and no page says so"
    if not step.left_out and not step.definitions:
        yield "it has neither a definition nor a reason why it is left out"
    if not step.left_out and not behind.code:
        yield "no contract cites a definition of it"


def of_plays(step: Step) -> Iterator[str]:
    for play, line in step.plays.items():
        if play in names.gallery() and line not in names.printed(play):
            yield f"gallery/{play}/play.txt does not have `{line}`"


def of_edits(step: Step, behind: Proof) -> Iterator[str]:
    """An edit stands where its text is in the sources, and changes a file of the step's."""
    files = {one.path for one in (*behind.definitions, *behind.parts)} | {one.path for one in behind.code}
    for edit in behind.edits:
        for change in edit.changes:
            if not change.line:
                yield f"{edit.path}: {change.path} does not have the text that it replaces"
        if not any(change.path in files for change in edit.changes):
            yield f"{edit.path} changes nothing that the step rests on"


# ---- links

def dead_links(table: Table) -> Iterator[str]:
    for algorithm in table.algorithms:
        if algorithm.standard not in table.standards:
            yield f"{algorithm.id}: there is no standard {algorithm.standard}"
        yield from (f"{algorithm.id}: {place}" for place in dead(algorithm.pages))
        yield from (f"{step.id}: {place}" for step in algorithm.steps for place in dead(step.see))
    for name in {name for _, step in table.steps() for name in step.browsers if name in names.rules()}:
        rule = names.rules()[name]
        yield from (f"{name} of browsers/rules: {place}" for place in dead([f"BROWSERS.md#{rule.section}"]))
        if not (ROOT / f"browsers/corpus/{rule.scenario}.json").is_file():
            yield f"{name} of browsers/rules: there is no browsers/corpus/{rule.scenario}.json"
    for point, path in names.points().items():
        if not (ROOT / path).is_file():
            yield f"covered/index.json: {point}: there is no {path}"


def dead(places: Iterable[str]) -> Iterator[str]:
    return (f"docs/ has no place {place}" for place in places if not names.title(place))


def of_page(text: str) -> Iterator[str]:
    """The links of the written page, but those to other hosts."""
    anchors = set(re.findall(r' id="([^"]+)"', text))
    for href in sorted(set(re.findall(r' href="([^"]+)"', text))):
        path, _, anchor = unescape(href).partition("#")
        is_here = not path and anchor in anchors
        if not href.startswith("https://") and not is_here and not is_there(path, anchor):
            yield f"the page leads to {href}, which is not there"


def is_there(path: str, anchor: str) -> bool:
    file = (ROOT / "docs/standard" / path).resolve()
    if not path or not file.is_file():
        return False
    return not anchor or anchor in names.headings(file.relative_to(ROOT / "docs").as_posix())


# ---- what should be there

def missing(table: Table, proofs: Proofs) -> Iterator[str]:
    shown = {one.name for behind in proofs.values() for one in [*behind.definitions, *behind.parts]}
    yield from (f"no step has the definition {name}" for name in sources.definitions()
                if proof.is_whole(name) and name not in shown)
    steps = [step for _, step in table.steps()]
    yield from absent("edit", (name for name in sources.edits() if proof.crate_of(name) in proof.WHOLE),
                      {name for step in steps for name in step.edits})
    yield from absent("way", names.ways(), {way for step in steps for one in step.ways
                                            for way in names.matching(one, names.ways())})
    yield from absent("play", names.gallery(), {name for step in steps for name in step.plays})
    yield from absent("rule of browsers/rules", names.rules(), {name for step in steps for name in step.browsers})
    reached = {point for step in steps for one in step.reached for point in names.matching(one, names.points())}
    yield from absent("point", (name for name in names.points() if not name.startswith("way/")), reached)


def absent(kind: str, wanted: Iterable[str], there: set[str]) -> Iterator[str]:
    return (f"no step has the {kind} {name}" for name in wanted if name not in there)


def missing_numbers(table: Table) -> Iterator[str]:
    """The steps of an algorithm have no gap, up to the last that is there. RFC 6797 has sections in their place."""
    for algorithm in table.algorithms:
        own = [step.number for step in algorithm.steps if step.number and algorithm.standard != "hsts"]
        last = max((int(number.split(".")[0]) for one in own for number in numbers_of(one)), default=0)
        yield from (f"{algorithm.id} has no step {number}" for number in range(1, last + 1)
                    if not any(is_of(str(number), one) for one in own))


# ---- what comments say

def numbers_of(text: str) -> list[str]:
    """The numbers in `7.12 to 7.15` or `4, 6`."""
    return re.findall(r"\d[\d.]*\d|\d", text)


def numbers_said(comment: str) -> list[str]:
    return [number for found in STEPS.finditer(comment) for number in [found[1], *numbers_of(found[2])]]


def is_of(number: str, step: str) -> bool:
    """A number is one of a step's numbers, in their range, or a part or a whole of one."""
    first, _, last = step.partition(" to ")
    own = numbers_of(step)
    if last and as_order(first) <= as_order(number) <= as_order(last.split(",")[0]):
        return True
    return any(number == one or number.startswith(one + ".") or one.startswith(number + ".") for one in own)


def as_order(number: str) -> list[int]:
    return [int(part) for part in numbers_of(number)[0].split(".")]


def steps_of(table: Table) -> Iterator[tuple[Definition, list[tuple[Algorithm, Step]]]]:
    """Each definition that steps name, with these."""
    found: dict[str, list[tuple[Algorithm, Step]]] = {}
    for algorithm, step in table.steps():
        for name in step.definitions:
            found.setdefault(name, []).append((algorithm, step))
    return ((sources.definitions()[name], steps) for name, steps in found.items() if name in sources.definitions())


def other_numbers(table: Table) -> Iterator[str]:
    """A definition whose comment names steps stands at one of them."""
    for definition, steps in steps_of(table):
        said = numbers_said(definition.comment)
        numbered = [step.number for _, step in steps if step.number]
        if said and numbered and not any(is_of(number, own) for number in said for own in numbered):
            yield f"{definition.name} is of step {', '.join(said)} by its comment, and stands at {'; '.join(numbered)}"


def untold_choices(table: Table) -> Iterator[str]:
    """Where a definition's comment marks a choice of this project, a step of it says which."""
    for definition, steps in steps_of(table):
        is_told = any(step.choices or algorithm.standard == "own" for algorithm, step in steps)
        if OWN_CHOICE.search(definition.comment) and not is_told:
            yield f"{definition.name} is a choice of this project by its comment, and no step of it says so"
