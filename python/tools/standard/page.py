"""The page: a table of contents, and for each step what stands behind it. It needs nothing but its style sheet."""
from __future__ import annotations

import re
from collections.abc import Iterable, Iterator
from html import escape

from tools.standard import names
from tools.standard.proof import Proof
from tools.standard.sources import Change, Definition, Edit, Function
from tools.standard.table import Algorithm, Standard, Step, Table

Proofs = dict[str, Proof]
TITLE = "The standard, with its proof beside it"
FEW = 4  # so many scenarios are shown at once, and more are folded


def written(table: Table, proofs: Proofs) -> str:
    main = [f"<main>\n{intro(table, proofs)}", *(section(table, one, proofs) for one in table.algorithms), "</main>"]
    return "\n".join([
        "<!DOCTYPE html>", "<!-- Written by bin/standard of steps.json: change that. -->", '<html lang="en">', "<head>",
        '<meta charset="utf-8">', '<meta name="viewport" content="width=device-width, initial-scale=1">',
        f"<title>{TITLE}</title>", '<link rel="stylesheet" href="standard.css">', "</head>", "<body>",
        contents(table), *main, "</body>", "</html>", ""])


# ---- small things

def link(path: str, text: str, kind: str = "", title: str = "") -> str:
    """A link whose text may have marks of its own."""
    return f'<a{attribute("class", kind)}{attribute("title", title)} href="{escape(path)}">{text}</a>'


def attribute(name: str, value: str) -> str:
    return f' {name}="{escape(value)}"' if value else ""


def code(text: str) -> str:
    return f"<code>{escape(text)}</code>"


def source(path: str, line: int = 0) -> str:
    """A file of the repository, with the line."""
    return link("../../" + path, escape(path.removeprefix("crates/") + (f":{line}" if line else "")), "at")


def doc(place: str) -> str:
    """A place of docs/, by its page and its heading."""
    return link("../" + place, escape(f"{place.partition('#')[0]}: {names.title(place)}" if "#" in place
                                      else names.title(place)))


def folded(summary: str, inside: str) -> str:
    return f"<details><summary>{summary}</summary>{inside}</details>"


def with_code(text: str) -> str:
    """A text whose words between backticks are code."""
    return re.sub(r"`([^`]+)`", r"<code>\1</code>", escape(text))


def pre(text: str) -> str:
    return f"<pre>{escape(text)}</pre>"


def bare(name: str) -> str:
    return name.rpartition("/")[2]


def several(count: int, one: str, more: str = "") -> str:
    return f"{count} {one if count == 1 else more or one + 's'}"


# ---- the contents

def contents(table: Table) -> str:
    parts = [f'<nav><p class="title">{link("#top", TITLE)}</p>']
    for key, standard in table.standards.items():
        own = [one for one in table.algorithms if one.standard == key]
        parts.append(f"<h2>{escape(standard.name)}</h2>\n<ul>" + "".join(map(entry, own)) + "</ul>")
    return "\n".join([*parts, "</nav>"])


def entry(algorithm: Algorithm) -> str:
    numbers = [step.number for step in algorithm.steps]
    steps = " ".join(link(f"#{step.id}", escape(label(step, numbers)), f"chip {kind(step)}", step.name)
                     for step in algorithm.steps)
    number = f"<span>{escape(algorithm.section)}</span> " if algorithm.section else ""
    return f'<li>{link("#" + algorithm.id, number + escape(algorithm.name))}<div class="chips">{steps}</div></li>\n'


def label(step: Step, numbers: list[str]) -> str:
    """The number of a step, and its case where another has that number too."""
    case = step.case if numbers.count(step.number) > 1 or not step.number else ""
    return " ".join(filter(None, [number_of(step), case]))


def number_of(step: Step) -> str:
    return step.number.replace(" to ", "–")


def kind(step: Step) -> str:
    """What a step is above all: its colour."""
    return "hole" if step.hole else "left" if step.left_out else "choice" if step.choices else "built"


# ---- the beginning

def counted(table: Table, proofs: Proofs) -> str:
    steps = [step for _, step in table.steps()]
    shown = {one.name for behind in proofs.values() for one in (*behind.definitions, *behind.parts)}
    functions = {(one.path, one.line) for behind in proofs.values() for one in behind.code}
    edits = {edit for step in steps for edit in step.edits}
    left = sum(bool(step.left_out) for step in steps)
    return (f"{len(table.algorithms)} algorithms with {len(steps)} steps, of which {len(steps) - left} are built and "
            f"{left} left out; {len(shown)} definitions, {len(functions)} functions, {len(edits)} edits that must "
            f"fail, {len(names.ways())} ways out, {len(names.gallery())} plays, "
            f"{len(names.rules())} differences of browsers")


LEGEND = [
    ("built", "built", "it has a definition, and code whose contract cites it"),
    ("choice", "own choice", "so it is, and the standard leaves open, or says otherwise, what is chosen"),
    ("hole", "hole", "the standard's own text lets through what it should not"),
    ("left", "left out", "the engine has not got it, and the reason stands there"),
]
READING = [
    ("Definition", "what the standard says, in the words of the proof (crates/*/specs). Those that are made of smaller "
     "ones name them."),
    ("Code", "the functions whose contracts cite the definition (crates/*/src). The check proves each contract."),
    ("Edit", "a wrong edit of the code or a definition that the proof refuses: what would break the step."),
    ("Ways", "the names by which bin/why tells why the step refused, each with a scenario that comes to it."),
    ("Plays", "of the gallery, with a line that the stored play has; and more scenarios that reach the step."),
    ("Browsers", f"what {' and '.join(names.measured())} do otherwise, with the scenario that shows it."),
]


def intro(table: Table, proofs: Proofs) -> str:
    legend = "".join(f'<li><span class="tag {one}">{name}</span> {what}</li>' for one, name, what in LEGEND)
    reading = "".join(f"<dt>{name}</dt><dd>{what}</dd>" for name, what in READING)
    readme, architecture = link("README.md", "README"), link("../ARCHITECTURE.md", "ARCHITECTURE")
    return f"""<header id="top">
<h1>{TITLE}</h1>
<p>What a browser does for a request, step by step as the standards number it, and for each step what proves it here.
No text of the standards is copied: open them beside this page. Fetch is meant as of the end of 2025, and steps have the
numbers of that text.</p>
<p class="count">{escape(counted(table, proofs))}.</p>
<ul class="legend">{legend}</ul>
<dl class="reading">{reading}</dl>
{overview(table)}
<p>This page is written by a script, which finds each name in the sources or fails ({readme}). It does not look up the
links to the standards. How the crates stand on each other is in {architecture}.</p>
</header>"""


def overview(table: Table) -> str:
    """Where the standard has holes, what is chosen here, and what is left out, each with its step."""
    steps = list(table.steps())
    holes = listed(told_at(algorithm, step, step.hole) for algorithm, step in steps if step.hole)
    chosen = [told_at(algorithm, step, choice) for algorithm, step in steps for choice in step.choices]
    left = [told_at(algorithm, step, step.left_out) for algorithm, step in steps if step.left_out]
    return (f'<div class="overview">\n<h2>Holes in the standard</h2>\n{holes}\n'
            + folded(f"{several(len(chosen), 'choice')} of this project", listed(chosen))
            + folded(f"{several(len(left), 'step')} that are left out, and why", listed(left)) + "\n</div>")


def told_at(algorithm: Algorithm, step: Step, text: str) -> str:
    at = ", ".join(filter(None, [algorithm.name, number_of(step)]))
    return f"{link('#' + step.id, escape(f'{at}: {step.name}'))}<br>{escape(text)}"


# ---- an algorithm

def section(table: Table, algorithm: Algorithm, proofs: Proofs) -> str:
    standard = table.standards[algorithm.standard]
    number = f'<span class="number">{escape(algorithm.section)}</span> ' if algorithm.section else ""
    pages = ", ".join(doc(place) for place in algorithm.pages)
    of = " · ".join(filter(None, [outside(standard, algorithm), f"here: {pages}" if pages else ""]))
    steps = "\n".join(article(step, proofs[step.id]) for step in algorithm.steps)
    return (f'<section id="{algorithm.id}">\n<h2>{number}{escape(algorithm.name)}</h2>\n<p class="of">{of}</p>\n'
            f"<p>{escape(algorithm.about)}</p>\n{steps}\n</section>")


def outside(standard: Standard, algorithm: Algorithm) -> str:
    """A link to the standard: an anchor, or a page of HTML."""
    name = " ".join(filter(None, [standard.name, f"({standard.state})" if standard.state else ""]))
    if not standard.url:
        return escape(name)
    mark = "#" if algorithm.anchor and not algorithm.anchor.endswith(".html") else ""
    return link(standard.url + mark + algorithm.anchor, escape(name))


# ---- a step

def article(step: Step, behind: Proof) -> str:
    rows = "\n".join(f'<div class="row"><div>{name}</div><div>{inside}</div></div>'
                     for name, inside in rows_of(step, behind) if inside)
    number = escape(number_of(step)) or "#"
    return (f'<article id="{step.id}" class="{kind(step)}">\n<h3>{link("#" + step.id, number, "number")} '
            f"{escape(step.name)} {marks(step)}</h3>\n{rows}\n</article>")


def marks(step: Step) -> str:
    found = [("left", "left out")] if step.left_out else []
    found += [("hole", "hole")] if step.hole else []
    found += [("choice", "own choice")] if step.choices else []
    engines = [engine for engine in names.BROWSERS.values()
               if any(engine in names.rules()[name].engines for name in step.browsers)]
    found += [("differ", " and ".join(engines) + (" differ" if len(engines) > 1 else " differs"))] if engines else []
    return " ".join(f'<span class="tag {one}">{text}</span>' for one, text in found)


def rows_of(step: Step, behind: Proof) -> Iterator[tuple[str, str]]:
    yield "Hole", paragraph(step.hole)
    yield "Left out", paragraph(step.left_out)
    yield "Note", paragraph(step.note)
    yield "Choice", "".join(map(paragraph, step.choices))
    yield "Definition", definitions(behind)
    yield "Code", "".join(map(function, behind.code))
    yield "Edit", "".join(map(edit, behind.edits))
    yield "Ways", listed(map(way, (name for one in step.ways for name in names.matching(one, names.ways()))))
    yield "Plays", plays(step)
    yield "Browsers", listed(map(difference, step.browsers))
    yield "See", ", ".join(map(doc, step.see))


def paragraph(text: str) -> str:
    return f"<p>{escape(text)}</p>" if text else ""


def listed(items: Iterable[str]) -> str:
    inside = "".join(f"<li>{item}</li>" for item in items)
    return f"<ul>{inside}</ul>" if inside else ""


# ---- definitions, code and edits

def definitions(behind: Proof) -> str:
    own = "".join(map(definition, behind.definitions))
    if not behind.parts:
        return own
    parts = "".join(map(definition, behind.parts))
    called = ", ".join(code(bare(one.name)) for one in behind.parts)
    return own + folded(f'<span class="parts">made of {called}</span>', f'<div class="inner">{parts}</div>')


def definition(one: Definition) -> str:
    said = f' <span class="said">{with_code(one.comment)}</span>' if one.comment else ""
    return folded(f"{code(bare(one.name))} {source(one.path, one.line)}{said}", pre(one.text))


def function(one: Function) -> str:
    return folded(f"{code(bare(one.name))} {source(one.path, one.line)}", pre(one.text))


def edit(one: Edit) -> str:
    called = bare(one.name).replace("_", " ")
    return folded(f'<span class="edit">{escape(called)}</span> {source(one.path)}', "".join(map(change, one.changes)))


def change(one: Change) -> str:
    lines = [("old", "- ", one.old), ("new", "+ ", one.new)]
    text = "\n".join(f'<span class="{name}">{escape(sign + line)}</span>'
                     for name, sign, block in lines for line in block.split("\n"))
    within = f" in {code(bare(one.within))}" if bare(one.within) else ""
    return f'<p class="where">{source(one.path, one.line)}{within}</p><pre>{text}</pre>'


# ---- what shows it

def scenario(path: str) -> str:
    """A stored scenario, by its folder and name; one of the gallery has a page."""
    folder, _, name = path.rpartition("/")
    if name == "scenario.json":
        return link(f"../../{folder}/README.md", escape(folder))
    return link(f"../../{path}", escape(path.removesuffix(".json")))


def way(name: str) -> str:
    point = f"way/{name}"
    by = f"by {scenario(names.points()[point])}" if point in names.points() else names.beyond().get(point, "")
    return f"<code{attribute('title', names.ways()[name])}>{escape(name)}</code> <span class=\"by\">{by}</span>"


def plays(step: Step) -> str:
    shown = [f"{scenario(f'gallery/{play}/scenario.json')} {code(line)}" for play, line in step.plays.items()]
    reached = [point for one in step.reached for point in names.matching(one, names.points())]
    more = [f"{escape(point)} <span class=\"by\">by {scenario(names.points()[point])}</span>" for point in reached]
    if len(more) > FEW:
        return listed(shown) + folded(f"{several(len(more), 'point')} that scenarios reach", listed(more))
    return listed(shown + more)


def difference(name: str) -> str:
    rule = names.rules()[name]
    place = link(f"../BROWSERS.md#{rule.section}", escape(name))
    where = link(f"../../browsers/corpus/{rule.scenario}.json", "scenario", "at")
    return f"<b>{' and '.join(rule.engines)}</b>: {escape(rule.what)} ({place}, {where})"
