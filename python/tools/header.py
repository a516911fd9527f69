"""Writes include/fiorrudda.h from the exports of the static libraries, the tables of their numbers and the examples of
embed/examples.c; from the same what links to the library: embed/libfiorrudda.map and debian/libfiorrudda1.symbols
(versions.py), the declarations of bindings/rust (rust.py), the calls of js/package (javascript.py); and for other
languages the words of the engine, from its sources: schema/names.json and the other files of names.py. With --check it
says which file is not what it would write."""
from __future__ import annotations

import pathlib
import re
import sys
import textwrap
from typing import Iterator, NamedTuple, NoReturn

from fiorrudda.places import ROOT
from tools import javascript, names as engine_names, rust, versions

TOP = pathlib.Path(ROOT)
# What declares codes and handles, and the static libraries, in the order of the header.
CRATES = ("c_handle", "c_calls", "c_fetch_calls", "c_policies", "c_books", "c_play")
HEADER = TOP / "include/fiorrudda.h"
COSTS = TOP / "embed/costs"

# What each type is in C, and how many bytes it takes as a field.
TYPES = {
    "u8": ("uint8_t", 1),
    "u16": ("uint16_t", 2),
    "u32": ("uint32_t", 4),
    "u64": ("uint64_t", 8),
    "usize": ("size_t", 8),
    "bool": ("bool", 1),
    "*mut u8": ("void *", 8),
    "*const u8": ("const uint8_t *", 8),
}
SLICES = {"&[u8]": "const uint8_t *", "&mut [u8]": "uint8_t *"}

# The calls in the order of the header, by what they are for, each group with its example in embed/examples.c.
GROUPS = (
    ("What a handle holds is freed by", None, "free"),
    ("Header lists", "lists", "headers append get name_at value_at"),
    ("Origins, sites, ports and the referrer", "origins", "origin same_origin same_site trustworthy bad_port referrer"),
    ("CORS, and what scripts may send", "cors",
     "cors_check exposed_name safelisted unsafe_name forbidden_header forbidden_method"),
    ("Answers: their types, their bodies, and from whom they are kept", "answers",
     "essence nosniff type_blocked nosniff_blocked integrity resource_policy"),
    ("Clients and requests, for the rules below and for whole fetches", "requests",
     "client client_policy client_cookie request load request_header request_text request_choose"),
    ("Policies and mixed content", "policies",
     "policies upgrades check violation violation_directive violation_url source_matches mixed_upgraded mixed_blocked"),
    ("Preflights", "preflights", "preflight verdict refused_name"),
    ("What a page sees of an answer", "seen", "filtered"),
    ("Books: the known hosts and the preflight cache", "books", "book sts note_host known_host book_text book_of_text"),
    ("A whole fetch, by its acts", "fetch", "fetch act ask judge to_send input feed text number"),
    ("A whole play of a scenario (docs/scenario.md), its reports, and the audit of one", "play", "play reports audit"),
)
# Calls by which no rule of a standard is asked; each other one names its section.
OWN = ("free", "text", "number", "book_text", "book_of_text", "play", "reports", "audit")
# Where the library's tables of names have their numbers: a prefix, a file, and the arms of the table.
TABLES = (
    ("ERROR", "value_requests/src/error.rt", r"^ +NetError::\w+(?:\(_\))? => \((?P<number>\d+), \"(?P<name>\w+)\"\),$",
     "Network errors, by the rule that refuses: docs/rules/printed-text.md lists where each comes."),
    ("FAULT", "value_requests/src/fault.rt", r"^ +TypeFault::\w+(?:\(_\))? => \((?P<number>\d+), \"(?P<name>\w+)\"\),$",
     "Why no request can be made of what is asked for: docs/rules/requests.md says where each comes."),
    ("END", "c_fetch/src/amounts.rt", r"^ +BodyEnd::(?P<name>\w+)(?:\(_\))? => (?P<number>\d+),$",
     "How a body ended: it is null, came whole, was cut, its connection failed, or it is longer than `limit`."),
)
# Numbers that stand in a table of another kind: the text before each in its file.
AMOUNTS = "c_fetch/src/amounts.rt"
NUMBERS = (
    ("CALL_MATCH", "(Op::Match(_, _), Amount::Call) => Some(", "What a book is asked or told: is a host known?"),
    ("CALL_NOTE", "(Op::Note(_, _, _), Amount::Call) => Some(", "A host becomes known."),
    ("CALL_COVERS", "question: &Question, * Amount::Call => Some(", "Does the preflight cache cover a request?"),
    ("CALL_LEARN", "lesson: &Lesson, * Amount::Call => Some(", "The preflight cache learns what a preflight allowed."),
    ("CALL_CLEAR", "(Op::Clear(_, _, _, _), Amount::Call) => Some(",
     "It forgets what it has learnt of an origin and a URL."),
    ("OUTCOME_RESPONSE", "fn response_amount(* Amount::Outcome => Some(", "What a fetch came to: a response."),
    ("OUTCOME_LOADED", "(Outcome::Loaded, Amount::Outcome) => Some(", "A load that succeeded."),
    ("OUTCOME_ERROR", "(Outcome::Error(_), Amount::Outcome) => Some(", "A network error."),
)

TOP_OF_FILE = """\
// Fiorrudda, a browser's fetch engine that is proved, for C. Written by embed/header from the exports: do not edit.
// docs/embedding.md says what is proved of each call and what a new version may change, docs/TRUST.md what that rests on.
//
// A code other than FIORRUDDA_OK and FIORRUDDA_NO is no answer, neither yes nor no: compare with the one of the two that
// permits, which docs/embedding.md lists.
//
// A text is a pointer and a length in bytes, of any bytes. A pointer is never null; with length 0 it may point anywhere.
// Nothing is kept of what was lent to a call, and two things that are lent to one call do not overlap, unless both are
// only read. Any call may be made at any time: what it is given, it takes or refuses by a code. A handle is used by one
// thread at a time; otherwise calls may run side by side. Times are in seconds.
//
// Limits: a URL has at most 8,192 bytes, and its text 786,432; the method and headers of a request together 16,384, its
// body 65,536; the head of an answer 65,536, its body as many as `fiorrudda_fetch` is told. A book keeps 4,096 hosts, and 64
// entries of a key of the preflight cache: one more drops the host whose term ends first, or the oldest entry of the key.
%(costs)s//
// Below, after the constants, stand the calls by what they are for, each group with an example. In the examples T(text) is
// (const uint8_t *)(text), sizeof(text) - 1 of a literal; handles are zeroed at first, as fiorrudda_handle book = {0};,
// `room` is an array of bytes, and what is made is freed at last by fiorrudda_free. Where an example takes no notice of a
// code, a program would.
#pragma once
#include <stdbool.h>
#include <stddef.h>
#include <stdint.h>
#ifdef __cplusplus
extern "C" {
#endif

/// The version of this header, as a number: 10,000 times its first part, 100 times its second, and its third.
#define FIORRUDDA_VERSION %(number)du
/// The same as a text.
#define FIORRUDDA_VERSION_TEXT "%(text)s"
%(macro)s"""
# Where the calls were measured.
ABOUT_COSTS = """\
//
// What a call costs is that of one with short texts, a list of four headers, or a GET, by one thread on the machine of
// docs/MEASURED.md: nanoseconds, and bytes that it asks the heap for (bench/calls.c). It grows with the texts.
"""
# Until the library exports it, so that a program may ask today as it will then.
VERSION_CALL = """\
/// The version of the library that is linked; as long as this is a macro, that of the header.
#define fiorrudda_version() FIORRUDDA_VERSION
"""
END_OF_FILE = """\
#ifdef __cplusplus
}
#endif
"""


def fail(text: object) -> NoReturn:
    sys.exit(f"embed/header: {text}")


def c_struct(name: str) -> str:
    return f"fiorrudda_{upper(name).lower()}"


def c_name(type_and_name: str) -> str:
    """A declaration, with no space after a star."""
    return re.sub(r"\* (?=\w)", "*", type_and_name)


def files() -> list[str]:
    """The files of the crates, in the order of their `mod` lines."""
    libraries = re.findall(r"^(c_\w+) staticlib:", (TOP / "crates.txt").read_text(), re.M)
    if set(libraries) != set(CRATES[1:]):
        fail(f"crates.txt has other static libraries: {' '.join(libraries)}")
    found = []
    for crate in CRATES:
        source = TOP / "crates" / crate / "src"
        names = re.findall(r"^mod (\w+);$", (source / "lib.rt").read_text(), re.M)
        first = ["codes", "policies", "handle"]
        ordered = [it for it in first if it in names] + [it for it in names if it not in first]
        found += [(source / f"{name}.rt").read_text() for name in ordered]
    return found


class Constant(NamedTuple):
    """A number by its name without FIORRUDDA_, and what is said of it; of a table that is said of its first."""
    name: str
    number: int
    said: list[str]


class Struct(NamedTuple):
    """A type of C by its name in Rattle, its fields, each with its type in Rattle, and what is said of it."""
    name: str
    fields: list[tuple[str, str]]
    said: list[str]


class Export(NamedTuple):
    """A call by its name, its parameters, each with its type in Rattle, the type of its result, and what is said of
    it."""
    name: str
    parameters: list[tuple[str, str]]
    result: str | None
    said: list[str]


def docs(text: str, at: int) -> list[str]:
    """The paragraphs of the lines that begin with /// above a place, past attributes."""
    lines = text[:at].rstrip("\n").split("\n")
    while lines and lines[-1].startswith("#["):
        lines.pop()
    found: list[str] = []
    while lines and lines[-1].startswith("///"):
        found.insert(0, lines.pop()[3:].strip())
    return [" ".join(part.split()) for part in "\n".join(found).split("\n\n")] if found else []


def comment(paragraphs: list[str]) -> str:
    """What is said of a thing, as a comment that tools for other languages carry over. Codes have their names in C."""
    out = []
    for part in paragraphs:
        said = re.sub(r"`([A-Z][A-Z_]*(?:\.\.)?)`", r"FIORRUDDA_\1", part)
        out.append(textwrap.fill(said, 118, initial_indent="/// ", subsequent_indent="/// "))
    return "\n///\n".join(out) + "\n" * bool(out)


def constants(text: str) -> Iterator[list[Constant]]:
    for it in re.finditer(r"^pub const (\w+): u32 = (\d+);$", text, re.M):
        yield [Constant(it[1], int(it[2]), docs(text, it.start()))]


def upper(name: str) -> str:
    return re.sub(r"(?<!^)(?=[A-Z])", "_", name).upper()


def tables() -> Iterator[list[Constant]]:
    """The constants of the tables of names, each with its numbers in order and none twice."""
    for prefix, file, arm, said in TABLES:
        text = (TOP / "crates" / file).read_text()
        rows = [(it["name"], int(it["number"])) for it in re.finditer(arm, text, re.M)]
        first = rows[0][1] if rows else fail(f"no table in {file}")
        if [number for _, number in rows] != list(range(first, first + len(rows))):
            fail(f"the numbers in {file} are not one after the other")
        yield [Constant(f"{prefix}_{upper(name)}", number, [said] * (number == first)) for name, number in rows]
    text = (TOP / "crates" / AMOUNTS).read_text()
    for name, before, said in NUMBERS:
        found = re.findall(".*?".join(map(re.escape, before.split("* "))) + r"(\d+)\)", text, re.S)
        if len(found) != 1:
            fail(f"the number of {name} stands {len(found)} times in {AMOUNTS}")
        yield [Constant(name, int(found[0]), [said])]


def defined(group: list[Constant]) -> str:
    return "".join(f"{comment(it.said)}#define FIORRUDDA_{it.name} {it.number}u\n" for it in group)


def structs(text: str) -> Iterator[Struct]:
    for it in re.finditer(r"^#\[repr\(C\)\]\n(?:#\[[^\n]*\]\n)*pub struct (\w+) \{\n(.*?)^\}$", text, re.M | re.S):
        yield Struct(it[1], re.findall(r"^    (?:pub )?(\w+): ([^{\n]+),$", it[2], re.M), docs(text, it.start()))


def struct_in_c(it: Struct) -> str:
    name, end, fields, asserts = c_struct(it.name), 0, [], []
    for row, kind in it.fields:
        written, size = TYPES.get(kind) or fail(f"no type of C for the field {row}: {kind}")
        end = -(-end // size) * size
        fields.append(c_name(f"    {written} {row};\n"))
        asserts.append(f'_Static_assert(offsetof({name}, {row}) == {end}, "{row}");\n')
        end += size
    widest = max(TYPES[kind][1] for _, kind in it.fields)
    asserts.append(f'_Static_assert(sizeof({name}) == {-(-end // widest) * widest}, "{name}");\n')
    return (
        f"{comment(it.said)}typedef struct {name} {{\n{''.join(fields)}}} {name};\n"
        f"#ifndef __cplusplus\n{''.join(asserts)}#endif\n"
    )


def parameter(name: str, kind: str, known: set[str]) -> list[str]:
    if kind == "Global":
        return []
    if kind in TYPES:
        return [c_name(f"{TYPES[kind][0]} {name}")]
    if kind in SLICES:
        return [c_name(f"{SLICES[kind]} {name}"), f"size_t {name}_len"]
    lent = re.fullmatch(r"&(mut )?(\w+)", kind)
    if lent and (lent[2] in known or lent[2] in TYPES):
        written = c_struct(lent[2]) if lent[2] in known else TYPES[lent[2]][0]
        return [f"{'' if lent[1] else 'const '}{written} *{name}"]
    fail(f"no type of C for the parameter {name}: {kind}")


EXPORT = re.compile(
    r'^#\[unsafe\(no_mangle\)\]\npub extern "C" fn (\w+)\((.*?)\)(?: -> (\w+))?\n', re.M | re.S
)


def exports(text: str) -> Iterator[Export]:
    found = list(EXPORT.finditer(text))
    if len(found) != text.count("no_mangle"):
        fail("an export was not read")
    for it in found:
        pairs = [(name, " ".join(kind.split())) for name, kind in re.findall(r"(\w+): ([^,]+)", it[2])]
        yield documented(Export(it[1], pairs, it[3], docs(text, it.start())))


def costs() -> dict[str, str]:
    """What each call costs, as bench/embed.py measured it, in a sentence."""
    found = {}
    for line in COSTS.read_text("utf-8").splitlines() if COSTS.is_file() else []:
        if not line.startswith("#"):
            name, nanoseconds, size = line.split()
            found[f"fiorrudda_{name}"] = f"About {int(nanoseconds):,} ns, {int(size):,} bytes."
    return found


def export_in_c(it: Export, known: set[str], cost: str | None) -> str:
    words = [word for name, kind in it.parameters for word in parameter(name, kind, known)]
    back = TYPES[it.result][0] if it.result else "void"
    said = it.said + ([cost] if cost else [])
    return f"{comment(said)}{back} {it.name}({', '.join(words) or 'void'});\n"


def examples() -> dict[str, str]:
    text = (TOP / "embed/examples.c").read_text()
    found = {}
    for it in re.finditer(r"^    // example (\w+)\n(.*?)^    // end$", text, re.M | re.S):
        lines = it[2].splitlines()
        if len(lines) > 10 or any(len(line) > 120 for line in lines):
            fail(f"the example {it[1]} is longer than ten lines of 120 characters")
        found[it[1]] = "".join(f"// {line}\n" for line in lines)
    return found


def grouped(found: dict[str, str]) -> list[str]:
    """The declarations by their groups, with their examples."""
    shown, parts = examples(), []
    for title, example, names in GROUPS:
        told = f"//\n{shown.pop(example)}" if example else ""
        parts.append(f"// ---- {title}\n{told}")
        parts += [found.pop(f"fiorrudda_{name}", "") or fail(f"no export is fiorrudda_{name}")
                  for name in names.split()]
    if found or shown:
        fail(f"in no group: {', '.join([*found, *shown])}")
    return parts


def documented(export: Export) -> Export:
    """An export, which says its codes, and the section of a standard."""
    name, said = export.name, " ".join(export.said)
    if name != "fiorrudda_free" and "`OK`" not in said and "The codes are the same" not in said:
        fail(f"{name} does not say its codes")
    if name.removeprefix("fiorrudda_") not in OWN and not re.search(r"\bsections? \d", said):
        fail(f"{name} does not say its section")
    return export


class Library(NamedTuple):
    """What the library has for other languages."""
    constants: list[list[Constant]]
    structs: list[Struct]
    exports: dict[str, Export]


def library() -> Library:
    texts = files()
    return Library([group for text in texts for group in constants(text)] + list(tables()),
                   [it for text in texts for it in structs(text)],
                   {it.name: it for text in texts for it in exports(text)})


def top_of_file(found: Library) -> str:
    text = engine_names.version()
    first, second, third = map(int, text.split("."))
    macro = "" if "fiorrudda_version" in found.exports else VERSION_CALL
    about = ABOUT_COSTS if COSTS.is_file() else ""
    return TOP_OF_FILE % {"number": first * 10000 + second * 100 + third, "text": text, "macro": macro, "costs": about}


def written(found: Library) -> str:
    known = {it.name for it in found.structs}
    parts = [*map(defined, found.constants), *map(struct_in_c, found.structs)]
    told = costs()
    parts += grouped({name: export_in_c(it, known, told.get(name)) for name, it in found.exports.items()})
    return "\n".join([top_of_file(found), *parts, END_OF_FILE])


def files_written() -> Iterator[tuple[pathlib.Path, str]]:
    """Each file that is written, with its text."""
    found = library()
    header = written(found)
    try:
        yield HEADER, header
        yield from versions.written(list(found.exports), engine_names.version())
        yield from rust.written(found)
        yield from engine_names.written()
        yield from javascript.written(header, engine_names.tables())
    except engine_names.Fault as fault:
        fail(fault)


def main() -> None:
    words = sys.argv[1:]
    if words not in ([], ["--check"]):
        fail("it takes --check, or nothing")
    for file, text in files_written():
        is_same = file.is_file() and file.read_text("utf-8") == text
        if words and not is_same:
            fail(f"{file.relative_to(TOP)} is not what the sources say: run embed/header")
        if not is_same:
            file.write_text(text, "utf-8")

