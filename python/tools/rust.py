"""What of bindings/rust is written from the sources of the C header: the declarations (src/sys.rs), the enums of their
numbers (src/numbers.rs), and the version in Cargo.toml."""
from __future__ import annotations

import pathlib
import re
import textwrap
from typing import Any, Iterator

from fiorrudda.places import ROOT
from tools.names import Fault, version

TOP = pathlib.Path(ROOT)
CRATE = TOP / "bindings/rust"
MADE = "Written by embed/header from the sources of the C library: do not edit."
# The types of Rattle that are Rust's under another name, where C lends or takes them.
TYPES = {"*mut u8": "*mut u8", "*const u8": "*const u8"}
PLAIN = {"u8", "u16", "u32", "u64", "usize", "bool"}
# The enums: the beginning of their constants' names, their own names, and what they are.
ENUMS = (
    ("ERROR", "NetworkError", "A network error, by the rule that refuses."),
    ("FAULT", "RequestFault", "Why no request can be made of what is asked for."),
    ("LOAD", "Kind", "What an element loads."),
    ("MODE", "Mode", "The mode of a request (Fetch, section 2.2.5)."),
    ("CREDENTIALS", "Credentials", "The credentials mode of a request (Fetch, section 2.2.5)."),
    ("REDIRECT", "Redirect", "The redirect mode of a request (Fetch, section 2.2.5)."),
    ("CROSSORIGIN", "CrossOrigin", "The `crossorigin` attribute of an element that loads."),
    ("REFERRER", "ReferrerPolicy", "A referrer policy (Referrer Policy, section 3)."),
    ("TAINTING", "Tainting", "A response tainting (Fetch, section 2.2.5)."),
    ("CHECK", "Check", "Which policies are asked, and of what."),
    ("END", "BodyEnd", "How a body ended."),
    ("CALL", "CallKind", "What a book is asked or told."),
    ("REASON", "BookFault", "Why a text is not that of a book."),
)


def said(paragraphs: list[str], indent: str = "", mark: str = "///") -> str:
    """A comment of Rust."""
    width = 100 - len(indent)
    parts = [textwrap.fill(escaped(part), width, initial_indent=f"{mark} ", subsequent_indent=f"{mark} ",
                           break_long_words=False, break_on_hyphens=False) for part in paragraphs]
    return textwrap.indent(f"\n{mark}\n".join(parts) + "\n" * bool(parts), indent)


def escaped(text: str) -> str:
    """Text in which rustdoc sees no link and no tag."""
    return re.sub(r"[\[\]<>]", r"\\\g<0>", text)


def variant(name: str) -> str:
    return "".join(part.capitalize() for part in name.split("_"))


# ---- the declarations

def kind_of(kind: str) -> str:
    lent = re.fullmatch(r"&(mut )?(\w+)", kind)
    if lent:
        return f"*{'mut' if lent[1] else 'const'} {lent[2]}"
    if kind in PLAIN or kind in TYPES:
        return TYPES.get(kind, kind)
    raise Fault(f"there is no type of Rust for {kind}")


def parameters(name: str, kind: str) -> list[str]:
    if kind == "Global":
        return []
    if kind in ("&[u8]", "&mut [u8]"):
        return [f"{name}: *{'mut' if 'mut' in kind else 'const'} u8", f"{name}_len: usize"]
    return [f"{name}: {kind_of(kind)}"]


def declaration(export: Any) -> str:
    """A call as Rust declares it, on one line where that holds it."""
    words = [word for name, kind in export.parameters for word in parameters(name, kind)]
    back = f" -> {kind_of(export.result)}" if export.result else ""
    line = f"    pub fn {export.name}({', '.join(words)}){back};\n"
    if len(line) > 101:
        line = f"    pub fn {export.name}(\n{''.join(f'        {word},{chr(10)}' for word in words)}    ){back};\n"
    return said(export.said, "    ") + line


def struct(it: Any) -> str:
    fields = "".join(f"    pub {name}: {kind_of(kind)},\n" for name, kind in it.fields)
    return f"{said(it.said)}#[repr(C)]\n#[derive(Debug)]\npub struct {it.name} {{\n{fields}}}\n"


def as_sys(library: Any) -> str:
    numbers = [f"{said(it.said)}pub const {it.name}: u32 = {it.number};\n"
               for group in library.constants for it in group]
    calls = "\n".join(map(declaration, library.exports.values()))
    return "\n".join([f"//! The C library's declarations. {MADE}\n\n{''.join(numbers)}",
                      *map(struct, library.structs), f'extern "C" {{\n{calls}}}\n'])


# ---- the enums

def enum(prefix: str, name: str, about: str, rows: list[Any]) -> str:
    """An enum with its words, and the way back from a number."""
    own = [(variant(it.name[len(prefix) + 1:]), it) for it in rows]
    one_text = sum(bool(it.said) for it in rows) == 1 and len(rows) > 1  # (of a table it is said of all)
    variants = "".join(f"{'' if one_text else said(it.said, '    ')}    {word} = {it.number},\n" for word, it in own)
    arms = "".join(f"            {it.number} => Some({name}::{word}),\n" for word, it in own)
    words = "".join(f'            {name}::{word} => "{word}",\n' for word, _ in own)
    listed = "".join(f"        {name}::{word},\n" for word, _ in own)
    return f"""{said([about])}#[derive(Clone, Copy, Debug, PartialEq, Eq, Hash)]
#[non_exhaustive]
#[repr(u32)]
pub enum {name} {{
{variants}}}

impl {name} {{
    /// All of them, in the order of their numbers.
    pub const ALL: &'static [{name}] = &[
{listed}    ];

    /// The one of a number.
    pub fn of(number: u32) -> Option<{name}> {{
        match number {{
{arms}            _ => None,
        }}
    }}

    /// Its name, as `fetchplay` prints those of errors and faults.
    pub fn name(self) -> &'static str {{
        match self {{
{words}        }}
    }}
}}

impl std::fmt::Display for {name} {{
    fn fmt(&self, into: &mut std::fmt::Formatter<'_>) -> std::fmt::Result {{
        into.write_str(self.name())
    }}
}}
"""


def as_numbers(library: Any) -> str:
    every = [it for group in library.constants for it in group]
    parts = [enum(prefix, name, about, [it for it in every if it.name.startswith(f"{prefix}_")])
             for prefix, name, about in ENUMS]
    return f"//! The numbers of the C library as enums. {MADE}\n\n" + "\n".join(parts)


def as_manifest() -> str:
    text = (CRATE / "Cargo.toml").read_text("utf-8")
    return re.sub(r'^version = ".*"$', f'version = "{version()}"', text, count=1, flags=re.M)


def written(library: Any) -> Iterator[tuple[pathlib.Path, str]]:
    yield CRATE / "src/sys.rs", as_sys(library)
    yield CRATE / "src/numbers.rs", as_numbers(library)
    yield CRATE / "Cargo.toml", as_manifest()
