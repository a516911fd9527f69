"""What the JavaScript package has of the engine's calls, numbers and words: js/package/calls.js, one function for each
call of the C header; errors.js, a class for each code that is no answer; refusals.js, what network errors mean; and
index.d.ts, out of js/index.d.ts.in, where `{section CALL}` is what the header says of the standard, `{words TABLE}` the
words of schema/names.json, and `{errors}` the classes."""
from __future__ import annotations

import json
import pathlib
import re
from typing import Iterator, NamedTuple

from fiorrudda.places import ROOT
from tools.names import Fault, Names

TOP = pathlib.Path(ROOT)
MADE = "// Written by embed/header: do not edit."
TEMPLATE = "js/index.d.ts.in"
# The prefixes of the constants that are no codes.
PREFIXES = ("ACT", "CALL", "CHECK", "CHOOSE", "CREDENTIALS", "CROSSORIGIN", "END", "ERROR", "FAULT", "INPUT", "LOAD",
            "MODE", "NUMBER", "OUTCOME", "REASON", "REDIRECT", "REFERRER", "REQUEST", "TAINTING", "TEXT")
# Codes that are answers, or that no caller sees.
ANSWERS = ("OK", "NO", "TOO_SHORT")
OUTS = {"uint32_t *": "u32", "uint64_t *": "u64", "size_t *": "u64"}


class Call(NamedTuple):
    """A call of the header: its name, its parameters as pairs of a kind and a name, and what is said of it."""

    name: str
    parameters: list[tuple[str, str]]
    said: str


def camel(name: str) -> str:
    first, *rest = name.lower().split("_")
    return first + "".join(word.capitalize() for word in rest)


def pascal(name: str) -> str:
    return "".join(word.capitalize() for word in name.lower().split("_"))


# ---- what the header has

def parameters_of(text: str) -> list[tuple[str, str]]:
    """The parameters of a declaration: a text and a room are each one, with their lengths."""
    found, words = [], text.split(", ")
    while words:
        kind, name = re.findall(r"^(.*?[ *])(\w+)$", words.pop(0))[0]
        if kind == "const uint8_t *":
            words.pop(0)
            found.append(("text", name))
        elif kind == "uint8_t *":
            del words[:2]
            found.append(("room", name))
        elif kind in OUTS:
            found.append((OUTS[kind] + "_out", name))
        else:
            kinds = {"fiorrudda_handle *": "handle", "bool ": "bool", "uint16_t ": "u32", "uint32_t ": "u32",
                     "uint64_t ": "u64", "size_t ": "u64"}
            found.append((kinds[kind], name))
    return found


def calls_of(header: str) -> list[Call]:
    pattern = re.compile(r"((?:^///.*\n)+)^(?:uint32_t|void) fiorrudda_(\w+)\((.*)\);$", re.M)
    return [Call(name, parameters_of(text), " ".join(re.findall(r"^/// ?(.*)$", said, re.M)))
            for said, name, text in pattern.findall(header)]


def numbers_of(header: str) -> dict[str, dict[str, int]]:
    """The constants by their prefixes; the codes by none. The version is no constant of the engine."""
    found: dict[str, dict[str, int]] = {"CODE": {}, **{prefix: {} for prefix in PREFIXES}}
    for name, number in re.findall(r"^#define FIORRUDDA_(?!VERSION )(\w+) (\d+)u$", header, re.M):
        prefix, _, rest = name.partition("_")
        is_code = prefix not in PREFIXES
        found["CODE" if is_code else prefix][name if is_code else rest] = int(number)
    return found


def said_of_code(header: str, name: str) -> str:
    """The first sentence of what is said of a code."""
    found = re.search(rf"((?:^///.*\n)+)#define FIORRUDDA_{name} \d+u\n", header, re.M)
    said = " ".join(re.findall(r"^/// ?(.*)$", found[1], re.M)) if found else ""
    first: str = re.findall(r"^(?:[^`]*?\.(?= |$)|[^`;]*)", said)[0].rstrip(". ")
    if not first:
        raise Fault(f"the header says nothing of FIORRUDDA_{name}")
    return f"{first}."


# ---- calls.js

BEFORE = {"text": "  const {0}At = engine.lend({0});\n  const {0}Len = engine.length;\n",
          "u32_out": "  const {0}At = engine.out();\n", "u64_out": "  const {0}At = engine.out();\n"}
GIVEN = {"text": "{0}At, {0}Len", "u32_out": "{0}At", "u64_out": "{0}At", "handle": "{0}", "bool": "{0} ? 1 : 0",
         "u32": "{0}", "u64": "BigInt({0})", "room": "room, roomLen, len"}
AFTER = {"u32_out": "{0}: engine.outU32({0}At)", "u64_out": "{0}: engine.outU64({0}At)"}


def function_of(call: Call) -> str:
    """The function of a call. It gives the code; of a call with outs, or with a room, an object that has them too."""
    kinds = [(kind, camel(name)) for kind, name in call.parameters]
    taken = [name for kind, name in kinds if kind != "room" and kind not in AFTER]
    before = "".join(BEFORE[kind].format(name) for kind, name in kinds if kind in BEFORE)
    given = ", ".join(GIVEN[kind].format(name) for kind, name in kinds)
    outs = [AFTER[kind].format(name) for kind, name in kinds if kind in AFTER]
    asked = f"engine.exports.fiorrudda_{call.name}({given})"
    if any(kind == "room" for kind, _ in kinds):
        asked = f"engine.written((room, roomLen, len) => {asked})"
        back = "  engine.done();\n  return answer;\n"
        body = f"  const answer = {asked};\n{back}"
    elif outs:
        body = (f"  const code = {asked};\n  const answer = {{ code, {', '.join(outs)} }};\n"
                "  engine.done();\n  return answer;\n")
    elif before:
        body = f"  const code = {asked};\n  engine.done();\n  return code;\n"
    else:
        body = f"  return {asked};\n"
    return f"export function {camel(call.name)}({', '.join(['engine', *taken])}) {{\n{before}{body}}}\n"


def table(name: str, rows: dict[str, int]) -> str:
    lines: list[str] = []
    line = ""
    for item in [f"{key}: {value}," for key, value in rows.items()]:
        if len(line) + len(item) > 114:
            lines, line = [*lines, line], ""
        line += " " * bool(line) + item
    return f"export const {name} = {{\n" + "".join(f"  {it}\n" for it in [*lines, line]) + "};\n"


def as_calls(calls: list[Call], numbers: dict[str, dict[str, int]]) -> str:
    kinds = {call.name: [kind for kind, _ in call.parameters] for call in calls}
    rows = "".join(f"  {name}: {json.dumps(' '.join(given))},\n" for name, given in kinds.items())
    return "\n".join([f"{MADE} The numbers of the engine, and its calls: an `engine` lends what they are given.\n",
                      *[table(name, rows) for name, rows in numbers.items()],
                      "// What each call is given, in its order.\nexport const CALLS = {\n" + rows + "};\n",
                      *[function_of(call) for call in calls]])


# ---- errors.js, refusals.js

def errors(numbers: dict[str, dict[str, int]]) -> list[str]:
    return [name for name in numbers["CODE"] if name not in ANSWERS]


def as_errors(header: str, numbers: dict[str, dict[str, int]]) -> str:
    parts = [f"""{MADE}

// What a call was given has no answer. `code` is the number that the call of C gave.
export class FiorruddaError extends Error {{
  constructor(message, code) {{
    super(message);
    this.code = code;
  }}
}}
FiorruddaError.prototype.name = "FiorruddaError";
"""]
    for name in errors(numbers):
        kind, code = pascal(name), numbers["CODE"][name]
        parts.append(f"""export class {kind} extends FiorruddaError {{
  constructor(message = {json.dumps(said_of_code(header, name))}) {{
    super(message, {code});
  }}
}}
{kind}.prototype.name = "{kind}";
""")
    rows = "".join(f"  [{numbers['CODE'][name]}, {pascal(name)}],\n" for name in errors(numbers))
    parts.append(f"export const ERRORS = new Map([\n{rows}]);\n")
    return "\n".join(parts)


def as_refusals() -> str:
    """The sentences of view/errors.js."""
    source = (TOP / "view/errors.js").read_text("utf-8")
    parts = []
    for name in ("ERROR_TEXTS", "FAULT_TEXTS"):
        found = re.search(rf"^const {name} = (\{{.*?^\}});$", source, re.M | re.S)
        if found is None:
            raise Fault(f"view/errors.js has no {name}")
        parts.append(f"export const {name} = {found[1]};\n")
    return f"{MADE} It has the texts of view/errors.js.\n" + "\n".join(parts)


# ---- index.d.ts

def section(call: Call) -> str:
    """The places of the standards that are named, in brackets."""
    found = re.findall(r"\(([^()]*\bsections? \d[^()]*)\)", call.said)
    return f"({found[0]})" if found else ""


def words(names: Names, name: str) -> str:
    return " | ".join(json.dumps(word) for word in names[name])


def as_declarations(calls: list[Call], numbers: dict[str, dict[str, int]], names: Names) -> str:
    text = (TOP / TEMPLATE).read_text("utf-8")
    without = [call.name for call in calls if f"{{section {call.name}}}" not in text]
    if without:
        raise Fault(f"{TEMPLATE} has nothing for fiorrudda_{without[0]}")
    for call in calls:
        text = text.replace(f"{{section {call.name}}}", section(call))
    text = re.sub(r"\{words (\w+)\}", lambda it: words(names, it[1]), text)
    classes = "".join(f"export class {pascal(name)} extends FiorruddaError {{}}\n" for name in errors(numbers)
                      if name != "NO_REQUEST")
    text = re.sub(r" +(?=(\*/|\.|,|:|$))", lambda it: " " if it[1] == "*/" else "", text.replace("{errors}\n", classes),
                  flags=re.M)
    left = re.search(r"\{(section|words|errors)\b.*?\}", text)
    if left:
        raise Fault(f"{TEMPLATE} names what there is not: {left[0]}")
    return f"{MADE}\n{text}"


def written(header: str, names: Names) -> Iterator[tuple[pathlib.Path, str]]:
    """The files with their texts."""
    calls, numbers = calls_of(header), numbers_of(header)
    yield TOP / "js/package/calls.js", as_calls(calls, numbers)
    yield TOP / "js/package/errors.js", as_errors(header, numbers)
    yield TOP / "js/package/refusals.js", as_refusals()
    yield TOP / "js/package/index.d.ts", as_declarations(calls, numbers, names)
