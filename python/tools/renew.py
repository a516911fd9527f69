"""Makes again what is stored of what programs and commands print, and shows the difference.

    bin/renew [PART..]            stores it, and shows the difference by git; without a PART all of them
    bin/renew --check [PART..]    changes nothing, and shows what would change
    bin/renew --list              the parts: which files each has, and by what they are made

What is worked out by the papers is only compared, and the difference is told: quoted lines and expect.json of the
gallery, and the rows of `rules`, unless that part is named. What browsers have answered (browsers/corpus), what was
recorded (recorded/cases), what was measured, and computed terms of proofs are not looked at. Two plays of one scenario
may differ where documents run side by side: such a play stays where it differs by no more.

FETCHPLAY, CSPREPORT, CORSSERVE, PLAYAUDIT, ROWS_PLAYS, ROWS_RULES and ROWS_BOOKS name the programs. One that is not
named is run by bin/proved, which builds it where a source is newer. FIORRUDDA_LIBRARY names the C library; without it
that is the one in out/lib.

The status is 0 where nothing differs, or all is stored; 1 where --check finds a difference, or what is only compared
differs; 2 where the words are wrong, or a part cannot be made."""
from __future__ import annotations

import argparse
import difflib
import functools
import glob
import os
import re
import shutil
import subprocess
import sys
import tempfile
from typing import Any, Callable, Iterable, Iterator, NamedTuple

from fiorrudda.places import ROOT
from tests.gallery import rows
from tools import header

PAPER = "rules"  # the part that is stored only where it is named
HEAD = re.compile(r"(?<=\n)  [^ \n]+ [^\n]* HTTP/1\.1\n(?:  [^ \n]+: [^\n]*\n)*")
SESSIONS = ("README.md", "docs/audit.md", "docs/har.md")  # pages with commands behind $ and what these print
# The programs that the environment names.
NAMED = {"fetchplay": os.environ.get("FETCHPLAY"), "cspreport": os.environ.get("CSPREPORT"),
         "corsserve": os.environ.get("CORSSERVE"), "playaudit": os.environ.get("PLAYAUDIT"),
         "rows_plays": os.environ.get("ROWS_PLAYS"), "rows_rules": os.environ.get("ROWS_RULES"),
         "rows_books": os.environ.get("ROWS_BOOKS")}


class Failed(Exception):
    """Why a part cannot be made, in a sentence."""


class Texts:
    """The stored texts, and what was made in their place."""

    def __init__(self) -> None:
        self.made: dict[str, bytes] = {}
        self.compared: dict[str, bytes] = {}
        self.told: list[str] = []

    def stored(self, path: str) -> bytes:
        """A text as it was made, or as it is stored; empty where there is none yet."""
        if path in self.made:
            return self.made[path]
        try:
            with open(os.path.join(ROOT, path), "rb") as file:
                return file.read()
        except FileNotFoundError:
            return b""

    def text(self, path: str) -> str:
        return self.stored(path).decode("utf-8")

    def put(self, path: str, data: bytes) -> None:
        self.made[path] = data

    def put_text(self, path: str, text: str) -> None:
        self.put(path, text.encode("utf-8"))


# ---- programs

def program(name: str) -> list[str]:
    """The words by which a program is called."""
    own = NAMED[name]
    return [own] if own else [os.path.join(ROOT, "bin", "proved"), name]


def ran(words: list[str], given: bytes = b"", statuses: Iterable[int] = (0,), called: str = "",
        **more: Any) -> subprocess.CompletedProcess[bytes]:
    """A run that ends with one of these statuses."""
    try:
        done: subprocess.CompletedProcess[bytes] = subprocess.run(words, input=given, capture_output=True, **more)
    except OSError as error:
        raise Failed(f"{words[0]}: {error.strerror}") from error
    if done.returncode not in statuses:
        said = (done.stderr or done.stdout).decode("utf-8", "replace").strip().splitlines() or ["it said nothing"]
        raise Failed(f"{called or ' '.join(words)} ended with the status {done.returncode}: {said[-1]}")
    return done


def played(scenario: bytes, name: str = "fetchplay") -> bytes:
    return ran([*program(name), "play"], scenario).stdout


def paths(pattern: str) -> list[str]:
    return sorted(os.path.relpath(path, ROOT) for path in glob.glob(os.path.join(ROOT, pattern)))


# ---- what is made by one program from one file

def of_names(texts: Texts) -> None:
    for path, text in header.files_written():
        texts.put_text(os.path.relpath(path, ROOT), text)


def of_examples(texts: Texts) -> None:
    for path in paths("examples/*.out") + paths("examples/*.err"):
        is_refused = path.endswith(".err")
        done = ran([*program("fetchplay"), "play"], texts.stored(path[:-3] + "json"), (2,) if is_refused else (0,))
        texts.put(path, done.stderr if is_refused else done.stdout)


def heads(play: str) -> list[str]:
    """The heads of a play's requests."""
    return HEAD.findall(play)


def is_another_run(name: str, old: str, new: str) -> bool:
    """Whether two plays of documents side by side differ by no more than two runs of them may."""
    if name not in rows.WORDS or not old:
        return False
    return rows.printed(name, old) == rows.printed(name, new) and set(heads(old)) == set(heads(new))


def of_gallery(texts: Texts) -> None:
    for name in rows.names():
        scenario = texts.stored(f"gallery/{name}/scenario.json")
        play, old = played(scenario), texts.text(f"gallery/{name}/play.txt")
        if not is_another_run(name, old, play.decode("utf-8")):
            texts.put(f"gallery/{name}/play.txt", play)
        if os.path.exists(os.path.join(ROOT, "gallery", name, "reports.txt")):
            texts.put(f"gallery/{name}/reports.txt", played(scenario, "cspreport"))


def of_programs(texts: Texts) -> None:
    framed, play = re.match(rb"(\d+)\n(.*)", texts.stored("crates/playaudit/stdin"), re.S).groups()  # type: ignore
    scenario = play[:int(framed)]
    texts.put("crates/playaudit/stdin", framed + b"\n" + scenario + played(scenario))
    for name in ("fetchplay", "cspreport", "corsserve", "playaudit"):
        of_crate(texts, name, texts.put)


def of_crate(texts: Texts, name: str, put: Callable[[str, bytes], None]) -> None:
    """What a crate's program prints of its stored input, with its stored words and its stored status."""
    place = f"crates/{name}/"
    words, status = ([texts.text(place + part).split("\n") if os.path.exists(os.path.join(ROOT, place, part)) else []
                      for part in ("args", "status")])
    wanted = int(status[0]) if status else 0
    done = ran([*program(name), *filter(None, words)], texts.stored(f"{place}stdin"), (wanted,))
    put(f"{place}stdout", done.stdout)


# ---- the rows of rows_plays

def with_heads(old: str, new: str) -> str:
    """An altered play with the heads of the right one, where both send the same requests in the same order."""
    own, right = heads(old), heads(new)
    if [head.split("\n")[0] for head in own] != [head.split("\n")[0] for head in right]:
        return old
    left = iter(right)
    return HEAD.sub(lambda _: next(left), old)


def audited(line: str) -> str:
    """A row whose play is audited. It may be altered, so only its heads are those of the right play."""
    word, scenario, play = line.split("\t")
    old = play.replace("\\n", "\n")
    return "\t".join([word, scenario, with_heads(old, played(scenario.encode()).decode()).replace("\n", "\\n")])


def of_rows(texts: Texts) -> None:
    """Those of the gallery, as `gallery/rows write` does it; those that are audited; and then all of the output."""
    rows.read = lambda path: texts.text(os.path.relpath(path, ROOT))
    wants = {name: row for folder in rows.names() for name, row in rows.wanted(folder)[0].items()}
    for file, place in (("stdin", 1), ("stdout", 2)):
        path = f"crates/rows_plays/{file}"
        texts.put_text(path, rows.renewed(texts.text(path), wants, place))
    lines = texts.text("crates/rows_plays/stdin").split("\n")
    texts.put_text("crates/rows_plays/stdin", "\n".join(
        audited(line) if re.match("audit\t.*\t", line) else line for line in lines))


def of_rows_plays(texts: Texts) -> None:
    of_crate(texts, "rows_plays", texts.put)


def of_rules(texts: Texts) -> None:
    for name in ("rows_rules", "rows_books"):
        of_crate(texts, name, functools.partial(dict.__setitem__, texts.compared))


# ---- plays over the loopback

def of_servers(texts: Texts) -> None:
    for name in ("net", "server"):
        texts.put(f"{name}/play.txt", ran([os.path.join(ROOT, name, "check"), "show"]).stdout)
    shown = "".join(re.findall("(?m)^(?:document|result) .*\n", texts.text("server/play.txt")))
    path = "docs/cors-server.md"
    texts.put_text(path, re.sub(r"(?m)(^    \$ bin/fetchplay net <.*\n)(?:    .*\n)*",
                                lambda found: found[1] + indented(shown), texts.text(path)))


def indented(text: str) -> str:
    return "".join(f"    {line}\n" for line in text.splitlines())


# ---- pages

def of_docs(texts: Texts) -> None:
    with tempfile.TemporaryDirectory() as room:
        furnish(texts, room)
        for path in SESSIONS:
            session = re.compile(r"(?m)^    \$ (.*)\n((?:    (?!\$ ).*\n)*)")
            texts.put_text(path, session.sub(lambda found: typed(found[1], room), texts.text(path)))
    play = played(texts.stored("examples/known-host.json")).decode()
    texts.put_text("README.md", re.sub(r"(\nIts play:\n\n)((?:    .*\n)+)",
                                       lambda found: found[1] + commented(found[2], play), texts.text("README.md")))
    of_summary(texts)


def furnish(texts: Texts, room: str) -> None:
    """A folder that is as the repository to the commands of pages, with the programs that are to be used."""
    for name in set(os.listdir(ROOT)) - {"bin", "examples"}:
        os.symlink(os.path.join(ROOT, name), os.path.join(room, name))
    shutil.copytree(os.path.join(ROOT, "examples"), os.path.join(room, "examples"))
    for path, data in texts.made.items():
        if path.startswith("examples/"):
            with open(os.path.join(room, path), "wb") as file:
                file.write(data)
    os.mkdir(os.path.join(room, "bin"))
    for name in os.listdir(os.path.join(ROOT, "bin")):
        own = program("fetchplay" if name == "try" else name) if name in ("fetchplay", "try", "playaudit") else []
        target = own[0] if len(own) == 1 else os.path.join(ROOT, "bin", "fetchplay" if name == "try" else name)
        os.symlink(os.path.abspath(target), os.path.join(room, "bin", name))


def typed(command: str, room: str) -> str:
    """A command of a page, and what it prints. By 1 it says that something is not so; with more it has failed."""
    ends = "for end in ${PIPESTATUS[@]}; do [ $end -le 1 ] || exit $end; done"
    done = ran(["bash", "-c", f"exec 2>&1\n{command}\n{ends}"], called=command, cwd=room)
    return f"    $ {command}\n{indented(done.stdout.decode('utf-8'))}"


def commented(old: str, new: str) -> str:
    """The lines of a play, with the comments that stood beside those that are left."""
    rows = [re.fullmatch(r"    (.*?)(?: {3,}(\S.*))?", line).groups() for line in old.splitlines()]  # type: ignore
    kept, lines = [line for line, _ in rows], new.splitlines()
    beside: dict[int, str] = {}
    for block in difflib.SequenceMatcher(None, kept, lines, autojunk=False).get_matching_blocks():
        beside.update((block.b + at, rows[block.a + at][1] or "") for at in range(block.size))
    return "".join(f"    {line:<42}{beside.get(at, '')}".rstrip() + "\n" for at, line in enumerate(lines))


def of_summary(texts: Texts) -> None:
    path = "docs/rules/command-line.md"
    summary = ran([*program("fetchplay"), "gen", "8"]).stdout.decode()
    texts.put_text(path, re.sub(r"(?m)^    gen 8\n(?:    .*\n)*", lambda _: indented(summary), texts.text(path)))


def of_lists(texts: Texts) -> None:
    """The table of the crates."""
    texts.put_text("docs/PROVED.md", ran([os.path.join(ROOT, "bin", "tables"), "page"]).stdout.decode())


# ---- the C library

def of_library(texts: Texts) -> None:
    library = os.environ.get("FIORRUDDA_LIBRARY", os.path.join(ROOT, "out", "lib", "libfiorrudda.so"))
    if not os.path.exists(library):
        raise Failed("there is no C library: bin/lib makes it, or FIORRUDDA_LIBRARY names it")
    with tempfile.TemporaryDirectory() as room:
        made, include = os.path.join(room, "examples"), os.path.join(ROOT, "include")
        ran(["cc", "-std=c11", f"-I{include}", os.path.join(ROOT, "embed/examples.c"), library, "-o", made])
        path = {**os.environ, "LD_LIBRARY_PATH": os.path.dirname(os.path.realpath(library))}
        texts.put("embed/examples.out", ran([made], env=path).stdout)


# ---- what is only compared

def of_expected(texts: Texts) -> None:
    rows.read = lambda path: texts.text(os.path.relpath(path, ROOT))
    for name in rows.names():
        texts.told += [f"gallery/{name}: {fault}" for fault in rows.wanted(name)[1]]
    tests = ran([os.path.join(ROOT, "bin", "expect"), os.path.join(ROOT, "gallery")], statuses=(0, 1))
    texts.told += [line for line in tests.stdout.decode().splitlines() if line.startswith("not ok")]


# ---- the table

class Part(NamedTuple):
    name: str
    files: str
    by: str
    make: Callable[[Texts], None]


PARTS = [
    Part("names", "include/fiorrudda.h, and the words of python/tools/names.py", "embed/header", of_names),
    Part("examples", "examples/*.out, examples/*.err", "fetchplay play", of_examples),
    Part("gallery", "gallery/*/play.txt, gallery/*/reports.txt", "fetchplay play, cspreport play", of_gallery),
    Part("programs", "stdout of crates/ fetchplay, cspreport, corsserve, playaudit; stdin of the last", "the program",
         of_programs),
    Part("rows", "crates/rows_plays: rows of the gallery, and those that are audited", "gallery/rows, fetchplay play",
         of_rows),
    Part("rows_plays", "crates/rows_plays/stdout", "rows_plays", of_rows_plays),
    Part("servers", "net/play.txt, server/play.txt, docs/cors-server.md", "net/check show, server/check show",
         of_servers),
    Part("docs", f"what commands print in {', '.join(SESSIONS)}, docs/rules/command-line.md", "those commands",
         of_docs),
    Part("lists", "docs/PROVED.md", "bin/tables", of_lists),
    Part("library", "embed/examples.out", "embed/examples.c over the C library", of_library),
    Part(PAPER, "compared: stdout of crates/ rows_rules, rows_books", "rows_rules, rows_books", of_rules),
    Part("expected", "compared: quoted lines and expect.json of gallery/", "gallery/rows, bin/expect", of_expected),
]


# ---- what is shown

def differing(texts: Texts, made: dict[str, bytes]) -> list[str]:
    return [path for path, data in made.items() if data != Texts().stored(path)]


def difference(path: str, new: bytes) -> Iterator[str]:
    old, made = (data.decode("utf-8", "replace").splitlines() for data in (Texts().stored(path), new))
    yield from difflib.unified_diff(old, made, f"stored {path}", f"made {path}", lineterm="")


def show(made: dict[str, bytes], changed: list[str]) -> None:
    for path in changed:
        print("\n".join(difference(path, made[path])))
    for path in changed:
        lines = list(difference(path, made[path]))[2:]
        more, less = (sum(line.startswith(sign) for line in lines) for sign in "+-")
        print(f" {path} | {more} more, {less} less")


def store(texts: Texts, changed: list[str]) -> None:
    show(texts.made, [path for path in changed if not os.path.exists(os.path.join(ROOT, path))])
    for path in changed:
        with open(os.path.join(ROOT, path), "wb") as file:
            file.write(texts.made[path])
    if changed:
        subprocess.run(["git", "--no-pager", "diff", "--", *changed], cwd=ROOT)
        subprocess.run(["git", "--no-pager", "diff", "--stat", "--", *changed], cwd=ROOT)


# ---- the words

def words() -> argparse.Namespace:
    given = argparse.ArgumentParser(prog="bin/renew", description=__doc__,
                                    formatter_class=argparse.RawDescriptionHelpFormatter)
    given.add_argument("--check", action="store_true", help="change nothing, and show what would change")
    given.add_argument("--list", action="store_true", help="list the parts")
    given.add_argument("parts", nargs="*", metavar="PART", help=f"one of {', '.join(part.name for part in PARTS)}")
    found = given.parse_args()
    strange = [name for name in found.parts if name not in [part.name for part in PARTS]]
    if strange:
        given.error(f"there is no part {strange[0]}: bin/renew --list tells them")
    return found


def made_parts(texts: Texts, names: list[str]) -> int:
    """Makes the parts, or all; gives how many could not be made."""
    failed = 0
    for part in PARTS:
        if names and part.name not in names:
            continue
        try:
            part.make(texts)
        except (Failed, OSError, ValueError) as error:
            failed += 1
            print(f"bin/renew: {part.name}: {error}", file=sys.stderr)
    if PAPER in names:
        texts.made.update(texts.compared)
        texts.compared.clear()
    return failed


def main() -> int:
    given = words()
    if given.list:
        print("\n".join(f"{part.name:<11}{part.files}\n{'':<11}by {part.by}" for part in PARTS))
        return 0
    texts = Texts()
    failed = made_parts(texts, given.parts)
    changed, apart = differing(texts, texts.made), differing(texts, texts.compared)
    if given.check:
        show(texts.made, changed)
    else:
        store(texts, changed)
    show(texts.compared, apart)
    print(f"bin/renew: {len(texts.made) + len(texts.compared)} texts were made, and {len(changed)} "
          f"{'would change' if given.check else 'changed'}")
    for line in [*texts.told, *(f"{path} is only compared: `bin/renew {PAPER}` stores it" for path in apart)]:
        print(f"bin/renew: {line}", file=sys.stderr)
    return 2 if failed else int(bool(texts.told or apart or given.check and changed))

