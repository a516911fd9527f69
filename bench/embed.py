#!/usr/bin/env python3
"""What a fetch costs through the C library: bench/embed.py [FOLDER [FETCHPLAY]], where bin/lib left it, out/ where none
is given, and the proved fetchplay, as crates/fetchplay/out/fetchplay.

It prints the instructions, by callgrind, that one more fetch of the same kind takes: those of the embed/play makes
them; those of the one call that plays it all, fiorrudda_play; and those of all that fetchplay does.

    bench/embed.py --calls [FOLDER]     measures each call alone, and writes embed/costs, of which embed/header takes
                                        what include/fiorrudda.h says"""
import json
import pathlib
import re
import subprocess
import sys
import tempfile
import time

TOP = pathlib.Path(__file__).resolve().parent.parent
MORE = 10
READABLE = [["Access-Control-Allow-Origin", "https://a.test"]]
WRITABLE = [["Access-Control-Allow-Credentials", "true"], ["Access-Control-Allow-Methods", "PUT"],
            ["Access-Control-Allow-Headers", "content-type"], ["Access-Control-Max-Age", "0"]]
PUT = {"url": "https://b.test/x", "method": "PUT", "credentials": "include", "body": '{"n":1}',
       "headers": [["Content-Type", "application/json"]]}
KINDS = {
    "a GET of the page's own origin": {"url": "https://a.test/x"},
    "a GET of another origin": {"url": "https://b.test/x"},
    "a PUT of JSON with credentials, and its preflight": PUT,
}


def scenario(asked, count):
    """So many fetches of a page; the answer lets it read, and teaches the preflight cache for no time."""
    headers = READABLE + (WRITABLE if asked is PUT else [])
    rule = {"status": 200, "headers": headers, "body": "hello"}
    servers = [{"origin": origin, "rules": [rule]} for origin in ("https://a.test", "https://b.test")]
    documents = [{"url": "https://a.test/", "script": [{"fetch": asked}] * count}]
    return json.dumps({"format": 1, "servers": servers, "documents": documents}).encode()


def counted(words, text, only, room):
    """The instructions of a run: those of the calls of a name, or all."""
    out = room / "counts"
    kept = ["valgrind", "--tool=callgrind", f"--callgrind-out-file={out}", *words]
    subprocess.run(kept, input=text, capture_output=True, check=True)
    told = ["callgrind_annotate", "--tree=calling", "--inclusive=yes", "--threshold=100", out]
    lines = subprocess.run(told, capture_output=True, text=True, check=True).stdout
    found = re.findall(rf"^\s*([\d,]+) \([^)]*\)\s+(?:\*\s+\S*:{only} \[|{only})", lines, re.M)
    return sum(int(it.replace(",", "")) for it in found)


def one_more(words, asked, only, room, read):
    few, many = (counted(words, read(scenario(asked, count)), only, room) for count in (1, 1 + MORE))
    return (many - few) // MORE


ABOUT = """\
# Each call of the C library, as bench/calls.c makes it: its name, the nanoseconds of the fastest of 2,000 calls, and
# the bytes that it asks the heap for. Written by bench/embed.py --calls on %(day)s: do not edit.
"""


def calls(built):
    """Measures each call alone."""
    with tempfile.TemporaryDirectory() as folder:
        program = pathlib.Path(folder) / "calls"
        made = ["cc", "-std=gnu11", "-O2", "-Wl,--wrap=malloc,--wrap=realloc", f"-I{built}/include"]
        subprocess.run([*made, TOP / "bench/calls.c", built / "lib/libfiorrudda.a", "-o", program], check=True)
        told = subprocess.run([program], stdout=subprocess.PIPE, text=True, check=True).stdout
    (TOP / "embed/costs").write_text(ABOUT % {"day": time.strftime("%d %B %Y").lstrip("0")} + told)


def main():
    if sys.argv[1:2] == ["--calls"]:
        return calls(pathlib.Path(sys.argv[2] if sys.argv[2:] else TOP / "out"))
    built = pathlib.Path(sys.argv[1] if sys.argv[1:] else TOP / "out")
    with tempfile.TemporaryDirectory() as folder:
        room = pathlib.Path(folder)
        for name in ("play", "plays"):
            made = ["cc", "-std=gnu11", "-O2", "-g", f"-I{built}/include", TOP / f"embed/{name}.c"]
            subprocess.run([*made, built / "lib/libfiorrudda.a", "-o", room / name], check=True)
        flat = lambda text: subprocess.run([TOP / "embed/flat"], input=text, capture_output=True, check=True).stdout
        for name, asked in KINDS.items():
            told = one_more([room / "play"], asked, r"fiorrudda_\w+", room, flat)
            print(f"{name}: calls of the library", told, flush=True)
        for name, asked in KINDS.items():
            told = one_more([room / "plays", "/dev/stdin"], asked, "fiorrudda_play", room, lambda text: text)
            print(f"{name}: fiorrudda_play", told, flush=True)
        for program in sys.argv[2:]:
            for name, asked in KINDS.items():
                told = one_more([program, "play"], asked, "PROGRAM TOTALS", room, lambda text: text)
                print(f"{name}: {program}", told, flush=True)


main()
