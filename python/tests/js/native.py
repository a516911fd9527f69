"""Does by the native library what js/check has done by the module, and says where they differ:

    python3 python/run.py tests.js.native native calls < LINES
    python3 python/run.py tests.js.native native plays < LINES
    python3 python/run.py tests.js.native native time < SCENARIO

The lines of `calls` are the calls of the module with what came of them, after a line with what each call is given. For
each scenario of `plays` a line has what came of `fiorrudda_play`. `time` is the median of the times of 200 plays, in
milliseconds.

The library is that of FIORRUDDA_LIBRARY, or what bin/lib has left in out/lib."""
from __future__ import annotations

import base64
import ctypes
import json
import os
import statistics
import sys
import time
from typing import Any, Iterator, Sequence

from fiorrudda.places import ROOT

ROOM = 1 << 20
TOO_SHORT = 4
NUMBERS: dict[str, Any] = {"bool": ctypes.c_bool, "u32": ctypes.c_uint32, "u64": ctypes.c_uint64}
OUTS: dict[str, Any] = {"u32_out": ctypes.c_uint32, "u64_out": ctypes.c_uint64}


class Library:
    def __init__(self) -> None:
        name = os.environ.get("FIORRUDDA_LIBRARY", os.path.join(ROOT, "out", "lib", "libfiorrudda.so"))
        self.calls = ctypes.CDLL(name)
        self.room = ctypes.create_string_buffer(ROOM)
        self.handles = (ctypes.c_void_p * 64)()

    def call(self, name: str, kinds: Sequence[str], given: Sequence[Any]) -> list[Any]:
        """What comes of a call: its code, what it wrote, and the numbers that it told."""
        function = getattr(self.calls, "fiorrudda_" + name)
        function.restype = None if name == "free" else ctypes.c_uint32
        words: list[Any] = []
        outs: list[Any] = []
        length, values = ctypes.c_size_t(0), iter(given)
        for kind in kinds:
            if kind == "handle":
                words.append(ctypes.byref(self.handles, 8 * next(values)))
            elif kind == "text":
                lent = base64.b64decode(next(values))
                words += [ctypes.c_char_p(lent), ctypes.c_size_t(len(lent))]
            elif kind == "room":
                words += [self.room, ctypes.c_size_t(ROOM), ctypes.byref(length)]
            elif kind in OUTS:
                outs.append(OUTS[kind](0))
                words.append(ctypes.byref(outs[-1]))
            else:
                words.append(NUMBERS[kind](next(values)))
        code = function(*words)
        wrote = "room" in kinds and code in (0, 1)
        text = base64.b64encode(self.room.raw[:length.value]).decode() if wrote else None
        return [code, text, [out.value for out in outs]]


def replayed(library: Library, lines: Iterator[str]) -> tuple[int, str | None]:
    """How many calls there are, and the first that came to something else."""
    table = {name: kinds.split() for name, kinds in json.loads(next(lines)).items()}
    count = 0
    for line in lines:
        name, given, came = json.loads(line)
        found = library.call(name, table[name], given)
        if found != came:
            return count, f"{name}{given}: {str(found)[:300]} here, {str(came)[:300]} there"
        count += 1
    return count, None


def play(library: Library, scenario: bytes) -> tuple[int, bytes]:
    """The code of `fiorrudda_play`, and its text."""
    room, length = library.room, ctypes.c_size_t(0)
    while True:
        code = library.calls.fiorrudda_play(scenario, ctypes.c_size_t(len(scenario)), room, ctypes.c_size_t(len(room)),
                                            ctypes.byref(length))
        if code != TOO_SHORT:
            return code, room.raw[:length.value] if code in (0, 1) else b""
        room = ctypes.create_string_buffer(length.value)


def timed(library: Library, scenario: bytes) -> float:
    times = []
    for _ in range(200):
        begun = time.perf_counter()
        play(library, scenario)
        times.append((time.perf_counter() - begun) * 1000)
    return statistics.median(times)


def main() -> None:
    library, mode = Library(), sys.argv[1]
    if mode == "calls":
        print(json.dumps(replayed(library, sys.stdin)))
    elif mode == "plays":
        for line in sys.stdin:
            code, text = play(library, base64.b64decode(line))
            print(json.dumps([code, base64.b64encode(text).decode()]))
    else:
        print(timed(library, sys.stdin.buffer.read()))
