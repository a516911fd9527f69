"""What the commands read and print. Where the reader of what is printed is gone nothing more is said.

Some modules are imported where they are used: most calls do without, and each of them costs as much as a play."""
from __future__ import annotations

import os
import re
import signal
import sys

TYPE_CHECKING = False  # without the module typing, which takes long to read
if TYPE_CHECKING:
    from collections.abc import Callable, Iterable
    from typing import Any


# What a terminal takes for an order, or turns lines around.
CONTROL = re.compile("[\x00-\x1f\x7f-\x9f\u2028-\u202e\u2066-\u2069]")
# A half of a surrogate pair, which no reader of JSON takes: a template may put bytes that are no UTF-8 into a URL.
HALF = re.compile("[\ud800-\udfff]")


def printable(text: str) -> str:
    """A line in which control characters are told by their numbers: a server's answer may have any."""
    return CONTROL.sub(lambda found: f"\\x{ord(found.group()):02x}", text)


def read(path: str | None) -> bytes:
    """All bytes of a file; of standard input where no file is named."""
    if path is None or path == "-":
        if sys.stdin.isatty():
            print("(standard input, up to Ctrl-D)", file=sys.stderr)
        return sys.stdin.buffer.read()
    with open(path, "rb") as file:
        return file.read()


def write(text: str) -> None:
    sys.stdout.buffer.write(text.encode("utf-8", "backslashreplace"))


def write_play(line: str) -> None:
    """A line of a play, as its bytes are."""
    sys.stdout.buffer.write((line + "\n").encode("latin-1"))


def write_lines(lines: Iterable[str]) -> None:
    """Lines of our own."""
    write("".join(printable(line) + "\n" for line in lines))


def as_json(data: Any, **how: Any) -> str:
    """As JSON, with all that is not ASCII told by its number: a server's answer may have any."""
    import json
    text = json.dumps(data, **(how or {"indent": 1}))
    if "\\ud" in text:  # perhaps of a character that is written as a pair
        text = json.dumps(without_halves(data), **(how or {"indent": 1}))
    return text


def write_json(data: Any, **how: Any) -> None:
    write(as_json(data, **how) + "\n")


def write_json_line(data: Any) -> None:
    """As JSON in one line, which is there for its reader at once."""
    write_json(data, separators=(",", ":"))
    sys.stdout.flush()


def without_halves(data: Any) -> Any:
    """The same data, with a replacement character for each half of a surrogate pair."""
    if isinstance(data, dict):
        return {key: without_halves(value) for key, value in data.items()}
    if isinstance(data, (list, tuple)):
        return list(map(without_halves, data))
    return HALF.sub("\ufffd", data) if isinstance(data, str) else data


def complain(status: int, text: str) -> int:
    """Says it on standard error, and gives the status."""
    sys.stdout.flush()
    lines = [printable(line) + "\n" for line in text.split("\n")]
    sys.stderr.buffer.write("".join(lines).encode("utf-8", "backslashreplace"))
    return status


def fault(error: BaseException) -> str:
    """That a command is wrong itself, in a sentence: the error's type, what it says, and where it comes from."""
    import traceback
    place = traceback.extract_tb(error.__traceback__)[-1]
    said = str(error).partition("\n")[0]
    return f"a fault of this command: {type(error).__name__}: {said} ({place.filename}, line {place.lineno})"


def run(main: Callable[[], int], broken: int = 2, finish: Callable[[int], object] = sys.exit) -> None:
    """Ends the program with the status of `main`, also where a pipe is closed or Ctrl-C is pressed; with the status
    `broken`, and a line, where the command itself is wrong. Where it finishes by os._exit no memory is given back piece
    by piece."""
    try:
        try:
            status = main()
        except SystemExit as end:  # of argparse, which has written its help into a buffer
            status = end.code or 0  # type: ignore[assignment]  # argparse ends with numbers alone
        sys.stdout.flush()
        sys.stderr.flush()
    except BrokenPipeError:
        status = 128 + signal.SIGPIPE
    except KeyboardInterrupt:
        status = 128 + signal.SIGINT
    except Exception as error:
        status = complain(broken, f"{os.path.basename(sys.argv[0])}: {fault(error)}")
    if status >= 128:
        os.dup2(os.open(os.devnull, os.O_WRONLY), 1)
        os.dup2(os.open(os.devnull, os.O_WRONLY), 2)
    finish(status)


def seconds(word: str) -> float:
    import argparse
    number = float(word)
    if not 0 < number <= 3600:
        raise argparse.ArgumentTypeError("more than 0 and at most 3600 seconds")
    return number
