"""Files that a command writes: whole or not at all, for their owner alone, and never in the place of another's."""
from __future__ import annotations

import os
import tempfile
from typing import TYPE_CHECKING

if TYPE_CHECKING:
    from collections.abc import Callable

LARGEST = 268435456  # bytes of a file that is looked at


def refusal(path: str, word: str, is_own: Callable[[bytes], bool]) -> str | None:
    """Why a word of a command may not write there, in a sentence, or None: over a symbolic link, or over a file that it
    did not make, which `is_own` says of its bytes."""
    if os.path.islink(path):
        return f"{word}: {path} is a symbolic link: name the file itself"
    if os.path.lexists(path) and not is_made(path, is_own):
        return f"{word}: {path} is there, and {word} did not write it: name another file, or remove it"
    if not os.access(os.path.dirname(path) or ".", os.W_OK):
        return f"{path} cannot be written"
    return None


def is_made(path: str, is_own: Callable[[bytes], bool]) -> bool:
    if not os.path.isfile(path) or os.path.getsize(path) > LARGEST:
        return False
    try:
        with open(path, "rb") as file:
            return is_own(file.read())
    except (OSError, ValueError, LookupError, TypeError, RecursionError):
        return False


def replace(path: str, data: bytes) -> str | None:
    """Writes bytes into a file that its owner alone can read, in the place of what is there, or leaves that as it is. A
    symbolic link is replaced, and not followed. What is wrong, in a sentence, or None."""
    try:
        number, beside = tempfile.mkstemp(prefix=os.path.basename(path) + ".", dir=os.path.dirname(path) or ".")
    except OSError as error:
        return f"{path} is as it was: {error.strerror}"
    try:
        with os.fdopen(number, "wb") as file:
            file.write(data)
            file.flush()
            os.fsync(file.fileno())
        os.replace(beside, path)
    except OSError as error:
        os.remove(beside)
        return f"{path} is as it was: {error.strerror}"
    return None
