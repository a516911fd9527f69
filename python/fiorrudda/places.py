"""Where things lie beside this package, in the repository or as they were installed, and by which name a command was
called."""
import os
import sys

_HERE = os.path.dirname(os.path.realpath(__file__))
# Above this package in the repository; share/fiorrudda where a Debian package, or its tar, has put it into
# dist-packages.
_PLACES = [os.path.normpath(os.path.join(_HERE, up)) for up in ("../..", "../../../../share/fiorrudda")]
ROOT = next((place for place in _PLACES if os.path.exists(os.path.join(place, "VERSION"))), _PLACES[0])


def called(name: str) -> str:
    """A script of bin/ by the name under which it was called: where it is installed this begins with `fiorrudda-`."""
    own = os.path.basename(sys.argv[0])
    return own if own.startswith("fiorrudda-") else f"bin/{name}"
