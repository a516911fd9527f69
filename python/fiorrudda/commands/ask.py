"""Makes the fetch that a page's script would make, against the server itself, and says what came and why.

    bin/ask https://api.example/orders --from https://app.example/
    bin/ask https://api.example/orders --from https://app.example/ --method PUT \\
            --header 'Content-Type: application/json' --data '{}' --credentials include --cookie session=1
    bin/ask curl 'https://api.example/orders' -H 'origin: https://app.example' ..     as a browser copies it as cURL

The first line says whether the page would read the answer. Lines that begin with < are what the server answered, lines
that begin with # what is to be said of it; the others are the play, as `bin/fetchplay` prints it. Each request is sent
once, over TCP, and over TLS where the URL says https. No cookie and no credential is sent that was not given.
docs/why.md tells the rest.

The status is 0 where the page would read the answer, 1 where it would not, 2 where the words are wrong, 3 where there
is no connection or the time limit comes, and 4 where there is no verdict. It needs the C library that `bin/lib`
makes."""
from __future__ import annotations

import sys

from fiorrudda.commands import ask_words, streams
from fiorrudda.places import called

SELF = called("ask")


def run() -> int:
    given = ask_words.read(SELF, sys.argv[1:])
    try:
        from fiorrudda.commands import replies
    except (ImportError, OSError) as error:
        return streams.complain(2, f"{SELF}: {error}; without it `bin/why --net` asks a server, in plain")
    return replies.ask(SELF, given)


def main() -> None:
    streams.run(run)
