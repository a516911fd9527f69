"""Says what came of each request of a recording (HAR), why, and what a change of policies or headers would change.

    bin/har site.har                                    what failed, and what never reached the page
    bin/har site.har --csp "default-src 'self'"         what a policy would refuse
    bin/har site.har --hsts example.com,subdomains      and what HSTS would
    bin/har site.har --set 'https://api.example/* Access-Control-Allow-Origin: https://app.example'
    bin/har site.har --suggest-cors https://app.example the least headers by which what CORS refuses passes
    bin/har site.har --suggest-hsts                     what breaks under Strict-Transport-Security
    bin/har site.har --scenario scenarios               a scenario for each page, for bin/why
    bin/har site.har --html site.html                   a page to look at: the requests by host and time
    bin/har site.har --redact other.har                 the recording without cookies, Authorization and bodies
    bin/har --many recordings --jobs 4 --out lines      a line of JSON for each recording of a folder or a list

docs/har.md tells the rest. The status is 0 where nothing failed, or with changes where nothing breaks that has worked;
1 where something did; 2 where the words are wrong or the file is no HAR, and 3 where the program fails. FETCHPLAY names
another program than bin/fetchplay."""
from __future__ import annotations

import os
import sys

from fiorrudda.commands import streams
from fiorrudda.places import called
from fiorrudda.recorded import command

SELF = called("har")


def main() -> None:
    streams.run(lambda: command.main(SELF, sys.argv[1:]), command.FAILED, os._exit)
