"""What has a man page: one list for each kind. A program that is new is one more line of PROGRAMS, and of debian/."""
from __future__ import annotations

from typing import NamedTuple


class Command(NamedTuple):
    """A proved program or a script of bin/: its name there, what it is in a few words, the forms of its words, the
    documents that its man page is made of, and the words that a shell completes after it."""

    name: str
    what: str
    synopsis: list[str]
    documents: list[str]
    words: list[str]


class Format(NamedTuple):
    """A page about a format."""

    name: str
    what: str
    documents: list[str]
    synopsis: list[str] = []


PROGRAMS = [
    Command("fetchplay", "plays documents' fetches against scripted or real HTTP/1.1 servers",
            ["fetchplay play < SCENARIO", "fetchplay net < SCENARIO", "fetchplay gen N"],
            ["docs/rules/command-line.md", "docs/rules/printed-text.md"],
            ["play", "net", "gen"]),
    Command("cspreport", "plays documents' fetches, and sends the reports of what their policies forbid",
            ["cspreport play < SCENARIO"], ["docs/rules/reports.md"], ["play"]),
    Command("corsserve", "a CORS server that answers by a table", ["corsserve ADDRESS N < TABLE"],
            ["docs/cors-server.md"], ["127.0.0.1:8000"]),
    Command("playaudit", "says whether a text is the printed play of a scenario", ["playaudit < INPUT"],
            ["docs/audit.md"], []),
]

SCRIPTS = [
    Command("why", "plays a scenario, and says why each fetch came to what it came",
            ["fiorrudda-why [--net] [--brief|--json] [--timeout S] [SCENARIO]",
             "fiorrudda-why [--net] [--timeout S] --serve", "fiorrudda-why --ways", "fiorrudda-why --lints"],
            ["docs/why.md"],
            ["--net", "--brief", "--json", "--serve", "--timeout", "--ways", "--lints", "--help"]),
    Command("expect", "plays tests: scenarios, each beside what it should come to",
            ["fiorrudda-expect [--net] [--strict] [--json] [--jobs N] [--timeout S] TEST.."], ["docs/why.md"],
            ["--net", "--strict", "--json", "--jobs", "--timeout", "--help"]),
    Command("ask", "makes the fetch of a page's script against the server itself, and says what came and why",
            ["fiorrudda-ask URL.. --from PAGE [WORD..]", "fiorrudda-ask curl WORD.."], ["docs/why.md"],
            ["--book", "--brief", "--connect-to", "--cookie", "--credentials", "--crossorigin", "--data", "--export",
             "--form", "--from", "--from-file", "--header", "--hsts", "--insecure", "--integrity", "--jobs", "--json",
             "--load", "--max-time", "--method", "--mode", "--policy", "--redirect", "--referrer-policy", "--resolve",
             "--timeout", "--twice", "--with-secrets", "--help"]),
    Command("view", "draws a play as a sequence diagram",
            ["fiorrudda-view [SCENARIO] [-o FILE] [--open]", "fiorrudda-view --text PLAY [-o FILE] [--open]"],
            ["docs/view.md"], ["--text", "-o", "--open", "--help"]),
    Command("audit", "says whether a text is the printed play of a scenario, and shows where not",
            ["fiorrudda-audit SCENARIO PLAY"], ["docs/audit.md"], ["--help"]),
    Command("playground", "a page in which a scenario is edited, played and drawn",
            ["fiorrudda-playground [PORT] [--open] [--seconds N]",
             "fiorrudda-playground --page FILE.html [--seconds N]"],
            ["docs/playground.md"], ["--open", "--page", "--seconds", "--help"]),
]

FORMATS = [Format("fiorrudda-scenario", "the scenarios that fetchplay plays", ["docs/scenario.md"])]
