"""What a proxy does to a site that is tried under changes: which headers its answers have then, where its requests go,
and where a browser reports what the tried policies refuse."""
from __future__ import annotations

import argparse
import json
from typing import Any, Iterable, NoReturn, Optional

from fiorrudda.commands.scenario import origin_of
from fiorrudda.commands.urls import host_of, secure
from fiorrudda.recorded import command
from fiorrudda.recorded.changes import AUTHORITY, POLICY, REPORT_ONLY, Changes, Pairs
from fiorrudda.recorded.known_hosts import is_known

REPORTS = "/.well-known/fiorrudda-csp-reports"
KNOWN_FOR = 600  # seconds for which a host is known: a browser forgets it after the trial
KEEP = ("Cache-Control", "no-store")
CONDITIONS = ("If-None-Match", "If-Modified-Since")
PAGES = ("document", "iframe", "frame", "object", "embed")


class Words(argparse.ArgumentParser):
    """Reads the words of changes, and has its complaint as a ValueError."""

    def error(self, message: str) -> NoReturn:
        raise ValueError(message)


def changes_of(lines: Iterable[str]) -> Changes:
    """The changes that lines name, as those of `bin/har --changes FILE`; raises ValueError."""
    parser = Words(allow_abbrev=False, add_help=False)
    command.add_changes(parser)
    try:
        given = parser.parse_args(command.words_of_lines(lines, "change"))
    except argparse.ArgumentTypeError as error:
        raise ValueError(str(error)) from None
    if given.no_csp and (given.csp is not None or given.csp_report_only is not None):
        raise ValueError("no-csp stands without csp and csp-report-only")
    return command.changes_of(given)


# ---- a request

def is_page(destination: Optional[str], content_type: str) -> bool:
    """Whether an answer is a document: by Sec-Fetch-Dest, or where that is not there, if it is HTML."""
    return destination in PAGES if destination else content_type.strip().lower().startswith("text/html")


def upgraded(changes: Changes, url: str) -> Optional[str]:
    """Where a browser asks in the place of an http URL whose host is a known one."""
    is_http = url.startswith(("http:", "ws:"))
    return secure(url) if is_http and is_known(host_of(url), changes.known_hosts()) else None


def upgrade_headers(url: str, origin: Optional[str]) -> Pairs:
    """The headers of the redirect that stands for a browser's own: CORS lets it pass, as it does that one."""
    allowed = [("Access-Control-Allow-Origin", origin), ("Access-Control-Allow-Credentials", "true")] if origin else []
    return [("Location", url), ("Non-Authoritative-Reason", "HSTS"), KEEP, *allowed]


def asked_of(changes: Changes, url: str) -> str:
    """The URL at which the server of a site that moves has what is asked for at its new place."""
    for old, new in changes.origins:
        if origin_of(url) == new:
            return old + AUTHORITY.sub("", url, 1)
    return url


# ---- an answer

def answer_headers(changes: Changes, url: str, headers: Pairs, page: bool) -> Pairs:
    """The headers of an answer under the changes. A browser is not to keep one that was changed."""
    after = changes.of_page(url, headers, [])[0] if page else changes.of_answer(url, headers)
    if page:
        after = [(name, reporting(value) if is_tried(changes, name, value) else value) for name, value in after]
    if url.startswith("https:") and is_known(host_of(url), changes.known_hosts()):
        after = after + [("Strict-Transport-Security", f"max-age={KNOWN_FOR}")]
    names = [change.name.lower() for change in changes.headers]
    if after == headers or "cache-control" in names:
        return after
    return [pair for pair in after if pair[0].lower() not in ("cache-control", "expires")] + [KEEP]


def is_tried(changes: Changes, name: str, value: str) -> bool:
    """Whether a header is a policy of the changes."""
    return (name, value) in ((POLICY, changes.csp), (REPORT_ONLY, changes.csp_report_only))


def reporting(policy: str) -> str:
    """A policy that reports to the proxy, unless it reports elsewhere."""
    return policy if "report-uri" in policy.lower() else f"{policy.rstrip('; ')}; report-uri {REPORTS}"


def drops_metas(changes: Changes) -> bool:
    """Whether the policies of `meta` elements go."""
    return changes.csp is not None or changes.no_csp


# ---- a report

def violation_of(body: bytes) -> Optional[dict[str, Any]]:
    """What a report of a violation says; None of what is none."""
    try:
        report = json.loads(body)["csp-report"]
        return {"page": report["document-uri"], "directive": report.get("effective-directive")
                or report["violated-directive"].partition(" ")[0], "blocked": report.get("blocked-uri", ""),
                "enforced": report.get("disposition", "enforce") == "enforce",
                "source": report.get("source-file", ""), "line": report.get("line-number", 0)}
    except (ValueError, KeyError, TypeError, AttributeError, RecursionError):
        return None


def sentence_of(one: dict[str, Any]) -> str:
    """A violation in a line."""
    what = "refused" if one["enforced"] else "would be refused"
    place = f" ({one['source']}:{one['line']})" if one["source"] else ""
    return f"{one['page']}: {one['blocked'] or 'inline'} {what} by {one['directive']}{place}"
