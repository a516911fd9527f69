"""What is to be said of a fetch whatever came of it: which of its URLs became https and why, and which of its headers
are not sent."""
from __future__ import annotations

from typing import TYPE_CHECKING

from fiorrudda.commands import guards
from fiorrudda.commands.known_hosts import KNOWN_ITSELF
from fiorrudda.commands.play_text import header_of, is_preflight
from fiorrudda.commands.urls import host_of, is_local, is_trustworthy, secure

if TYPE_CHECKING:
    from collections.abc import Iterable, Iterator

    from fiorrudda.commands.case import Case, Hop

UPGRADES = {
    "policy": "a policy of the page has `upgrade-insecure-requests`",
    "mixed": "a secure page asks for images, audio and video over https (mixed content)",
}
# As docs/BROWSERS.md has it measured.
IN_A_BROWSER = "in a browser "
SAME_SITE = ("Chromium sends them only where they were set with SameSite=None and Secure, and many users block them, "
             "but for those with `Partitioned` too, which are kept for each site at the top (CHIPS; docs/BROWSERS.md)")
OTHER_SITE = ("the cookies of {origin} go to another site than the page's, and a browser also applies SameSite, "
              "which this engine does not play: " + SAME_SITE)
NONE_GIVEN = ("it was asked with credentials and without a cookie, since no word gives one (--cookie): a browser sends "
              "those that it has of {origin}, which is ")
NONE_GIVEN_TO_SITE = NONE_GIVEN + "of the page's own site, so SameSite keeps none back"
NONE_GIVEN_TO_OTHER = NONE_GIVEN + "of another site: " + SAME_SITE

LOCAL = ("{host} is this machine or of a local network: where the page comes from the internet, Chromium first asks "
         "the user for a permission, and refuses where the page is not https (local network access), which is not "
         "played here")

PASSED_FIRST = "once the preflight passes, "


def notes(case: Case) -> list[str]:
    """All of them, in sentences, each once."""
    return list(dict.fromkeys([*dropped(case), *left_behind(case), *upgrades(case), *plain(case)]))


def dropped(case: Case) -> Iterable[str]:
    if case.command.is_load or case.result.is_fault:
        return []
    return guards.notes(case.command.headers, case.command.options["mode"])


def left_behind(case: Case) -> Iterator[str]:
    """That Authorization stays behind where a redirect leads to another origin."""
    sent = [request for request, _ in case.chain]
    for one, next_one in zip(sent, sent[1:]):
        if header_of(one, "Authorization") and not header_of(next_one, "Authorization"):
            yield f"Authorization did not go on to {next_one.origin}: a redirect to another origin drops it"


def upgrades(case: Case) -> Iterator[str]:
    known = [*case.known_by, *[KNOWN_ITSELF] * (len(case.hops) - len(case.known_by))]
    for hop, known_by in zip(case.hops, known):
        cause = case.upgrade_of(hop)
        if cause and host_of(hop.asked):
            yield f"{hop.asked} became {secure(hop.asked)}: {UPGRADES.get(cause, known_by)}"
        if is_own(case, hop):
            yield (f"{may_stay(hop.asked)}: Chromium and Firefox leave `http://127.0.0.1` alone, where the standard "
                   "upgrades it (docs/BROWSERS.md)")


def may_stay(url: str) -> str:
    return f"{IN_A_BROWSER}{url} may stay http"


def is_own(case: Case, hop: Hop) -> bool:
    """Whether it is a URL of this machine, no WebSocket's, which a policy upgrades."""
    return case.upgrade_of(hop) == "policy" and is_trustworthy(hop.asked) and not case.is_plain_socket


def plain(case: Case) -> Iterator[str]:
    """Why a URL stays http, where the explanation does not say it."""
    if not any(case.plain_reasons):
        return
    told = case.explanation.condition if case.explanation else ""
    for hop, reason in zip(case.hops, case.plain_reasons):
        if reason and reason not in told:
            yield f"{hop.asked} stays http: {reason}"


def of_sites(cases: Iterable[Case]) -> list[tuple[Case, str]]:
    """The first case whose request takes a cookie to another site, or would behind a preflight that failed, and what is
    to be said of that; nothing where none does."""
    for case in cases:
        taking = [request.origin for request, _ in case.chain if header_of(request, "Cookie")]
        for origin in filter(case.is_of_other_site, taking):
            return [(case, OTHER_SITE.format(origin=origin))]
        if is_before_cookies(case) and case.is_of_other_site(case.request.origin):
            return [(case, PASSED_FIRST + OTHER_SITE.format(origin=case.request.origin))]
    return []


def of_local_networks(cases: Iterable[Case]) -> list[tuple[Case, str]]:
    """The first case that asks a local network for a page that is not there, and what is to be said of that; nothing
    where none does."""
    for case in cases:
        for host in [host_of(request.origin) for request, _ in case.exchanges]:
            if is_local(host) and not is_local(host_of(case.page_origin)):
                return [(case, LOCAL.format(host=host))]
    return []


def is_before_cookies(case: Case) -> bool:
    """Whether it ended at the preflight of a request that would take cookies."""
    is_asked = bool(case.exchanges) and is_preflight(case.request)
    return is_asked and case.includes and case.request.origin in case.scenario.cookie_origins
