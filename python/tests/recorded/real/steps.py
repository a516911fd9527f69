"""What is done in each application, by whichever browser: visits, and scripts that fill in forms and press buttons."""
from __future__ import annotations

from typing import Any

from tests.recorded.real.applications import PASSWORD, USER, Application

VISIT, RUN = "visit", "run"
Step = tuple[str, str]


def press(selector: str) -> Step:
    return RUN, f"document.querySelector({selector!r}).click()"


def fill(selector: str, value: str) -> str:
    return f"document.querySelector({selector!r}).value = {value!r};"


STEPS: dict[str, list[Step]] = {
    "dokuwiki": [
        (VISIT, "/doku.php?id=start"),
        (VISIT, "/doku.php?id=start&do=login"),
        (RUN, fill("input[name=u]", USER) + fill("input[name=p]", PASSWORD)
         + "document.querySelector('#dw__login button[type=submit]').click()"),
        (VISIT, "/doku.php?id=second&do=edit"),
        (RUN, fill("#wiki__text", "====== Second ======\nA line, and [[start]].\n") + fill("#edit__summary", "new")
         + "document.querySelector('#edbtn__preview').click()"),
        press("#edbtn__save"),
        (VISIT, "/doku.php?id=start&do=media"),
        (VISIT, "/doku.php?id=start&do=search&q=line"),
        (VISIT, "/doku.php?id=start&do=admin&page=config")],
    "mediawiki": [
        (VISIT, "/index.php"),
        (VISIT, "/index.php?title=Special:UserLogin"),
        (RUN, fill("#wpName1", USER) + fill("#wpPassword1", PASSWORD)
         + "document.querySelector('#wpLoginAttempt').click()"),
        (VISIT, "/index.php?title=Second&action=edit"),
        (RUN, fill("#wpTextbox1", "== Second ==\nA line, and [[Main Page]].\n")
         + "document.querySelector('#wpPreview').click()"),
        press("#wpSave"),
        (VISIT, "/index.php?title=Special:RecentChanges"),
        (VISIT, "/index.php?title=Special:Preferences")],
    "phpmyadmin": [
        (VISIT, "/index.php"),
        (RUN, fill("#input_username", USER) + fill("#input_password", PASSWORD)
         + "document.querySelector('#input_go').click()"),
        (VISIT, "/index.php?route=/database/structure&db=shop"),
        (VISIT, "/index.php?route=/sql&db=shop&table=goods"),
        (VISIT, "/index.php?route=/table/sql&db=shop&table=goods"),
        (VISIT, "/index.php?route=/server/status")]}


def do(browser: Any, application: Application) -> None:
    """All steps of an application, one after the other."""
    for kind, what in STEPS[application.name]:
        if kind == VISIT:
            browser.visit(application.origin + what)
        else:
            browser.run(what)
