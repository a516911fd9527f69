"""An addon of mitmproxy (8.1 or later): a site is browsed as if its headers were changed as `bin/har` has them.

    mitmdump -s python/addon.py --set change="csp default-src 'self'" --set change="upgrade"
    mitmdump -s python/addon.py --set changes=FILE --set violations=violations.jsonl

`change` is a line of the file of `bin/har --changes`, and may come several times. What the tried policies refuse is
told once for each page, and written to the file that `violations` names. docs/har.md tells the rest."""
from __future__ import annotations

import json
import os
from collections.abc import Sequence
from typing import Any, Optional
from urllib.parse import urlsplit

from mitmproxy import ctx, exceptions, http

from fiorrudda.recorded import meta_policies, served  # mitmproxy looks in the folder of this file
from fiorrudda.recorded.changes import NONE


class Trial:
    """The changes under which the site is tried, and the violations that were told."""

    def __init__(self) -> None:
        self.changes = NONE
        self.told: set[str] = set()

    def load(self, loader: Any) -> None:
        loader.add_option("change", Sequence[str], [], "A change as a line of the file of bin/har --changes.")
        loader.add_option("changes", Optional[str], None, "A file of changes, as bin/har --changes takes it.")
        loader.add_option("violations", Optional[str], None, "Where each violation is written, as a line of JSON.")

    def configure(self, updated: set[str]) -> None:
        if not updated & {"change", "changes"}:
            return
        try:
            self.changes = served.changes_of([*lines_of(ctx.options.changes), *ctx.options.change])
        except (OSError, ValueError) as error:
            raise exceptions.OptionsError(f"changes: {error}") from None

    def running(self) -> None:
        for change in self.changes.told():
            ctx.log.alert(f"with {change}")

    def request(self, flow: http.HTTPFlow) -> None:
        request, url = flow.request, flow.request.pretty_url
        if request.path == served.REPORTS:
            self.take_report(flow)
            return
        secured = served.upgraded(self.changes, url)
        if secured:
            headers = served.upgrade_headers(secured, request.headers.get("Origin"))
            flow.response = http.Response.make(307, b"", fields_of(headers))
            flow.metadata["fiorrudda"] = None
            return
        flow.metadata["fiorrudda"] = url
        moved = served.asked_of(self.changes, url)
        if moved != url:
            request.url = moved
            request.host_header = urlsplit(moved).netloc
        if self.may_change(flow, url):
            for name in served.CONDITIONS:
                request.headers.pop(name, None)

    def may_change(self, flow: http.HTTPFlow, url: str) -> bool:
        """Whether an answer is to come whole, since the browser's own copy is without the changes."""
        destination = flow.request.headers.get("Sec-Fetch-Dest")
        is_page = served.is_page(destination, flow.request.headers.get("Accept", ""))
        return bool(self.changes) and is_page or any(change.fits(url) for change in self.changes.headers)

    def response(self, flow: http.HTTPFlow) -> None:
        url = flow.metadata.get("fiorrudda")
        if not url or not flow.response:
            return
        destination = flow.request.headers.get("Sec-Fetch-Dest")
        is_page = served.is_page(destination, flow.response.headers.get("Content-Type", ""))
        before = list(flow.response.headers.items(multi=True))
        after = served.answer_headers(self.changes, url, before, is_page)
        if after != before:
            flow.response.headers = http.Headers(fields_of(after))
        if is_page and served.drops_metas(self.changes):
            drop_metas(flow.response)

    def take_report(self, flow: http.HTTPFlow) -> None:
        flow.response = http.Response.make(204)
        found = served.violation_of(flow.request.get_content(strict=False) or b"")
        if found is None:
            return
        if ctx.options.violations:
            with open(ctx.options.violations, "a", encoding="utf-8") as file:
                file.write(json.dumps(found) + "\n")
        sentence = served.sentence_of(found)
        if sentence not in self.told:
            self.told.add(sentence)
            ctx.log.alert(sentence)


def lines_of(path: Optional[str]) -> list[str]:
    if not path:
        return []
    with open(os.path.expanduser(path), encoding="utf-8") as file:
        return file.read().splitlines()


def fields_of(headers: list[tuple[str, str]]) -> list[tuple[bytes, bytes]]:
    """Headers as mitmproxy keeps them."""
    return [(name.encode("utf-8", "surrogateescape"), value.encode("utf-8", "surrogateescape"))
            for name, value in headers]


def drop_metas(response: http.Response) -> None:
    """Takes the policies of `meta` elements out of a page."""
    html = response.get_content(strict=False)
    if html:
        left = meta_policies.without(html)
        if left != html:
            response.content = left


addons = [Trial()]
