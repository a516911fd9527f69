"""An addon of mitmproxy beside python/addon.py: a request to http://changes.invalid/ sets the changes that are tried
from then on. Its body is a list of them in JSON."""
from __future__ import annotations

import json

from mitmproxy import ctx, http

from tests.recorded.real.proxy import CHANGES_HOST


def request(flow: http.HTTPFlow) -> None:
    if flow.request.host == CHANGES_HOST:
        ctx.options.update(change=json.loads(flow.request.get_text() or "[]"))
        flow.response = http.Response.make(204)
