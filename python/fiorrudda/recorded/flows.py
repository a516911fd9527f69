"""Reads flow files of mitmproxy by its own reader: each flow becomes an entry as a HAR has it. What is no flow file, or
is cut, is refused with its place; a flow that cannot be read costs that flow."""
from __future__ import annotations

import base64
import datetime
import io
import re
from typing import Any, Iterator, Union

from fiorrudda.recorded import packages
from fiorrudda.recorded.fields import Bad

FRAME = re.compile(rb"([0-9]{1,12}):")  # how a flow begins: the number of its bytes
UNREAD = ("image/", "audio/", "video/", "font/")  # bodies of which nothing is asked
ERROR = "mitmproxy: "
MISSING = ("this is a flow file of mitmproxy, and python3 cannot import the package mitmproxy, which reads it (%s): "
           "install that, or save the flows as a HAR")


class NoFlows(Exception):
    """Why bytes cannot be read as flows, in a sentence."""


def is_flows(data: bytes) -> bool:
    """Whether bytes begin as a flow file does, and no JSON."""
    return FRAME.match(data) is not None


def log_of(data: bytes) -> dict[str, Any]:
    """A flow file as the `log` of a HAR, in whose list there is a Bad for each flow that is no entry; raises
    NoFlows."""
    read, version = reader()
    entries = [entry_at(number, at, frame, read) for number, (at, frame) in enumerate(frames(data))]
    return {"creator": {"name": "mitmproxy", "version": version}, "entries": entries}


def reader() -> tuple[Any, str]:
    """mitmproxy's own reader, and its version."""
    try:
        packages.add_folders("mitmproxy")
        from mitmproxy import io as flow_io, version
        return flow_io.FlowReader, version.VERSION
    except Exception as error:  # whatever its own imports come to
        raise NoFlows(MISSING % (str(error).partition("\n")[0] or type(error).__name__)) from None


def frames(data: bytes) -> Iterator[tuple[int, bytes]]:
    """The bytes of each flow, and where they begin."""
    at, number = 0, 0
    while at < len(data):
        begun = FRAME.match(data, at)
        if begun is None:
            raise NoFlows(f"the flow file is broken behind flow {number - 1}: no flow begins at byte {at}")
        end = begun.end() + int(begun.group(1)) + 1
        if end > len(data):
            raise NoFlows(f"the flow file is cut in flow {number}, which begins at byte {at}: copy it again")
        yield at, data[at:end]
        at, number = end, number + 1


def entry_at(number: int, at: int, frame: bytes, read: Any) -> Union[dict[str, Any], Bad]:
    """The entry of a flow, or why it is none."""
    try:
        flow = next(read(io.BytesIO(frame)).stream())
        if flow.type != "http":
            return Bad(f"entries[{number}] is a flow of {flow.type}, and none of HTTP")
        return entry_of(flow)
    except Exception as error:  # of a reader that promises nothing for such bytes
        version = re.search(r"flow format version [\w, ()]+", str(error))
        why = version.group() if version else type(error).__name__
        return Bad(f"entries[{number}], at byte {at}, is no flow that mitmproxy's reader takes ({why})")


# ---- a flow

def entry_of(flow: Any) -> dict[str, Any]:
    request, error = flow.request, flow.error
    server = flow.server_conn.peername if flow.server_conn else None
    return {"startedDateTime": time_of(request.timestamp_start), "time": milliseconds_of(flow),
            **({"serverIPAddress": server[0]} if server else {}), **({"_error": ERROR + error.msg} if error else {}),
            "request": {"method": request.method, "url": url_of(flow), "httpVersion": request.http_version,
                        "headers": headers_of(request)},
            "response": response_of(flow.response)}


def url_of(flow: Any) -> str:
    """The URL by the request's own Host; that of a WebSocket has the scheme that a page writes."""
    url: str = flow.request.pretty_url
    return "ws" + url[len("http"):] if flow.websocket else url


def headers_of(message: Any) -> list[dict[str, str]]:
    return [{"name": name, "value": value} for name, value in message.headers.items(multi=True)]


def response_of(response: Any) -> dict[str, Any]:
    """The answer; the status 0 where none came."""
    if response is None:
        return {"status": 0, "headers": []}
    return {"status": response.status_code, "statusText": response.reason, "httpVersion": response.http_version,
            "headers": headers_of(response), "content": content_of(response)}


def content_of(response: Any) -> dict[str, Any]:
    """The body without the codings of the answer."""
    kind = response.headers.get("Content-Type", "")
    body = None if kind.strip().lower().startswith(UNREAD) else response.get_content(strict=False)
    if body is None:
        return {"mimeType": kind}
    return {"mimeType": kind, "size": len(body), "text": base64.b64encode(body).decode("ascii"), "encoding": "base64"}


def time_of(seconds: float) -> str:
    return datetime.datetime.fromtimestamp(seconds, datetime.timezone.utc).isoformat()


def milliseconds_of(flow: Any) -> float:
    """How long it took, up to the end of the answer; 0 where none came."""
    end = flow.response.timestamp_end if flow.response else None
    took: float = round((end - flow.request.timestamp_start) * 1000, 3) if end else 0
    return took
