"""A headless Chromium, driven by its DevTools protocol over a pipe, whose network events are written as a HAR as its
own tools write one."""
from __future__ import annotations

import base64
import datetime
import fcntl
import json
import os
import select
import shutil
import subprocess
import tempfile
import time
from collections import defaultdict
from typing import Any, Iterator, Optional
from urllib.parse import parse_qsl, urlsplit

PATIENCE = 90
QUIET = 1.5  # seconds without a network event, and with no request under way, after which a step is over
WORDS = ["--headless=new", "--remote-debugging-pipe", "--disable-gpu", "--no-first-run", "--disable-extensions",
         "--disable-background-networking", "--disable-component-update", "--disable-sync", "--disable-default-apps",
         "--disable-domain-reliability", "--disable-client-side-phishing-detection", "--disable-dev-shm-usage",
         "--no-pings", "--mute-audio", "--disable-quic", "--ignore-certificate-errors",
         "--disable-features=HttpsUpgrades,HttpsFirstModeV2,HttpsFirstBalancedModeAutoEnable,OptimizationHints,"
         "MediaRouter,Translate,AutofillServerCommunication"]
START = 'exec "$@" 3<&%d 4>&%d'  # the descriptors of the protocol


def pipe() -> tuple[int, int]:
    """A pipe whose ends are none of the descriptors that the protocol has."""
    ends = os.pipe()
    to_read, to_write = (fcntl.fcntl(end, fcntl.F_DUPFD_CLOEXEC, 10) for end in ends)
    for end in ends:
        os.close(end)
    return to_read, to_write


class Chromium:
    name = "chromium"

    def __init__(self, proxy: Optional[int] = None):
        self.folder = tempfile.mkdtemp(prefix="recorded-chromium-")
        (to_read, self.to), (self.of, to_write) = pipe(), pipe()
        words = ["chromium", *WORDS, f"--user-data-dir={self.folder}"]
        words += ["--no-sandbox"] if os.getuid() == 0 else []
        words += [f"--proxy-server=127.0.0.1:{proxy}", "--proxy-bypass-list=<-loopback>"] if proxy else \
            ["--no-proxy-server"]
        self.process = subprocess.Popen(["bash", "-c", START % (to_read, to_write), "bash", *words],
                                        pass_fds=(to_read, to_write), stdout=subprocess.DEVNULL,
                                        stderr=subprocess.DEVNULL, start_new_session=True)
        os.close(to_read)
        os.close(to_write)
        self.rest = b""
        self.count = 0
        self.events: list[dict[str, Any]] = []
        self.bodies: dict[str, dict[str, Any]] = {}
        self.session: Optional[str] = None
        self.under_way: set[str] = set()
        self.kept = ["Document"]  # the types of which bodies are kept
        try:
            self.open()
        except BaseException:
            self.close()
            raise

    def open(self) -> None:
        target = self.ask("Target.createTarget", url="about:blank")["targetId"]
        self.session = self.ask("Target.attachToTarget", targetId=target, flatten=True)["sessionId"]
        for domain in ("Page", "Runtime", "Network", "Log"):
            self.ask(domain + ".enable")

    # ---- messages

    def ask(self, method: str, **params: Any) -> dict[str, Any]:
        self.count += 1
        own = {"id": self.count, "method": method, "params": params}
        os.write(self.to, json.dumps({**own, **({"sessionId": self.session} if self.session else {})}).encode() + b"\0")
        end = time.monotonic() + PATIENCE
        while True:
            for message in self.messages(end - time.monotonic()):
                if message.get("id") == own["id"]:
                    if "error" in message:
                        raise RuntimeError(f"{method}: {message['error']['message']}")
                    result: dict[str, Any] = message["result"]
                    return result
            if time.monotonic() > end:
                raise TimeoutError(f"chromium: {method} was not answered")

    def messages(self, seconds: float) -> Iterator[dict[str, Any]]:
        """What comes in so many seconds; the events are kept."""
        if select.select([self.of], [], [], max(0, seconds))[0]:
            self.rest += os.read(self.of, 1 << 20)
        *whole, self.rest = self.rest.split(b"\0")
        for text in whole:
            message = json.loads(text)
            if "method" in message:
                self.events.append(message)
                self.count_request(message["method"], message["params"])
            yield message

    def count_request(self, method: str, params: dict[str, Any]) -> None:
        if method == "Network.requestWillBeSent":
            self.under_way.add(params["requestId"])
        elif method in ("Network.loadingFinished", "Network.loadingFailed"):
            self.under_way.discard(params["requestId"])

    def settle(self) -> None:
        """Waits until nothing comes of the network, and nothing is under way."""
        end = time.monotonic() + PATIENCE
        last = time.monotonic()
        while time.monotonic() < end and (self.under_way or time.monotonic() - last < QUIET):
            for message in self.messages(0.2):
                if message.get("method", "").startswith(("Network.", "Page.")):
                    last = time.monotonic()
        self.take_bodies()

    def take_bodies(self) -> None:
        """The bodies that are kept, as long as the browser has them."""
        for event in self.events:
            params = event["params"]
            wanted = event["method"] == "Network.responseReceived" and params["type"] in self.kept
            if wanted and params["requestId"] not in self.bodies:
                try:
                    self.bodies[params["requestId"]] = self.ask("Network.getResponseBody",
                                                                requestId=params["requestId"])
                except RuntimeError:
                    self.bodies[params["requestId"]] = {}
        self.under_way.clear()  # what a page asked that is left may have no end

    # ---- steps

    def visit(self, url: str) -> None:
        self.ask("Page.navigate", url=url)
        self.settle()

    def run(self, script: str) -> Any:
        found = self.ask("Runtime.evaluate", expression=script, returnByValue=True, awaitPromise=False)
        self.settle()
        return found["result"].get("value")

    def close(self) -> None:
        os.killpg(self.process.pid, 9)
        self.process.wait()
        os.close(self.to)
        os.close(self.of)
        shutil.rmtree(self.folder, ignore_errors=True)

    # ---- what is recorded

    def violations(self) -> list[str]:
        """What the browser's console says of policies."""
        texts = [event["params"]["entry"]["text"] for event in self.events if event["method"] == "Log.entryAdded"]
        return [text for text in texts if "Content Security Policy" in text]

    def failures(self) -> dict[str, str]:
        """The URLs of requests that failed, each with the browser's reason."""
        urls: dict[str, str] = {}
        found: dict[str, str] = {}
        for event in self.events:
            params = event["params"]
            if event["method"] == "Network.requestWillBeSent":
                urls[params["requestId"]] = params["request"]["url"]
            elif event["method"] == "Network.loadingFailed" and params["requestId"] in urls:
                cors = params.get("corsErrorStatus") or {}
                found[urls[params["requestId"]]] = params.get("blockedReason") or cors.get("corsError") \
                    or params["errorText"]
        return found

    def har(self) -> dict[str, Any]:
        return Har(self.events, self.bodies).log()


class Har:
    """The HAR of a page's events."""

    def __init__(self, events: list[dict[str, Any]], bodies: dict[str, dict[str, Any]]):
        self.bodies = bodies
        self.hops: list[dict[str, Any]] = []  # in the order in which they were asked
        self.last: dict[str, dict[str, Any]] = {}  # of each request
        self.sent: dict[str, list[Any]] = defaultdict(list)
        self.got: dict[str, list[Any]] = defaultdict(list)
        self.pages: list[dict[str, Any]] = []
        for event in events:
            handle = getattr(self, "on_" + event["method"].partition(".")[2], None)
            if event["method"].startswith("Network.") and handle:
                handle(event["params"])

    def on_requestWillBeSent(self, params: dict[str, Any]) -> None:
        own = params["requestId"]
        if "redirectResponse" in params:
            self.last[own].update(response=params["redirectResponse"], has_extra=params["redirectHasExtraInfo"],
                                  redirect=params["request"]["url"])
        hop = {"id": own, "asked": params, "response": None, "has_extra": None, "error": None, "end": None}
        if params.get("type") == "Document" and params["loaderId"] == own and "redirectResponse" not in params:
            self.pages.append({"startedDateTime": time_of(params["wallTime"]), "id": f"page_{len(self.pages) + 1}",
                               "title": params["request"]["url"], "pageTimings": {}, "loader": own})
        self.hops.append(hop)
        self.last[own] = hop

    def on_requestWillBeSentExtraInfo(self, params: dict[str, Any]) -> None:
        self.sent[params["requestId"]].append(params)

    def on_responseReceivedExtraInfo(self, params: dict[str, Any]) -> None:
        self.got[params["requestId"]].append(params)

    def on_responseReceived(self, params: dict[str, Any]) -> None:
        if params["requestId"] in self.last:
            self.last[params["requestId"]].update(response=params["response"], has_extra=params["hasExtraInfo"])

    def on_loadingFinished(self, params: dict[str, Any]) -> None:
        self.end(params, None)

    def on_loadingFailed(self, params: dict[str, Any]) -> None:
        cors = params.get("corsErrorStatus")
        self.end(params, f"net::{params['blockedReason']}" if params.get("blockedReason") and not params["errorText"]
                 else params["errorText"] or (cors or {}).get("corsError"))

    def end(self, params: dict[str, Any], error: Optional[str]) -> None:
        if params["requestId"] in self.last:
            self.last[params["requestId"]].update(end=params["timestamp"], error=error)

    def log(self) -> dict[str, Any]:
        pages = [{key: value for key, value in page.items() if key != "loader"} for page in self.pages]
        return {"log": {"version": "1.2", "creator": {"name": "WebInspector", "version": "537.36"}, "pages": pages,
                        "entries": [self.entry(hop) for hop in self.hops]}}

    def page_of(self, hop: dict[str, Any]) -> str:
        loader = hop["asked"]["loaderId"]
        own: list[str] = [page["id"] for page in self.pages if page["loader"] == loader]
        before = [page["id"] for page in self.pages if page["startedDateTime"] <= time_of(hop["asked"]["wallTime"])]
        return (own or before or ["page_1"])[-1]

    def entry(self, hop: dict[str, Any]) -> dict[str, Any]:
        asked = hop["asked"]
        milliseconds = round((hop["end"] - asked["timestamp"]) * 1000, 3) if hop["end"] else 0
        address = (hop["response"] or {}).get("remoteIPAddress")
        return {"_initiator": asked["initiator"], "_priority": asked["request"]["initialPriority"],
                "_resourceType": asked.get("type", "Other").lower(), "cache": {},
                "pageref": self.page_of(hop), "request": self.request(hop), "response": self.response(hop),
                **({"serverIPAddress": address} if address else {}), "startedDateTime": time_of(asked["wallTime"]),
                "time": milliseconds, "timings": {"send": 0, "wait": milliseconds, "receive": 0}}

    def request(self, hop: dict[str, Any]) -> dict[str, Any]:
        asked = hop["asked"]["request"]
        is_sent = hop["has_extra"] or hop["has_extra"] is None
        extra = self.sent[hop["id"]].pop(0) if is_sent and self.sent[hop["id"]] else None
        headers = pairs(extra["headers"] if extra else asked["headers"])
        query = [{"name": name, "value": value} for name, value in parse_qsl(urlsplit(asked["url"]).query, True)]
        return {"method": asked["method"], "url": asked["url"], "httpVersion": "http/1.1", "headers": headers,
                "queryString": query, "cookies": [], "headersSize": -1, "bodySize": -1}

    def response(self, hop: dict[str, Any]) -> dict[str, Any]:
        got = hop["response"]
        extra = self.got[hop["id"]].pop(0) if (hop["has_extra"] or got is None) and self.got[hop["id"]] else None
        if got is None:  # it was refused: what came all the same is in the other event, which the tools look at too
            return {"status": extra["statusCode"] if extra else 0, "statusText": "", "httpVersion": "",
                    "headers": pairs(extra["headers"]) if extra else [], "cookies": [],
                    "content": {"size": 0, "mimeType": "x-unknown"}, "redirectURL": hop.get("redirect", ""),
                    "headersSize": -1, "bodySize": -1, "_error": hop["error"]}
        status = extra["statusCode"] if extra else got["status"]
        return {"status": status, "statusText": got["statusText"], "httpVersion": got.get("protocol", "http/1.1"),
                "headers": pairs(extra["headers"] if extra else got["headers"]), "cookies": [],
                "content": self.content(hop), "redirectURL": hop.get("redirect", ""), "headersSize": -1,
                "bodySize": -1, "_transferSize": got.get("encodedDataLength", 0), "_error": hop["error"],
                "_fetchedViaServiceWorker": got.get("fromServiceWorker", False)}

    def content(self, hop: dict[str, Any]) -> dict[str, Any]:
        body = self.bodies.get(hop["id"]) if hop is self.last[hop["id"]] else None
        own = {"mimeType": hop["response"]["mimeType"]}
        if not body:
            return {"size": 0, **own}
        data = base64.b64decode(body["body"]) if body["base64Encoded"] else body["body"].encode()
        return {"size": len(data), **own, "text": data.decode("utf-8", "replace")}


def pairs(headers: dict[str, str]) -> list[dict[str, str]]:
    """Headers as a HAR has them: several of one name are apart."""
    return [{"name": name, "value": value} for name, values in headers.items() for value in values.split("\n")]


def time_of(seconds: float) -> str:
    moment = datetime.datetime.fromtimestamp(seconds, datetime.timezone.utc)
    return moment.isoformat(timespec="milliseconds").replace("+00:00", "Z")
