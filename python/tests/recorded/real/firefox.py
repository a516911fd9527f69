"""A headless Firefox, driven by Marionette, whose network panel exports the HAR."""
from __future__ import annotations

import json
import os
import shutil
import signal
import socket
import subprocess
import tempfile
import time
from typing import Any, Optional

PATIENCE = 600
QUIET = 2.0  # seconds after a page is whole, in which its scripts ask for more
OPEN = """const done = arguments[arguments.length - 1];
(async () => {
  const { require } = ChromeUtils.importESModule("resource://devtools/shared/loader/Loader.sys.mjs");
  const { gDevTools } = require("devtools/client/framework/devtools");
  window.box = await gDevTools.showToolboxForTab(window.gBrowser.selectedTab, { toolId: "netmonitor" });
  return "open";
})().then(done, (error) => done("failed " + error));"""
EXPORT = """const done = arguments[arguments.length - 1];
(async () => {
  const har = await window.box.getHARFromNetMonitor();
  return typeof har === "string" ? har : JSON.stringify({ log: har.log || har });
})().then(done, (error) => done("failed " + error));"""
PREFERENCES: dict[str, Any] = {
    "browser.cache.disk.enable": False, "browser.cache.memory.enable": False, "dom.security.https_first": False,
    "dom.security.https_only_mode": False, "network.captive-portal-service.enabled": False,
    "network.connectivity-service.enabled": False, "app.normandy.enabled": False,
    "datareporting.policy.dataSubmissionEnabled": False, "services.settings.server": "data:,",
    "browser.shell.checkDefaultBrowser": False, "browser.startup.page": 0, "devtools.netmonitor.persistlog": True,
    "devtools.netmonitor.har.includeResponseBodies": True, "browser.aboutwelcome.enabled": False,
    "browser.safebrowsing.downloads.remote.enabled": False, "browser.safebrowsing.malware.enabled": False,
    "browser.safebrowsing.phishing.enabled": False, "network.proxy.allow_hijacking_localhost": True,
    "signon.rememberSignons": False, "browser.topsites.contile.enabled": False}


class Firefox:
    name = "firefox"

    def __init__(self, proxy: Optional[int] = None):
        self.folder = tempfile.mkdtemp(prefix="recorded-firefox-")
        port = free_port()
        own: dict[str, Any] = {**PREFERENCES, "marionette.port": port, "network.proxy.type": 1 if proxy else 0}
        if proxy:
            own.update({"network.proxy.http": "127.0.0.1", "network.proxy.http_port": proxy,
                        "network.proxy.ssl": "127.0.0.1", "network.proxy.ssl_port": proxy,
                        "network.proxy.no_proxies_on": ""})
        with open(os.path.join(self.folder, "user.js"), "w", encoding="utf-8") as file:
            file.writelines(f"user_pref({json.dumps(name)}, {json.dumps(value)});\n" for name, value in own.items())
        words = ["firefox-esr", "--headless", "--no-remote", "--marionette", "--remote-allow-system-access",
                 "--profile", self.folder, "about:blank"]
        self.process = subprocess.Popen(words, stdout=subprocess.DEVNULL, stderr=subprocess.DEVNULL,
                                        start_new_session=True)
        self.buffer = b""
        self.number = 0
        self.kept = ["html"]  # parts of the types of which bodies are kept
        try:
            self.open(port)
        except BaseException:
            self.close()
            raise

    def open(self, port: int) -> None:
        self.link = connected(port)
        self.message()
        self.ask("WebDriver:NewSession", acceptInsecureCerts=True, pageLoadStrategy="normal",
                 timeouts={"script": 1000 * PATIENCE, "pageLoad": 1000 * PATIENCE})
        self.in_chrome(OPEN)

    def message(self) -> Any:
        while b":" not in self.buffer:
            self.buffer += self.received()
        size, _, rest = self.buffer.partition(b":")
        while len(rest) < int(size):
            rest += self.received()
        self.buffer = rest[int(size):]
        return json.loads(rest[:int(size)])

    def received(self) -> bytes:
        data = self.link.recv(1 << 20)
        if not data:
            raise EOFError("firefox ended")
        return data

    def ask(self, method: str, **params: Any) -> Any:
        self.number += 1
        data = json.dumps([0, self.number, method, params]).encode()
        self.link.sendall(b"%d:%s" % (len(data), data))
        while True:
            kind, number, error, result = self.message()
            if kind == 1 and number == self.number:
                if error:
                    raise RuntimeError(f"{method}: {error.get('message', error)}")
                return result

    def in_chrome(self, script: str) -> str:
        self.ask("Marionette:SetContext", value="chrome")
        try:
            found: str = self.ask("WebDriver:ExecuteAsyncScript", script=script, args=[])["value"]
        finally:
            self.ask("Marionette:SetContext", value="content")
        if found.startswith("failed"):
            raise RuntimeError(f"firefox: {found}")
        return found

    def visit(self, url: str) -> None:
        self.ask("WebDriver:Navigate", url=url)
        self.settle()

    def run(self, script: str) -> Any:
        self.ask("WebDriver:ExecuteScript", script=script, args=[])
        self.settle()

    def settle(self) -> None:
        """Waits until the page is whole, and a while for its scripts."""
        time.sleep(QUIET)
        end = time.monotonic() + PATIENCE
        while time.monotonic() < end:
            state = self.ask("WebDriver:ExecuteScript", script="return document.readyState", args=[])
            if state["value"] == "complete":
                break
            time.sleep(0.2)
        time.sleep(QUIET)

    def har(self) -> dict[str, Any]:
        """What the panel exports, with the bodies that are kept."""
        found: dict[str, Any] = json.loads(self.in_chrome(EXPORT))
        for entry in found["log"]["entries"]:
            content = entry["response"].get("content") or {}
            if not any(part in content.get("mimeType", "") for part in self.kept):
                content.pop("text", None)
        return found

    def close(self) -> None:
        os.killpg(self.process.pid, signal.SIGKILL)
        self.process.wait()
        shutil.rmtree(self.folder, ignore_errors=True)


def free_port() -> int:
    with socket.socket() as one:
        one.bind(("127.0.0.1", 0))
        port: int = one.getsockname()[1]
        return port


def connected(port: int) -> socket.socket:
    end = time.monotonic() + PATIENCE
    while True:
        try:
            link = socket.create_connection(("127.0.0.1", port), 2)
            link.settimeout(PATIENCE)
            return link
        except OSError:
            if time.monotonic() > end:
                raise
            time.sleep(0.25)
