"use strict";

// A headless Chromium with a fresh profile, driven by its DevTools protocol over a pipe: messages are JSON, and end in a
// zero byte. Every host leads to the listener of this run.

const fs = require("fs");
const os = require("os");
const path = require("path");
const { spawn, spawnSync } = require("child_process");
const { watch, begin, outcome, call, scriptTag } = require("./page.js");

const NAMES = process.env.CHROMIUM ? [process.env.CHROMIUM] : ["chromium", "chromium-browser", "google-chrome"];
const PATIENCE = 600000; // milliseconds
const SETTLE = 40; // milliseconds until the last events of a command are there
const SWITCHED_OFF = ["HttpsUpgrades", "HttpsFirstModeV2", "HttpsFirstModeIncognito", "HttpsFirstBalancedMode",
  "HttpsFirstBalancedModeAutoEnable", "LocalNetworkAccessChecks", "LocalNetworkAccessChecksWarn",
  "PrivateNetworkAccessSendPreflights", "PrivateNetworkAccessRespectPreflightResults", "OptimizationHints",
  "MediaRouter", "Translate", "AutofillServerCommunication"];

// Requests by which the browser reports a page's violations: none of the script's.
const REPORTS = ["CSPViolationReport", "Ping"];

function versionOf(name) {
  const ran = spawnSync(name, ["--version"], { encoding: "utf8" });
  const found = ran.status === 0 ? /[0-9]+(\.[0-9]+)+/.exec(ran.stdout) : null;
  return found === null ? null : found[0];
}

// The program's name and version; null where there is none.
function find() {
  const named = NAMES.map((name) => ({ name, version: versionOf(name) })).find((one) => one.version !== null);
  return named === undefined ? null : { browser: "chromium", ...named };
}

// Third parties have their cookies, as the engine's servers do: Debian's package blocks them.
function writeProfile(folder) {
  fs.mkdirSync(path.join(folder, "Default"));
  fs.writeFileSync(path.join(folder, "Default", "Preferences"), JSON.stringify({ profile: { cookie_controls_mode: 0,
    block_third_party_cookies: false } }));
}

function wordsFor(folder, port, keyHash) {
  const sandbox = process.getuid && process.getuid() === 0 ? ["--no-sandbox"] : [];
  return ["--headless=new", "--remote-debugging-pipe", "--user-data-dir=" + folder,
    "--host-resolver-rules=MAP * 127.0.0.1:" + port, "--ignore-certificate-errors-spki-list=" + keyHash,
    "--no-proxy-server", "--disable-quic", "--disable-features=" + SWITCHED_OFF.join(","),
    "--autoplay-policy=no-user-gesture-required", "--disable-gpu", "--no-first-run", "--disable-extensions",
    "--disable-background-networking", "--disable-component-update", "--disable-sync", "--disable-default-apps",
    "--disable-domain-reliability", "--disable-client-side-phishing-detection", "--no-pings", "--mute-audio",
    "--disable-dev-shm-usage", ...sandbox];
}

// What the network layer tells of one request.
function reasonOf(failed) {
  const cors = failed.corsErrorStatus ? failed.corsErrorStatus.corsError : null;
  if (cors !== null) {
    return ("cors " + cors + " " + (failed.corsErrorStatus.failedParameter || "")).trim();
  }
  return failed.blockedReason ? "blocked " + failed.blockedReason : failed.errorText;
}

class Chromium {
  constructor(program, servers, authority) {
    this.version = program.version;
    this.servers = servers;
    this.settle = SETTLE;
    this.folder = fs.mkdtempSync(path.join(os.tmpdir(), "in-browser-"));
    writeProfile(this.folder);
    const words = wordsFor(this.folder, servers.port, authority.keyHash());
    this.process = spawn(program.name, words, { stdio: ["ignore", "ignore", "ignore", "pipe", "pipe"], detached: true });
    this.hasEnded = false;
    this.gone = new Promise((resolve) => ["exit", "error"].forEach((name) => this.process.on(name, resolve)))
      .then(() => this.end());
    this.asked = new Map();
    this.listeners = new Map();
    this.count = 0;
    this.rest = Buffer.alloc(0);
    this.process.stdio[3].on("error", () => {});
    this.process.stdio[4].on("data", (bytes) => this.take(bytes));
  }

  take(bytes) {
    this.rest = Buffer.concat([this.rest, bytes]);
    for (let end = this.rest.indexOf(0); end >= 0; end = this.rest.indexOf(0)) {
      this.hear(JSON.parse(this.rest.subarray(0, end).toString("utf8")));
      this.rest = this.rest.subarray(end + 1);
    }
  }

  hear(message) {
    if (message.id !== undefined) {
      this.asked.get(message.id)(message);
      this.asked.delete(message.id);
    } else if (this.listeners.has(message.sessionId)) {
      this.listeners.get(message.sessionId)(message);
    }
  }

  // The browser is gone: what was asked of it is not answered any more.
  end() {
    this.hasEnded = true;
    this.asked.forEach((answered) => answered({ error: { message: "the browser has ended" } }));
    this.asked.clear();
  }

  ask(method, params = {}, sessionId = undefined) {
    if (this.hasEnded) {
      return Promise.reject(new Error("chromium: " + method + ": the browser has ended"));
    }
    this.count += 1;
    const id = this.count;
    return new Promise((resolve, reject) => {
      const late = setTimeout(() => reject(new Error("chromium: " + method + " was not answered")), PATIENCE);
      this.asked.set(id, (message) => {
        clearTimeout(late);
        return message.error ? reject(new Error(method + ": " + message.error.message)) : resolve(message.result);
      });
      this.process.stdio[3].write(JSON.stringify({ id, method, params, sessionId }) + "\0");
    });
  }

  // A page: in the browser's own profile, or in another one, which is forgotten with the page.
  async session(apart) {
    const { browserContextId } = apart ? await this.ask("Target.createBrowserContext", { disposeOnDetach: true }) : {};
    return this.pageIn(browserContextId, true);
  }

  async pageIn(browserContextId, isFirst) {
    const { targetId } = await this.ask("Target.createTarget", { url: "about:blank", browserContextId });
    const { sessionId } = await this.ask("Target.attachToTarget", { targetId, flatten: true });
    const session = new Session(this, sessionId, browserContextId, isFirst);
    this.listeners.set(sessionId, (message) => session.hear(message));
    await Promise.all(["Page.enable", "Runtime.enable", "Network.enable"].map((method) => session.ask(method)));
    return session;
  }

  // Ends the browser with the processes that it started: they are a group of its own.
  kill() {
    try {
      process.kill(-this.process.pid, "SIGKILL");
    } catch {
      // It is gone already.
    }
  }

  // Removes the profile, also where this program is stopped.
  forget() {
    fs.rmSync(this.folder, { recursive: true, force: true, maxRetries: 10, retryDelay: 100 });
  }

  async close() {
    const late = setTimeout(() => this.kill(), 3000);
    await this.ask("Browser.close").catch(() => this.kill());
    await this.gone;
    clearTimeout(late);
    this.forget();
  }
}

class Session {
  constructor(browser, id, context, isFirst) {
    this.browser = browser;
    this.id = id;
    this.context = context;
    this.isFirst = isFirst;
    this.types = new Map();
    this.ended = [];
  }

  ask(method, params) {
    return this.browser.ask(method, params, this.id);
  }

  hear(message) {
    const { requestId, type } = message.params;
    if (message.method === "Network.requestWillBeSent") {
      this.types.set(requestId, type);
    } else if (message.method === "Network.loadingFailed" && !REPORTS.includes(type)) {
      this.ended.push({ reason: reasonOf(message.params) });
    } else if (message.method === "Network.loadingFinished" && !REPORTS.includes(this.types.get(requestId))) {
      this.ended.push({ reason: null });
    }
  }

  // A cookie of an https origin goes with requests of other sites, too.
  async setCookie(origin, name, value) {
    const reach = origin.startsWith("https:") ? { sameSite: "None", secure: true } : {};
    await this.ask("Network.setCookie", { name, value, url: origin + "/", path: "/", ...reach });
  }

  // Makes a host known: a visit to it, whose answer says for how long.
  async makeKnown(known, seconds) {
    const url = "https://" + known.host + "/";
    this.browser.servers.expect(url, [["Strict-Transport-Security",
      "max-age=" + seconds + (known.subdomains ? "; includeSubDomains" : "")]]);
    await this.visit(url);
  }

  async visit(url) {
    const { errorText } = await this.ask("Page.navigate", { url });
    if (errorText) {
      throw new Error("chromium does not open " + url + ": " + errorText);
    }
  }

  async open(page) {
    this.page = page;
    await this.visit(page.url.href);
    await this.value(call(watch));
  }

  // The value of an expression in the page.
  async value(expression) {
    const { result, exceptionDetails } = await this.ask("Runtime.evaluate", { expression, returnByValue: true,
      awaitPromise: true });
    if (exceptionDetails !== undefined) {
      throw new Error("chromium: the page threw " + JSON.stringify(exceptionDetails.exception || {}).slice(0, 300));
    }
    return result.value;
  }

  // Plays one fetch or load, and tells what the page saw and how each request of the network layer ended.
  async perform(command, number) {
    this.ended = [];
    const parsed = command.load !== undefined && command.load.kind === "script" && command.load.parser !== false;
    await this.value(call(begin, parsed ? { load: { ...command.load, parsed } } : command, number));
    if (parsed) {
      this.page.append(scriptTag(command.load, number));
    }
    if (command.load !== undefined && command.load.kind === "manifest") {
      await this.ask("Page.getAppManifest").catch(() => null);
    }
    const seen = JSON.parse(await this.value(call(outcome, this.browser.settle)));
    const reasons = this.ended.filter((end) => end.reason !== null).map((end) => end.reason);
    return { ...seen, reasons, finished: this.ended.some((end) => end.reason === null) };
  }

  // Another page of the same profile.
  beside() {
    return this.browser.pageIn(this.context, false);
  }

  async close() {
    this.browser.listeners.delete(this.id);
    if (this.isFirst && this.context !== undefined) {
      await this.browser.ask("Target.disposeBrowserContext", { browserContextId: this.context }).catch(() => null);
    }
  }
}

module.exports = { find, start: (program, servers, authority) => new Chromium(program, servers, authority) };
