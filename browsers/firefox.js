"use strict";

// A headless Firefox with a fresh profile, driven by Marionette: messages over TCP, each a length, a colon and JSON. A
// proxy setting (SOCKS 5) leads every host to the listener of this run, and the authority's certificate is put into the
// profile.

const fs = require("fs");
const net = require("net");
const os = require("os");
const path = require("path");
const { spawn, spawnSync } = require("child_process");
const { watch, begin, outcome, call, scriptTag } = require("./page.js");
const { prefsFor } = require("./firefox-prefs.js");

const NAMES = process.env.FIREFOX ? [process.env.FIREFOX] : ["firefox-esr", "firefox"];
const PATIENCE = 600000; // milliseconds
const START = 600000; // milliseconds until Marionette must listen, and greet
const SETTLE = 60; // milliseconds until the last events of a command are there
const PAUSE = 20; // milliseconds between two looks at what the browser does by itself

const paused = () => new Promise((resolve) => setTimeout(resolve, PAUSE));

function versionOf(name) {
  const ran = spawnSync(name, ["--version"], { encoding: "utf8", timeout: START });
  const found = ran.status === 0 ? /[0-9]+(\.[0-9]+)+(esr)?/.exec(ran.stdout) : null;
  return found === null ? null : found[0];
}

// The program's name and version; null where there is none.
function find() {
  const named = NAMES.map((name) => ({ name, version: versionOf(name) })).find((one) => one.version !== null);
  return named === undefined ? null : { browser: "firefox", ...named };
}

function writeProfile(folder, port) {
  const prefs = prefsFor(port);
  const lines = Object.keys(prefs).map((name) => "user_pref(" + JSON.stringify(name) + ", " + JSON.stringify(prefs[name])
    + ");\n");
  fs.writeFileSync(path.join(folder, "user.js"), lines.join(""));
}

// ---- what is run in the browser itself, with its own rights

function trust(certificate) {
  Cc["@mozilla.org/security/x509certdb;1"].getService(Ci.nsIX509CertDB).addCertFromBase64(certificate, "CT,,");
}

function giveCookie(host, name, value, secure, userContextId) {
  const inAYear = Date.now() + 365 * 24 * 3600 * 1000;
  const scheme = secure ? Ci.nsICookie.SCHEME_HTTPS : Ci.nsICookie.SCHEME_HTTP;
  const sameSite = secure ? Ci.nsICookie.SAMESITE_NONE : Ci.nsICookie.SAMESITE_UNSET;
  Services.cookies.add(host, "/", name, value, secure, false, false, inAYear, { userContextId }, sameSite, scheme);
}

// Known hosts are of all containers.
function forgetKnownHosts() {
  Cc["@mozilla.org/ssservice;1"].getService(Ci.nsISiteSecurityService).clearAll();
}

// A tab of a container that was never used: it has cookies and caches of its own.
function openTab(userContextId) {
  const triggeringPrincipal = Services.scriptSecurityManager.getSystemPrincipal();
  gBrowser.selectedTab = gBrowser.addTab("about:blank", { userContextId, triggeringPrincipal });
}

// Asks for the manifest of the selected tab, as the browser does where it is installed.
function obtainManifest() {
  const { ManifestObtainer } = ChromeUtils.importESModule("resource://gre/modules/ManifestObtainer.sys.mjs");
  return ManifestObtainer.browserObtainManifest(gBrowser.selectedBrowser).then(() => true, () => false);
}

// Listens to how requests end, and to what the console is told of them.
function listen() {
  const heard = { ended: [], said: [] };
  heard.observe = (subject, topic) => {
    if (topic === "http-on-stop-request") {
      const channel = subject.QueryInterface(Ci.nsIHttpChannel);
      heard.ended.push({ status: channel.status, url: channel.URI.spec });
      return;
    }
    if (subject instanceof Ci.nsIScriptError) {
      heard.said.push(subject.category + ": " + subject.errorMessage);
    }
  };
  Services.obs.addObserver(heard, "http-on-stop-request");
  Services.console.registerListener({ observe: (message) => heard.observe(message, "console") });
  window.fiorrudda = heard;
}

function heardSince() {
  const { ended, said } = window.fiorrudda;
  window.fiorrudda.ended = [];
  window.fiorrudda.said = [];
  return { ended, said };
}

// ---- the session

class Firefox {
  constructor(program, servers, authority) {
    this.version = program.version;
    this.servers = servers;
    this.authority = authority;
    this.settle = SETTLE;
    this.folder = fs.mkdtempSync(path.join(os.tmpdir(), "in-browser-"));
    writeProfile(this.folder, servers.port);
    const words = ["--headless", "--no-remote", "--marionette", "--remote-allow-system-access", "--profile", this.folder];
    this.process = spawn(program.name, words, { stdio: "ignore", detached: true,
      env: { ...process.env, MOZ_CRASHREPORTER_DISABLE: "1", MOZ_REMOTE_SETTINGS_DEVTOOLS: "1", HOME: this.folder } });
    this.ended = null; // or why the browser is gone
    this.gone = new Promise((resolve) => {
      this.process.on("exit", (status, signal) => this.end(resolve, "it ended with " + (signal || "status " + status)));
      this.process.on("error", (error) => this.end(resolve, error.message));
    });
    this.containers = 0;
    this.asked = new Map();
    this.count = 0;
    this.rest = Buffer.alloc(0);
  }

  // The browser is gone, for this reason: what was asked of it is not answered any more.
  end(resolve, why) {
    this.ended = this.ended || why;
    this.asked.forEach((answered) => answered([1, 0, { message: this.ended }, null]));
    this.asked.clear();
    resolve();
  }

  // The port that Marionette has taken, once it has said so in the profile.
  async port() {
    const file = path.join(this.folder, "MarionetteActivePort");
    for (let until = Date.now() + START; Date.now() < until;) {
      if (this.ended !== null) {
        throw new Error("firefox does not start: " + this.ended);
      }
      if (fs.existsSync(file) && fs.readFileSync(file, "utf8").trim() !== "") {
        return Number(fs.readFileSync(file, "utf8"));
      }
      await paused();
    }
    throw new Error("firefox does not start: it did not listen within " + START / 1000 + " s");
  }

  take(bytes) {
    this.rest = Buffer.concat([this.rest, bytes]);
    for (let colon = this.rest.indexOf(":"); colon >= 0; colon = this.rest.indexOf(":")) {
      const end = colon + 1 + Number(this.rest.subarray(0, colon).toString("latin1"));
      if (this.rest.length < end) {
        return;
      }
      this.hear(JSON.parse(this.rest.subarray(colon + 1, end).toString("utf8")));
      this.rest = this.rest.subarray(end);
    }
  }

  hear(message) {
    if (Array.isArray(message)) {
      this.asked.get(message[1])(message);
      this.asked.delete(message[1]);
    } else {
      this.greeted();
    }
  }

  ask(method, params = {}) {
    if (this.ended !== null || this.socket === undefined) {
      return Promise.reject(new Error("firefox: " + method + ": " + (this.ended || "it has not started")));
    }
    this.count += 1;
    const id = this.count;
    return new Promise((resolve, reject) => {
      const late = setTimeout(() => reject(new Error("firefox: " + method + " was not answered")), PATIENCE).unref();
      this.asked.set(id, ([, , error, result]) => {
        clearTimeout(late);
        return error ? reject(new Error("firefox: " + method + ": " + error.message)) : resolve(result);
      });
      const text = JSON.stringify([0, id, method, params]);
      this.socket.write(Buffer.byteLength(text) + ":" + text);
    });
  }

  async start() {
    const port = await this.port();
    const greeted = new Promise((resolve, reject) => {
      this.greeted = resolve;
      const late = () => reject(new Error("firefox does not start: it did not greet within " + START / 1000 + " s"));
      setTimeout(late, START).unref();
      this.gone.then(() => reject(new Error("firefox does not start: " + this.ended)));
    });
    this.socket = net.connect(port, "127.0.0.1");
    this.socket.on("error", () => {});
    this.socket.on("data", (bytes) => this.take(bytes));
    await greeted;
    await this.ask("WebDriver:NewSession", { capabilities: { alwaysMatch: { pageLoadStrategy: "none" } } });
    await this.ask("WebDriver:SetTimeouts", { script: PATIENCE });
    await this.inBrowser(trust, this.authority.certificate.toString("base64"));
    await this.inBrowser(listen);
  }

  async inBrowser(run, ...words) {
    await this.ask("Marionette:SetContext", { value: "chrome" });
    const { value } = await this.ask("WebDriver:ExecuteScript", { script: "return " + call(run, ...words), args: [],
      sandbox: "system" });
    await this.ask("Marionette:SetContext", { value: "content" });
    return value;
  }

  // The value of an expression in the page, waited for.
  async value(expression) {
    const { value } = await this.ask("WebDriver:ExecuteScript", { script: "return " + expression, args: [],
      sandbox: null });
    return value;
  }

  // A page in a container of its own, to which no host is known.
  async session() {
    this.started = this.started || this.start();
    await this.started;
    await this.inBrowser(forgetKnownHosts);
    this.containers += 1;
    return this.tab(100 + this.containers);
  }

  async tab(container) {
    const before = await this.ask("WebDriver:GetWindowHandles");
    await this.inBrowser(openTab, container);
    const session = new Session(this, container);
    await session.take(before);
    return session;
  }

  kill() {
    try {
      process.kill(-this.process.pid, "SIGKILL");
    } catch {
      // It is gone already.
    }
  }

  // Removes the profile, also where this program is stopped.
  forget() {
    fs.rmSync(this.folder, { recursive: true, force: true, maxRetries: 10, retryDelay: 100 });
  }

  async close() {
    const late = setTimeout(() => this.kill(), 5000);
    await this.ask("Marionette:Quit", { flags: ["eForceQuit"] }).catch(() => this.kill());
    await this.gone;
    clearTimeout(late);
    if (this.socket !== undefined) {
      this.socket.destroy();
    }
    this.forget();
  }
}

// What the console is told of a request that was refused: by CORS, mixed content, policies, types or integrity.
const REASONS = /^(CORS|CSP|Mixed Content|ORB|SRI|MIMEMISMATCH|Script Loader)/i;

// Whether the network layer has taken an answer: a request has ended well, and no refusal by CORS or ORB was told, which
// Firefox decides behind it. The page's icon is none of the script's requests.
function isFinished(ended, reasons) {
  return ended.some((end) => end.status === 0 && !end.url.endsWith("/favicon.ico"))
    && !reasons.some((reason) => /^(CORS|ORB)/.test(reason));
}

class Session {
  constructor(browser, container) {
    this.browser = browser;
    this.container = container;
  }

  // Leads Marionette to the tab that was not there before.
  async take(before) {
    for (let until = Date.now() + PATIENCE; Date.now() < until;) {
      const handle = (await this.browser.ask("WebDriver:GetWindowHandles")).find((one) => !before.includes(one));
      if (handle !== undefined) {
        this.handle = handle;
        await this.show(handle);
        return;
      }
      await paused();
    }
    throw new Error("firefox opens no tab");
  }

  async show(handle) {
    await this.browser.ask("WebDriver:SwitchToWindow", { handle, focus: true });
  }

  // Another tab of the same container.
  beside() {
    return this.browser.tab(this.container);
  }

  async setCookie(origin, name, value) {
    await this.browser.inBrowser(giveCookie, new URL(origin).hostname, name, value, origin.startsWith("https:"),
      this.container);
  }

  // Makes a host known: a visit to it, whose answer says for how long.
  async makeKnown(known, seconds) {
    const url = "https://" + known.host + "/";
    const page = this.browser.servers.expect(url, [["Strict-Transport-Security",
      "max-age=" + seconds + (known.subdomains ? "; includeSubDomains" : "")]]);
    await this.visit(page);
  }

  // Marionette answers once the document has ended, which it never does here: a navigation is over once its page is the
  // one that scripts run in. Its title tells it from a page of the same URL before it.
  async visit(page) {
    this.browser.ask("WebDriver:Navigate", { url: page.url.href }).catch(() => null);
    for (let until = Date.now() + PATIENCE; Date.now() < until;) {
      if (await this.browser.value("document.title").catch(() => null) === page.title) {
        return;
      }
      if (this.browser.ended !== null) {
        throw new Error("firefox: " + this.browser.ended);
      }
      await paused();
    }
    throw new Error("firefox does not open " + page.url.href);
  }

  async open(page) {
    this.page = page;
    await this.visit(page);
    await this.browser.value(call(watch));
  }

  // Plays one fetch or load, and tells what the page saw and how each request of the network layer ended.
  async perform(command, number) {
    await this.browser.inBrowser(heardSince);
    const parsed = command.load !== undefined && command.load.kind === "script" && command.load.parser !== false;
    await this.browser.value(call(begin, parsed ? { load: { ...command.load, parsed } } : command, number));
    if (parsed) {
      this.page.append(scriptTag(command.load, number));
    }
    if (command.load !== undefined && command.load.kind === "manifest") {
      await this.browser.inBrowser(obtainManifest);
    }
    const seen = JSON.parse(await this.browser.value(call(outcome, this.browser.settle)));
    const { ended, said } = await this.browser.inBrowser(heardSince);
    const reasons = said.filter((text) => REASONS.test(text)).map((text) => text.slice(0, 200));
    return { ...seen, reasons, finished: isFinished(ended, reasons) };
  }

  async close() {
    await this.show(this.handle).catch(() => null);
    await this.browser.ask("WebDriver:CloseWindow").catch(() => null);
    const [handle] = await this.browser.ask("WebDriver:GetWindowHandles");
    await this.show(handle);
  }
}

module.exports = { find, start: (program, servers, authority) => new Firefox(program, servers, authority), Session };
