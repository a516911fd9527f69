"use strict";

// A headless Chromium, driven by its DevTools protocol over a pipe: messages are JSON, and end in a zero byte.

const fs = require("fs");
const os = require("os");
const path = require("path");
const { spawn } = require("child_process");

const PATIENCE = 600000; // milliseconds
const ENDING = 60000; // milliseconds until a browser that is to end is killed
const CODES = { ArrowDown: 40, ArrowUp: 38, End: 35, Enter: 13, Escape: 27, Home: 36, Tab: 9 };

class Chromium {
  constructor(name) {
    this.folder = fs.mkdtempSync(path.join(os.tmpdir(), "view-"));
    const sandbox = process.getuid && process.getuid() === 0 ? ["--no-sandbox"] : [];
    const words = ["--headless=new", "--remote-debugging-pipe", "--disable-gpu", "--no-first-run",
      "--disable-extensions", "--disable-background-networking", "--disable-dev-shm-usage", "--window-size=1400,900",
      "--user-data-dir=" + this.folder, ...sandbox];
    this.process = spawn(name, words, { stdio: ["ignore", "ignore", "ignore", "pipe", "pipe"] });
    this.asked = new Map();
    this.hasEnded = false;
    this.gone = new Promise((resolve) => this.process.on("exit", resolve)).then(() => this.giveUp());
    this.count = 0;
    this.heard = [];
    this.loaded = new Set();
    this.awaited = new Map();
    this.rest = Buffer.alloc(0);
    this.process.stdio[3].on("error", () => {});
    this.process.stdio[4].on("data", (bytes) => this.take(bytes));
  }

  take(bytes) {
    this.rest = Buffer.concat([this.rest, bytes]);
    for (let end = this.rest.indexOf(0); end >= 0; end = this.rest.indexOf(0)) {
      this.hear(JSON.parse(this.rest.subarray(0, end).toString("utf8")));
      this.rest = this.rest.subarray(end + 1);
    }
  }

  hear(message) {
    if (message.id !== undefined) {
      this.asked.get(message.id)(message);
      this.asked.delete(message.id);
    } else if (message.method === "Page.lifecycleEvent" && message.params.name === "load") {
      this.hasLoaded(message.params.loaderId);
    } else if (["Runtime.exceptionThrown", "Runtime.consoleAPICalled", "Log.entryAdded"].includes(message.method)) {
      this.heard.push(JSON.stringify(message.params).slice(0, 400));
    }
  }

  // A document was loaded: it may be one that is not awaited yet.
  hasLoaded(document) {
    this.loaded.add(document);
    (this.awaited.get(document) || (() => {}))();
    this.awaited.delete(document);
  }

  // What was asked is not answered any more.
  giveUp() {
    this.hasEnded = true;
    this.asked.forEach((answer) => answer({ error: { message: "the browser has ended" } }));
    this.asked.clear();
    this.awaited.forEach((done) => done("the browser has ended"));
    this.awaited.clear();
  }

  ask(method, params = {}) {
    if (this.hasEnded) {
      return Promise.reject(new Error("the browser has ended"));
    }
    this.count += 1;
    const id = this.count;
    return new Promise((resolve, reject) => {
      const late = setTimeout(() => reject(new Error(method + " was not answered")), PATIENCE);
      this.asked.set(id, (message) => {
        clearTimeout(late);
        return message.error ? reject(new Error(method + ": " + message.error.message)) : resolve(message.result);
      });
      this.process.stdio[3].write(JSON.stringify({ id, method, params, sessionId: this.session }) + "\0");
    });
  }

  async start() {
    const { targetId } = await this.ask("Target.createTarget", { url: "about:blank" });
    const { sessionId } = await this.ask("Target.attachToTarget", { targetId, flatten: true });
    this.session = sessionId;
    await Promise.all(["Page.enable", "Runtime.enable", "Log.enable"].map((method) => this.ask(method)));
    await this.ask("Page.setLifecycleEventsEnabled", { enabled: true });
  }

  // Opens a file, or an address, anew.
  async open(page) {
    await this.go("about:blank");
    this.heard = [];
    await this.go(page.startsWith("/") ? "file://" + page : page);
  }

  // Waits for the document of this navigation: that of one before may be loaded still.
  async go(url) {
    const { loaderId, errorText = "" } = await this.ask("Page.navigate", { url });
    if (errorText !== "") {
      throw new Error(url + " was not loaded: " + errorText);
    }
    if (this.loaded.has(loaderId)) {
      return;
    }
    await new Promise((resolve, reject) => {
      const late = setTimeout(() => reject(new Error(url + " was not loaded")), PATIENCE);
      this.awaited.set(loaderId, (fault) => {
        clearTimeout(late);
        return fault === undefined ? resolve() : reject(new Error(url + " was not loaded: " + fault));
      });
    });
  }

  // What the page has complained of since it was opened.
  async complaints() {
    return this.heard;
  }

  // The value of an expression in the page.
  async value(expression) {
    const { result, exceptionDetails } = await this.ask("Runtime.evaluate", { expression, returnByValue: true,
      awaitPromise: true });
    return exceptionDetails === undefined ? result.value : "thrown: " + JSON.stringify(exceptionDetails).slice(0, 300);
  }

  // A key by its name, or a letter; with the control key held where it is said.
  async press(key, control = false) {
    const code = CODES[key] || (/^[a-z0-9 ]$/i.test(key) ? key.toUpperCase().charCodeAt(0) : 0);
    const text = key === "Enter" ? "\r" : key.length === 1 && !control ? key : undefined;
    const known = { key, windowsVirtualKeyCode: code, modifiers: control ? 2 : 0 };
    await this.ask("Input.dispatchKeyEvent", { type: "keyDown", ...known, ...(text === undefined ? {} : { text }) });
    await this.ask("Input.dispatchKeyEvent", { type: "keyUp", ...known });
  }

  // Gives a file to an input of the page.
  async giveFile(selector, file) {
    const { root } = await this.ask("DOM.getDocument");
    const { nodeId } = await this.ask("DOM.querySelector", { nodeId: root.nodeId, selector });
    await this.ask("DOM.setFileInputFiles", { nodeId, files: [file] });
  }

  // The roles and the names that a screen reader is told, in their order.
  async tree() {
    const { nodes } = await this.ask("Accessibility.getFullAXTree");
    return nodes.filter((node) => !node.ignored && node.role)
      .map((node) => ({ role: node.role.value, name: node.name ? node.name.value : "" }));
  }

  // Has what a page saves written into a folder.
  async saveInto(folder) {
    await this.ask("Page.setDownloadBehavior", { behavior: "allow", downloadPath: folder });
  }

  // Shows pages as wide as the screen of a phone, or again as a window.
  async narrow(width) {
    await (width === null ? this.ask("Emulation.clearDeviceMetricsOverride")
      : this.ask("Emulation.setDeviceMetricsOverride", { width, height: 844, deviceScaleFactor: 2, mobile: true }));
  }

  // What is seen, as the bytes of a PNG.
  async picture() {
    return Buffer.from((await this.ask("Page.captureScreenshot", { format: "png" })).data, "base64");
  }

  async close() {
    this.session = undefined;
    const late = setTimeout(() => this.process.kill("SIGKILL"), ENDING);
    await this.ask("Browser.close").catch(() => this.process.kill());
    await this.gone;
    clearTimeout(late);
    fs.rmSync(this.folder, { recursive: true, force: true, maxRetries: 10, retryDelay: 200 });
  }
}

module.exports = { Chromium };
