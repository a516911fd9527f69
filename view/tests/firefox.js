"use strict";

// A headless Firefox, driven by its Marionette protocol over TCP: messages are JSON, each behind its length and a
// colon.

const fs = require("fs");
const net = require("net");
const os = require("os");
const path = require("path");
const { spawn } = require("child_process");

const PATIENCE = 600000; // milliseconds
const ENDING = 60000; // milliseconds until a browser that is to end is killed
const KEYS = { ArrowDown: "\uE015", ArrowUp: "\uE013", End: "\uE010", Enter: "\uE007", Escape: "\uE00C",
  Home: "\uE011", Tab: "\uE004" };
const CONTROL = "\uE009";
const SETTINGS = { "marionette.port": 0, "browser.shell.checkDefaultBrowser": false, "app.update.enabled": false,
  "datareporting.policy.dataSubmissionEnabled": false, "network.captive-portal-service.enabled": false,
  "network.connectivity-service.enabled": false, "browser.aboutwelcome.enabled": false,
  "extensions.update.enabled": false, "services.settings.server": "", "accessibility.force_disabled": -1 };

function pause(milliseconds) {
  return new Promise((resolve) => setTimeout(resolve, milliseconds));
}

// What is said in the console of errors, and by console.log and its like.
const COMPLAINTS = `
  const errors = Services.console.getMessageArray().filter((one) => one instanceof Ci.nsIScriptError)
    .filter((one) => /^(file|http):/.test(one.sourceName) || one.category === "CSP").map((one) => one.errorMessage);
  const storage = Cc["@mozilla.org/consoleAPI-storage;1"].getService(Ci.nsIConsoleAPIStorage);
  const said = storage.getEvents().filter((one) => /^(file|http):/.test(one.filename)).map((one) => one.level);
  return [...errors, ...said];`;
const FORGET = `
  Services.console.reset();
  Cc["@mozilla.org/consoleAPI-storage;1"].getService(Ci.nsIConsoleAPIStorage).clearEvents();`;

// The roles and names below the page, in their order.
const TREE = `
  const service = Cc["@mozilla.org/accessibilityService;1"].getService(Ci.nsIAccessibilityService);
  const told = [];
  const walk = (one) => {
    told.push({ role: service.getStringRole(one.role), name: one.name || "" });
    for (let child = one.firstChild; child; child = child.nextSibling) walk(child);
  };
  walk(service.getAccessibleFor(gBrowser.selectedBrowser));
  return told;`;
// As Chromium calls them.
const ROLES = { pushbutton: "button", "combobox option": "option", entry: "textbox" };

function roleOf({ role, name }) {
  return role === "landmark" && name !== "" ? "region" : ROLES[role] || role;
}

class Firefox {
  constructor(program) {
    this.folder = fs.mkdtempSync(path.join(os.tmpdir(), "view-"));
    const lines = Object.entries(SETTINGS).map(([name, value]) => {
      return "user_pref(" + JSON.stringify(name) + ", " + JSON.stringify(value) + ");\n";
    });
    fs.writeFileSync(path.join(this.folder, "user.js"), lines.join(""));
    this.process = spawn(program, ["--headless", "--marionette", "--remote-allow-system-access", "--no-remote",
      "--profile", this.folder, "--width", "1400", "--height", "900"], { stdio: "ignore",
      env: { ...process.env, HOME: this.folder, MOZ_CRASHREPORTER_DISABLE: "1" } });
    this.asked = new Map();
    this.hasEnded = false;
    this.gone = new Promise((resolve) => this.process.on("exit", resolve)).then(() => this.giveUp());
    this.count = 0;
    this.rest = Buffer.alloc(0);
  }

  async start() {
    const port = await this.port();
    this.socket = net.connect(port, "127.0.0.1");
    this.socket.on("error", () => {});
    this.socket.on("close", () => this.giveUp());
    this.socket.on("data", (bytes) => this.take(bytes));
    await this.ask("WebDriver:NewSession", { capabilities: { alwaysMatch: { acceptInsecureCerts: false } } });
    await this.ask("WebDriver:SetTimeouts", { script: PATIENCE, pageLoad: PATIENCE });
  }

  async port() {
    const name = path.join(this.folder, "MarionetteActivePort");
    for (const end = Date.now() + PATIENCE; Date.now() < end && !this.hasEnded; await pause(50)) {
      const text = fs.existsSync(name) ? fs.readFileSync(name, "latin1") : "";
      if (text !== "") {
        return Number(text);
      }
    }
    throw new Error("Firefox does not start");
  }

  take(bytes) {
    this.rest = Buffer.concat([this.rest, bytes]);
    for (let colon = this.rest.indexOf(":"); colon >= 0; colon = this.rest.indexOf(":")) {
      const end = colon + 1 + Number(this.rest.subarray(0, colon).toString("latin1"));
      if (this.rest.length < end) {
        return;
      }
      const message = JSON.parse(this.rest.subarray(colon + 1, end).toString("utf8"));
      this.rest = this.rest.subarray(end);
      if (Array.isArray(message)) {
        this.asked.get(message[1])(message);
        this.asked.delete(message[1]);
      }
    }
  }

  // What was asked is not answered any more.
  giveUp() {
    this.hasEnded = true;
    this.asked.forEach((answer) => answer([1, 0, { message: "the browser has ended" }, null]));
    this.asked.clear();
  }

  ask(command, given = {}) {
    if (this.hasEnded) {
      return Promise.reject(new Error("the browser has ended"));
    }
    this.count += 1;
    const id = this.count;
    return new Promise((resolve, reject) => {
      const late = setTimeout(() => reject(new Error(command + " was not answered")), PATIENCE);
      this.asked.set(id, ([, , error, result]) => {
        clearTimeout(late);
        return error ? reject(new Error(command + ": " + error.message)) : resolve(result);
      });
      const message = JSON.stringify([0, id, command, given]);
      this.socket.write(Buffer.byteLength(message) + ":" + message);
    });
  }

  // Runs a script beside the page, with the rights of the browser.
  async beside(script) {
    await this.ask("Marionette:SetContext", { value: "chrome" });
    const { value } = await this.ask("WebDriver:ExecuteScript", { script, args: [] })
      .finally(() => this.ask("Marionette:SetContext", { value: "content" }));
    return value;
  }

  // Opens a file, or an address, anew.
  async open(page) {
    await this.ask("WebDriver:Navigate", { url: "about:blank" });
    await this.beside(FORGET);
    await this.ask("WebDriver:Navigate", { url: page.startsWith("/") ? "file://" + page : page });
  }

  // What the page has complained of since it was opened.
  async complaints() {
    return this.beside(COMPLAINTS);
  }

  // The value of an expression in the page.
  async value(expression) {
    const script = "return (async () => (" + expression + "\n))();";
    try {
      return (await this.ask("WebDriver:ExecuteScript", { script, args: [] })).value;
    } catch (error) {
      if (this.hasEnded) {
        throw error;
      }
      return "thrown: " + error.message;
    }
  }

  async press(key, control = false) {
    const value = KEYS[key] || key;
    const keys = control ? [CONTROL, value] : [value];
    const actions = [...keys.map((one) => ({ type: "keyDown", value: one })),
      ...[...keys].reverse().map((one) => ({ type: "keyUp", value: one }))];
    await this.ask("WebDriver:PerformActions", { actions: [{ type: "key", id: "keys", actions }] });
  }

  async giveFile(selector, file) {
    const { value } = await this.ask("WebDriver:FindElement", { using: "css selector", value: selector });
    await this.ask("WebDriver:ElementSendKeys", { id: Object.values(value)[0], text: file });
  }

  // The roles and the names that a screen reader is told. The first asking only starts the telling.
  async tree() {
    let told = [];
    for (let left = 600; left > 0 && told.length < 10; left -= 1) {
      told = await this.beside(TREE).catch(() => []);
      await pause(100);
    }
    return told.map((one) => ({ role: roleOf(one), name: one.name }));
  }

  // Has what a page saves written into a folder.
  async saveInto(folder) {
    await this.beside(`
      Services.prefs.setIntPref("browser.download.folderList", 2);
      Services.prefs.setStringPref("browser.download.dir", ${JSON.stringify(folder)});
      Services.prefs.setBoolPref("browser.download.alwaysOpenPanel", false);`);
  }

  // Shows pages as wide as the screen of a phone, or again as a window.
  async narrow(width) {
    const style = width === null ? "" : "max-width: " + width + "px; min-width: 0";
    await this.beside("gBrowser.selectedBrowser.style.cssText = '" + style + "';");
  }

  async picture() {
    const { value } = await this.ask("WebDriver:TakeScreenshot", { full: false });
    return Buffer.from(value, "base64");
  }

  async close() {
    const late = setTimeout(() => this.process.kill("SIGKILL"), ENDING);
    if (this.socket !== undefined) {
      await this.ask("Marionette:Quit", { flags: ["eForceQuit"] }).catch(() => this.process.kill());
      this.socket.destroy();
    } else {
      this.process.kill();
    }
    await this.gone;
    clearTimeout(late);
    fs.rmSync(this.folder, { recursive: true, force: true, maxRetries: 10, retryDelay: 200 });
  }
}

module.exports = { Firefox };
