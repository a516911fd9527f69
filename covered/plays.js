"use strict";

// The scenarios that words name, files, folders and recordings, and what plays of them reach.

const fs = require("fs");
const os = require("os");
const path = require("path");
const { spawn, spawnSync } = require("child_process");
const { printedPlay } = require("../browsers/engine.js");
const { reachedBy } = require("./reached.js");

const ROOT = path.join(__dirname, "..");

class Unusable extends Error {}

const isScenario = (value) => typeof value === "object" && value !== null && Array.isArray(value.documents) && value.format !== undefined;

function readJson(file) {
  try {
    return JSON.parse(fs.readFileSync(file, "utf8"));
  } catch (error) {
    throw new Unusable(file + ": " + error.message);
  }
}

// A scenario for each page of a recording, as bin/har makes them.
function scenariosOfHar(file) {
  const folder = fs.mkdtempSync(path.join(os.tmpdir(), "covered-"));
  try {
    const ran = spawnSync(path.join(ROOT, "bin", "har"), [file, "--scenario", folder], { encoding: "utf8" });
    if (ran.status > 1) {
      throw new Unusable(ran.stderr.trim());
    }
    return fs.readdirSync(folder).filter((name) => name.endsWith(".json")).sort()
      .map((name) => ({ name: file + " (" + name + ")", scenario: readJson(path.join(folder, name)) }));
  } finally {
    fs.rmSync(folder, { recursive: true });
  }
}

function filesIn(folder) {
  return fs.readdirSync(folder, { withFileTypes: true }).flatMap((entry) => {
    const name = path.join(folder, entry.name);
    return entry.isDirectory() ? filesIn(name) : /\.(json|har)$/.test(entry.name) ? [name] : [];
  }).sort();
}

// The scenarios of a file or a folder. In a folder, JSON that is no scenario is left out.
function scenariosIn(name) {
  if (!fs.existsSync(name)) {
    throw new Unusable(name + ": there is no such file or folder");
  }
  if (fs.statSync(name).isDirectory()) {
    return filesIn(name).flatMap((file) => (file.endsWith(".har") ? scenariosOfHar(file)
      : [{ name: file, scenario: readJson(file) }].filter(({ scenario }) => isScenario(scenario))));
  }
  if (name.endsWith(".har")) {
    return scenariosOfHar(name);
  }
  const scenario = readJson(name);
  if (!isScenario(scenario)) {
    throw new Unusable(name + ": it is no scenario");
  }
  return [{ name, scenario }];
}

// ---- ways, by bin/why

// The ways that each of these scenarios comes to, in order.
function waysOf(scenarios) {
  return new Promise((resolve, reject) => {
    const why = spawn(path.join(ROOT, "bin", "why"), ["--serve"], { stdio: ["pipe", "pipe", "inherit"] });
    let text = "";
    why.stdout.setEncoding("utf8");
    why.stdout.on("data", (piece) => {
      text += piece;
    });
    why.on("error", reject);
    why.stdin.on("error", () => {});
    why.on("close", () => {
      const lines = text.split("\n").filter((line) => line !== "").map((line) => JSON.parse(line));
      const toldOf = (one) => [one.why, ...one.policies].filter(Boolean).map(({ way }) => "way/" + way);
      resolve(lines.map(({ fetches = [] }) => fetches.flatMap(toldOf)));
    });
    why.stdin.end(scenarios.map(({ scenario }) => JSON.stringify(scenario) + "\n").join(""));
  });
}

// ---- what is reached

// For each scenario the names of the points that it reaches; `faults` is given those that the engine refuses.
async function reachedIn(scenarios, refused) {
  const played = scenarios.map(({ name, scenario }) => {
    try {
      return reachedBy(scenario, printedPlay(Buffer.from(JSON.stringify(scenario))));
    } catch (error) {
      refused(name, error);
      return new Set();
    }
  });
  const ways = await waysOf(scenarios);
  return scenarios.map(({ name }, at) => ({ name, points: new Set([...played[at], ...(ways[at] || [])]) }));
}

function wayList() {
  const ran = spawnSync(path.join(ROOT, "bin", "why"), ["--ways"], { encoding: "utf8" });
  if (ran.status !== 0) {
    throw new Error("bin/why --ways ended with status " + ran.status);
  }
  return ran.stdout;
}

module.exports = { scenariosIn, reachedIn, wayList, Unusable };
