"use strict";

// A report stands by itself: its text names each difference, its page is a script, and its handler answers as the scenario.

const test = require("node:test");
const assert = require("node:assert");
const fs = require("fs");
const os = require("os");
const path = require("path");
const vm = require("vm");
const { spawnSync } = require("child_process");
const { ruleFor } = require("../scripted.js");
const corpus = require("../corpus.js");

const ROOT = path.join(__dirname, "..", "..");
const NAMES = ["request-heads/origin-of-a-preflight-after-a-detour", "policies/address", "wire/two-lengths", "loads/video"];

const hasPython = spawnSync("python3", ["--version"]).status === 0;

// What the handler answers to each request of a play, in JSON.
const ASK = `
import json, sys
from types import SimpleNamespace
from urllib.parse import urlsplit
sys.dont_write_bytecode = True
import answers
for method, url in json.load(sys.stdin):
    raw = []
    told = answers.main(SimpleNamespace(method=method, url_parts=urlsplit(url)),
                        SimpleNamespace(writer=SimpleNamespace(write=lambda text: raw.append(text.decode())), close_connection=False))
    print(json.dumps(raw[0] if told is None else [told[0], [list(line) for line in told[1]], told[2]]))
`;

function answeredBy(folder, requests) {
  const asked = JSON.stringify(requests.map(({ method, origin, target }) => [method, origin + target]));
  const ran = spawnSync("python3", ["-c", ASK],
    { input: asked, encoding: "utf8", env: { ...process.env, PYTHONPATH: folder } });
  assert.strictEqual(ran.status, 0, ran.stderr);
  return ran.stdout.trim().split("\n").map((line) => JSON.parse(line));
}

const wanted = (scenario) => ({ origin, method, target }) => {
  const rule = ruleFor(scenario, origin, method, target);
  return rule.raw !== undefined ? rule.raw : [rule.status, rule.headers || [], rule.body || ""];
};

NAMES.forEach((name) => test("the report of " + name, (context) => {
  const folder = fs.mkdtempSync(path.join(os.tmpdir(), "report-"));
  context.after(() => fs.rmSync(folder, { recursive: true }));
  const file = (suffix) => path.join("browsers", "corpus", name + suffix + ".json");
  const ran = spawnSync("bin/in-browser", ["--json", "--report", folder, "--observed", file(".firefox"), file("")],
    { cwd: ROOT, encoding: "utf8" });
  assert.strictEqual(ran.status, 0, ran.stderr);
  const told = fs.readFileSync(path.join(folder, "README.md"), "utf8");
  JSON.parse(ran.stdout).commands.flatMap(({ differences }) => differences)
    .forEach(({ rule }) => assert.ok(told.includes("(" + rule.name + ": "), rule.name));
  new vm.Script(fs.readFileSync(path.join(folder, "page.js"), "utf8"));
  const scenario = JSON.parse(corpus.textOf(name));
  const page = new URL(scenario.documents[0].url);
  const requests = corpus.answers(name, "firefox").commands.flatMap((command) => command.requests)
    .filter((request) => ruleFor(scenario, request.origin, request.method, request.target) !== null)
    .filter((request) => request.origin !== page.origin || request.target !== page.pathname + page.search);
  if (hasPython && requests.length > 0) {
    assert.deepStrictEqual(answeredBy(folder, requests), requests.map(wanted(scenario)));
  }
}));
