"use strict";

// What playground/check does: it says there what that is.

const fs = require("fs");
const path = require("path");
const { spawnSync } = require("child_process");
const test = require("node:test");
const { readJson } = require("../json_text.js");
const { Schemas, schemaProblems } = require("../schema.js");
const { rangeOfPlace } = require("../places.js");
const { Asking } = require("../asking.js");
const asked = require("./asked.js");
const used = require("./used.js");
const { networkErrors, requestFaults } = require("../../view/errors.js");
const { compare, leave } = require("../../view/tests/base.js");
const { inBrowsers } = require("../../view/tests/browsers.js");

const ROOT = path.join(__dirname, "..", "..");

// The words by which python3 runs a module of tests.playground.
function python(name) {
  return [path.join(ROOT, "python", "run.py"), "tests.playground." + name, name];
}

// ---- the scripts of the page, which share their names with those that draw

test("the scripts of the page", async (context) => {
  const page = fs.readFileSync(path.join(ROOT, "playground", "page.html"), "latin1");
  const names = [];
  for (const [, file] of page.matchAll(/<script src="(\w+\.js)">/g)) {
    const own = path.join(ROOT, "playground", file);
    const text = fs.readFileSync(fs.existsSync(own) ? own : path.join(ROOT, "view", file), "latin1");
    await compare(context, file + ": what would end it", /<\/script|<!--/i.test(text), false);
    names.push(...[...text.matchAll(/^(?:const|let|class|function|async function) (\w+)/gm)].map((found) => found[1]));
  }
  await compare(context, "names that two scripts have", names.filter((name, at) => names.indexOf(name) !== at), []);
});

// A page that wants another play gives the one up that it waits for, whether it is being made or told of.
test("a text that overtakes another", async (context) => {
  const shown = [];
  const late = (given) => new Promise((resolve) => {
    given.onabort = () => resolve({ failure: "given up" });
  });
  const asking = new Asking({
    player: { play: async (text, signal) => (text === "long" ? late(signal) : { text }) },
    told: async (text, play, signal) => (text === "much" ? late(signal) : play + ", told"),
    answered: (text, answer) => shown.push([text, answer]),
  });
  const all = asking.want("long");
  asking.want("much");
  await new Promise(setImmediate);
  asking.want("small");
  await all;
  await compare(context, "what is shown", shown, [["small", { text: "small, told" }]]);
});

// ---- the links of the documents that the page holds

// The links to rules are made by the page's scripts.
test("links", async (context) => {
  const rules = [...networkErrors.values(), ...requestFaults.values()].map(({ rule }) => "/docs/" + rule);
  const ran = spawnSync("python3", [...python("crawl"), ...rules], { encoding: "utf8" });
  const { links, dead } = ran.status === 0 ? JSON.parse(ran.stdout) : { links: 0, dead: [ran.stderr] };
  await compare(context, "links that lead nowhere", dead, []);
  await compare(context, "links: there are many", links > 500, true);
});

// ---- the server

test("the playground", async (context) => {
  const playground = new asked.Playground(ROOT, used.PATIENT);
  context.after(() => playground.close());
  await playground.start();
  await context.test("its page", (own) => asked.checkOwn(own, playground));
  await context.test("what is not told", (own) => asked.checkUnsaid(own, playground));
  await context.test("others", (own) => asked.checkOthers(own, playground));
  await context.test("slow peers", (own) => asked.checkSlowPeers(own, playground));
  const count = await inBrowsers(context, async (own, browser, name) => {
    const took = await used.checkUse(own, browser, playground.address);
    context.diagnostic(name + " draws the first play in " + took + " milliseconds");
    await own.test("advice of an own scenario", (one) => used.checkOwnAdvice(one, browser));
    const other = new asked.Playground(ROOT, used.PATIENT);
    await own.test("a server that has ended", async (one) => {
      one.after(() => other.close());
      await used.checkEnded(one, browser, other);
    });
    await own.test("a page of another origin", (one) => used.checkElsewhere(one, browser, playground.address));
  });
  context.diagnostic("it was used in " + ["no browser", "one browser", "two browsers"][count]);
});

// ---- the editor's check, on the scenarios of schema/check

// Null where they cannot be read.
function rows() {
  const ran = spawnSync("python3", python("rows"), { encoding: "utf8", maxBuffer: 1 << 28 });
  const lines = ran.stdout.split("\n").slice(0, -1).map((line) => JSON.parse(line));
  return lines.length === 0 ? null : { scenarios: lines.slice(0, -1), alone: lines[lines.length - 1].alone };
}

// A refused one is refused here too, or stands among those that the program finds alone; its place is in the text.
async function checkScenario(context, schemas, alone, { name, line, text, place }) {
  const { root, faults: found } = readJson(text);
  const problems = found.length > 0 || root === null ? found : schemaProblems(schemas, root);
  if (place === null) {
    await compare(context, name + ": what is wrong in it", problems.map(({ sentence }) => sentence), []);
  } else {
    const known = alone.some(([where, part]) => where === place && line.includes(part));
    await compare(context, name + ": whether it is refused", problems.length > 0 || known, true);
    await compare(context, name + ": whether it is JSON", found.length > 0, place === "json");
    await compare(context, name + ": its place", place === "json" || rangeOfPlace(root, place) !== null, true);
  }
}

test("the editor", async (context) => {
  const schemas = new Schemas(JSON.parse(fs.readFileSync(path.join(ROOT, "schema", "scenario.schema.json"), "utf8")));
  const all = rows();
  if (all === null) {
    await leave(context, "the editor's check, since python3 has no module jsonschema 4");
    return;
  }
  for (const scenario of all.scenarios) {
    await checkScenario(context, schemas, all.alone, scenario);
  }
  context.diagnostic("its editor checks " + all.scenarios.length + " scenarios as the program does");
});
