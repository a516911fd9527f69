"use strict";

// Rules as data, changes between observations, the arrivals' clock, and making scenarios smaller.

const test = require("node:test");
const assert = require("node:assert");
const { comparePlays } = require("../compare.js");
const { playedCommands } = require("../engine.js");
const { explained, unexplained } = require("../explained.js");
const { rulesFaults, ruleFor, rules, versionNote } = require("../rules.js");
const { holds, faultsOf } = require("../conditions.js");
const { readScenario } = require("../scenario.js");
const { changesOf } = require("../changes.js");
const { shrunk } = require("../shrink.js");
const corpus = require("../corpus.js");

function judge(name, played) {
  const text = corpus.textOf(name);
  const scenario = readScenario(text);
  const engine = playedCommands(Buffer.from(text), scenario);
  return explained(scenario, played, comparePlays(scenario, engine, played));
}

// ---- rules

test("the files of rules have no fault", () => assert.deepStrictEqual(rulesFaults(), []));

const CONTEXT = { browser: "firefox", command: { fetch: { url: "/" } }, asked: { url: "/", headers: [["X-A", "1"], ["x-a", "2"]] },
  document: { url: "https://shop.test/" }, scenario: {}, before: [], ours: { requests: [], violations: [], behindLast: [], result: {}, calls: [] },
  theirs: { requests: [], result: {}, violations: [], reasons: ["one", "two"] } };
const DIFFERENCE = { what: "header", name: "origin", request: "GET https://shop.test/", engine: null, browser: "null" };

test("conditions hold as they say", () => {
  const cases = [
    [{ what: "header", here: null }, true], [{ what: ["result", "header"], there: "null" }, true],
    [{ what: "header", here: "null" }, false], [["is a fetch", "gives a name twice"], true],
    [{ any: ["is a load", { there: { form: "^nu" } }] }, true], [{ all: ["is a load", "is a fetch"] }, false],
    [{ not: "is a load" }, true], [{ reasons: { form: "TWO", flags: "i" } }, true], [{ reasons: { form: "TWO" } }, false],
    [{ "header names": "x-a" }, true], [{ name: { value: "there" } }, false], [{ "is the header": "origin" }, true],
    [{ here: { form: "" } }, false],
  ];
  cases.forEach(([condition, wanted]) => assert.strictEqual(holds(condition, DIFFERENCE, CONTEXT), wanted,
    JSON.stringify(condition)));
});

test("strange words of conditions are found", () => {
  const strange = ["is a feth", { whatt: "x" }, { what: { value: "nothing" } }, { what: { form: "(" } }, [{ any: [{ not: "x" }] }],
    { "a preflight more, or what follows, of what": ["no such test"] }];
  strange.forEach((condition) => assert.strictEqual(faultsOf(condition).length, 1, JSON.stringify(condition)));
});

test("a rule holds from a version on, and to one", () => {
  const difference = { what: "spelling", name: "range", engine: "rAnGe", browser: "Range" };
  const context = { ...CONTEXT, browser: "chromium" };
  const rule = rules.find(({ name }) => name === "spelling-of-range");
  const found = (versions, version) => {
    rule.engines.chromium = versions;
    const name = (ruleFor(difference, context, version) || { name: null }).name;
    rule.engines.chromium = {};
    return name;
  };
  assert.strictEqual(found({}, "156.0.1"), "spelling-of-range");
  assert.strictEqual(found({ from: 156, to: 156 }, "156.0.1"), "spelling-of-range");
  assert.strictEqual(found({ from: 157 }, "156.0.1"), null);
  assert.strictEqual(found({ to: 155 }, "156.0.1"), null);
});

test("another version than the rules' is told", () => {
  assert.match(versionNote({ browser: "chromium", version: "1" }), /^the rules were measured with Chromium .*, and this is 1$/);
  assert.match(versionNote({ browser: "servo", version: "1" }), /no rules of servo/);
});

// ---- changes

test("a difference that is new or gone is a change", () => {
  const name = "preflights/age-negative";
  const before = corpus.answers(name, "firefox");
  assert.deepStrictEqual(changesOf(judge(name, before), judge(name, before)), []);
  const mended = structuredClone(before);
  mended.commands[1].requests.shift();
  const [gone, ...others] = changesOf(judge(name, before), judge(name, mended));
  assert.match(gone, /^gone: \/1 request: .*\(age-negative\)$/);
  assert.deepStrictEqual(others, []);
  assert.match(changesOf(judge(name, mended), judge(name, before))[0], /^new: \/1 request: /);
});

// ---- time

// The second of three commands asks again for a preflight, so many milliseconds after the first one.
function askedAgain(milliseconds) {
  const played = structuredClone(corpus.answers("preflights/age-of-two-seconds", "chromium"));
  const [preflight, request] = played.commands[0].requests;
  Object.assign(preflight, { at: 1000 });
  Object.assign(request, { at: 1001 });
  played.commands[1].requests.unshift({ ...preflight, at: 1000 + milliseconds });
  return judge("preflights/age-of-two-seconds", played);
}

test("an entry that ran out by the arrivals' clock is no difference of the engines", () => {
  const [one] = askedAgain(2100)[1].differences;
  assert.strictEqual(one.rule.name, "clock");
  assert.strictEqual(unexplained(askedAgain(500)).length, 1);
});

// ---- smaller scenarios

test("a scenario is made smaller until nothing can be left out", async () => {
  const { made } = require("../grammar.js");
  const small = await shrunk(made("policies", 7001), async (scenario) => JSON.stringify(scenario).includes("default-src")
    && scenario.documents[0].script.some((command) => command.load !== undefined));
  assert.deepStrictEqual({ ...small, documents: small.documents.map(({ script, ...rest }) => rest) },
    { format: 1, servers: [], documents: [{ url: "https://shop.test/", headers: [["Content-Security-Policy", "default-src"]] }] });
  assert.strictEqual(small.documents[0].script.length, 1);
});
