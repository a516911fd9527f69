"use strict";

// Scenarios of several documents: they are played one after another, and a command's place begins with its document's
// number.

const test = require("node:test");
const assert = require("assert");
const { playedCommands } = require("../engine.js");
const { readScenario, documentAt, Unplayable } = require("../scenario.js");
const { comparePlays } = require("../compare.js");
const { explained, unexplained } = require("../explained.js");
const corpus = require("../corpus.js");

const AGAIN = 3; // plays of one scenario, whose documents come in any order

const sent = (command) => command.requests.map(({ method, origin, target }) => method + " " + origin + target);

function played(name) {
  const text = corpus.textOf("documents/" + name);
  const scenario = readScenario(text);
  return { scenario, commands: playedCommands(Buffer.from(text), scenario) };
}

test("documents come one after another, in whatever order the threads begin", () => {
  for (let time = 0; time < AGAIN; time += 1) {
    const { commands } = played("null-origin-of-one");
    assert.deepStrictEqual(commands.map(({ place }) => place), ["0/0", "1/0"]);
    assert.deepStrictEqual(sent(commands[1]), ["OPTIONS https://b.test/2", "PUT https://b.test/2", "PUT https://c.test/y"]);
  }
});

test("a place means the document that it begins with", () => {
  const { scenario } = played("two-origins");
  assert.strictEqual(documentAt(scenario, "1/0").url, "https://news.test/");
  assert.strictEqual(documentAt({ documents: ["the one"] }, "/0"), "the one");
});

test("a request that another document has spared is a difference", () => {
  const { scenario, commands } = played("two-origins");
  const answers = corpus.answers("documents/two-origins", "chromium");
  const spared = { ...answers, commands: answers.commands.map((command) => (command.place === "1/0"
    ? { ...command, requests: command.requests.filter(({ method }) => method !== "OPTIONS") } : command)) };
  const judged = (observed) => unexplained(explained(scenario, observed, comparePlays(scenario, commands, observed)));
  assert.deepStrictEqual(judged(answers), []);
  assert.deepStrictEqual(judged(spared).map(({ place, what, engine, browser }) => [place, what, engine, browser]),
    [["1/0", "request", "OPTIONS https://api.test/x", null]]);
});

const page = (name, script = [], more = {}) => ({ url: "https://" + name + ".test/", script, ...more });

const REFUSED = [
  [[], "/documents"],
  [["a", "b", "c", "d"].map((name) => page(name)), "/documents"],
  [[page("a", [{ wait: 1 }]), page("b")], "/documents/0/script"],
  [[page("a"), page("b", [{ wait: 16 }])], "/documents/1/script"],
  [[page("a"), page("b", [], { top: "https://a.test/" })], "/documents/1/top"],
];

test("what no browser can play is refused with its place", () => {
  REFUSED.forEach(([documents, place]) => assert.throws(() => readScenario(JSON.stringify({ format: 1, documents })),
    (error) => error instanceof Unplayable && error.message.includes(": " + place + ": ")));
  assert.strictEqual(readScenario(JSON.stringify({ format: 1, documents: [page("a"), page("b", [{ wait: 2 }])] }))
    .documents.length, 2);
});
