"use strict";

// An observation that is a file is judged as the play that it came from; what it leaves out makes no difference; and
// translators give what was sent.

const test = require("node:test");
const assert = require("node:assert");
const fs = require("fs");
const path = require("path");
const { spawnSync } = require("child_process");
const { comparePlays } = require("../compare.js");
const { playedCommands } = require("../engine.js");
const { explained, unexplained } = require("../explained.js");
const { readObservation, observationText, BadObservation } = require("../observation.js");
const { readScenario } = require("../scenario.js");
const { differenceText } = require("../show.js");
const { fromCurl } = require("../translators/curl.js");
const { fromHar } = require("../translators/har.js");
const corpus = require("../corpus.js");

const ROOT = path.join(__dirname, "..", "..");
const BROWSERS = ["chromium", "firefox"];
const EVERY = 8; // of the corpus' scenarios, one in so many

const textOf = (name) => fs.readFileSync(path.join(ROOT, "browsers", "observations", name), "utf8");
const some = corpus.names().filter((name, index) => index % EVERY === 0);
const answered = some.flatMap((name) => BROWSERS.filter((browser) => corpus.hasAnswers(name, browser))
  .map((browser) => [name, corpus.answers(name, browser)]));

function engineOf(text) {
  const scenario = readScenario(text, true);
  return { scenario, commands: playedCommands(Buffer.from(text), scenario) };
}

const engines = new Map(some.map((name) => [name, engineOf(corpus.textOf(name))]));

function toldOf({ scenario, commands }, played) {
  const compared = explained(scenario, played, comparePlays(scenario, commands, played));
  return compared.flatMap(({ place, differences }) => differences.map((one) => place + " " + differenceText(one)));
}

test("each stored answer is an observation, and judged as before", () => {
  answered.forEach(([name, played]) => {
    const again = readObservation(observationText(played));
    assert.deepStrictEqual(toldOf(engines.get(name), again), toldOf(engines.get(name), played), name);
  });
});

test("bin/in-browser --observed says of some what browsers/check says", () => {
  answered.filter((_, index) => index % 16 === 0).forEach(([name, played]) => {
    const { scenario, commands } = engines.get(name);
    const left = unexplained(explained(scenario, played, comparePlays(scenario, commands, played)));
    const files = [name + "." + played.browser, name].map((one) => path.join("browsers", "corpus", one + ".json"));
    const ran = spawnSync("bin/in-browser", ["--json", "--observed", ...files], { cwd: ROOT, encoding: "utf8" });
    assert.strictEqual(ran.status, left.length === 0 ? 0 : 1, ran.stderr);
    assert.strictEqual(JSON.parse(ran.stdout).unexplained, left.length);
  });
});

// ---- what is left out

const LEFT_OUT = {
  requests: ({ requests, ...rest }) => rest,
  violations: ({ violations, ...rest }) => rest,
  result: ({ result, ...rest }) => rest,
  reasons: ({ reasons, ...rest }) => rest,
  "the headers of requests": ({ requests, ...rest }) => ({ ...rest, requests: requests.map(({ headers, ...more }) => more) }),
  "the bodies of requests": ({ requests, ...rest }) => ({ ...rest, requests: requests.map(({ body, ...more }) => more) }),
  "all of the result but its kind": ({ result, ...rest }) => ({ ...rest, result: { result: result.result } }),
};

Object.entries(LEFT_OUT).forEach(([part, without]) => test("an observation without " + part + " tells no more", () => {
  answered.forEach(([name, played]) => {
    const bare = (told) => told.replace(/: here .*$/s, "");
    const all = toldOf(engines.get(name), played).map(bare);
    const less = { ...played, commands: played.commands.map(without) };
    toldOf(engines.get(name), readObservation(observationText(less)))
      .forEach((one) => assert.ok(all.includes(bare(one)), name + " " + one));
  });
}));

test("what is no observation is refused with its place", () => {
  const command = { place: "/0", requests: [{ origin: "http://a.test", method: "GET", target: "/", headers: [["A", "1"]] }] };
  const places = {
    "/commands/0/requests/0/headers/0": (given) => given.commands[0].requests[0].headers[0].pop(),
    "/commands/0/requests/0": (given) => delete given.commands[0].requests[0].method,
    "/commands/0/requests/0/origin": (given) => Object.assign(given.commands[0].requests[0], { origin: "a.test" }),
    "/commands/0/result/result": (given) => Object.assign(given.commands[0], { result: { result: "fine" } }),
    "/commands/0/place": (given) => Object.assign(given.commands[0], { place: "0" }),
    "/commands/0/colour": (given) => Object.assign(given.commands[0], { colour: "red" }),
    "/browser": (given) => Object.assign(given, { browser: "A browser" }),
  };
  Object.entries(places).forEach(([place, spoil]) => {
    const given = structuredClone({ browser: "a", version: "1", commands: [command] });
    assert.doesNotThrow(() => readObservation(JSON.stringify(given)));
    spoil(given);
    assert.throws(() => readObservation(JSON.stringify(given)),
      (error) => error instanceof BadObservation && error.message.startsWith("no observation: " + place + ": "), place);
  });
});

// ---- translators

test("logs of curl 7.88.1 give the stored observation, and four fetches that differ in Origin alone", () => {
  const logs = [0, 1, 2, 3].map((number) => textOf("client.curl-" + number + ".log"));
  const engine = engineOf(textOf("client.json"));
  const played = fromCurl(engine.scenario, logs);
  assert.strictEqual(observationText(played), textOf("client.curl.json"));
  assert.deepStrictEqual(toldOf(engine, played), [
    "/1 header origin of POST https://shop.test/old: here https://shop.test; there none",
    "/2 header origin of GET https://api.test/: here https://shop.test; there none"]);
});

const hexText = (body) => Buffer.from(body, "hex").toString("utf8");

// A recording with these requests, each a second behind the other; `led` says where an answer leads.
function harOf(scenario, played, led) {
  const entryOf = (request, index) => ({ startedDateTime: new Date(1e12 + index * 1000).toISOString(),
    request: { method: request.method, url: request.origin + request.target,
      headers: request.headers.map(([name, value]) => ({ name, value })),
      ...(request.body === "" ? {} : { postData: { text: hexText(request.body) } }) },
    response: { status: 200, headers: [], redirectURL: led(request) } });
  const page = { origin: "", method: "GET", target: scenario.documents[0].url.replace(/#.*/, ""), headers: [], body: "" };
  const requests = [page, ...played.commands.flatMap((command) => command.requests)];
  return JSON.stringify({ log: { creator: { name: "Firefox", version: "1" }, entries: requests.map(entryOf) } });
}

test("a recording of chains of redirects gives the requests of each command", () => {
  const chains = answered.filter(([name]) => /^(redirects|preflights|request-heads)\//.test(name));
  const { ruleFor } = require("../scripted.js");
  const led = (scenario) => ({ origin, method, target }) => {
    const rule = ruleFor(scenario, origin, method, target) || {};
    const isLed = [301, 302, 303, 307, 308].includes(rule.status);
    return isLed ? ((rule.headers || []).find(([name]) => name.toLowerCase() === "location") || ["", ""])[1] : "";
  };
  // What a recording does not tell, as a body that a condition asks for, is not seen; then it may be refused.
  const translatedOf = (scenario, text) => {
    try {
      return fromHar(scenario, text);
    } catch (error) {
      assert.ok(error instanceof BadObservation, error.message);
      return { commands: [] };
    }
  };
  const seen = chains.filter(([name, played]) => {
    const { scenario } = engines.get(name);
    const translated = translatedOf(scenario, harOf(scenario, played, led(scenario)));
    const keys = ({ commands }) => commands.map(({ requests }) => requests
      .map(({ method, origin, target, body = "" }) => [method, origin + target, body].join(" ")));
    return JSON.stringify(keys(translated)) === JSON.stringify(keys(played));
  });
  assert.ok(seen.length >= chains.length * 0.9, seen.length + " of " + chains.length);
});
