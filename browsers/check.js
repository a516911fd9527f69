"use strict";

// browsers/check: the comparison on the whole corpus, with the stored answers or with a browser that is there; and the
// table of rules against docs/BROWSERS.md and against the scenario of each rule.

const test = require("node:test");
const { readScenario } = require("./scenario.js");
const { playedCommands } = require("./engine.js");
const { comparePlays } = require("./compare.js");
const { explained, unexplained } = require("./explained.js");
const { readObservation, observationText } = require("./observation.js");
const { changesOf } = require("./changes.js");
const { playCertain } = require("./certain.js");
const { find } = require("./played.js");
const { differenceText, NAMES } = require("./show.js");
const { rules, rulesFaults, versionNote } = require("./rules.js");
const { documentFaults } = require("./document.js");
const { foundPlanted } = require("./planted.js");
const { ALL_NAMES } = require("./reasons.js");
const { KINDS, TYPES } = require("./grammar.js");
const engineNames = require("../schema/names.json");
const corpus = require("./corpus.js");
const { compare, leave } = require("../view/tests/base.js");

const USAGE = `usage: browsers/check [--live chromium | --live firefox] [--store] [--jobs N] [NAME ..]

Compares the engine's play of each scenario of browsers/corpus with what the browsers answered when it was made. With
--live the browser plays them now, N at a time (2), and with --store its answers are kept. A NAME is that of a scenario,
such as redirects/loop, or of an area.
`;

function readWords(words) {
  const given = { live: null, store: false, jobs: 2, names: [] };
  const rest = [...words];
  while (rest.length > 0) {
    const word = rest.shift();
    if (word === "--live") {
      given.live = rest.shift();
    } else if (word === "--store") {
      given.store = true;
    } else if (word === "--jobs") {
      given.jobs = Number(rest.shift());
    } else {
      given.names.push(word);
    }
  }
  const sound = (given.live === null || given.live in NAMES) && given.jobs > 0
    && !given.names.some((name) => name.startsWith("-")) && (given.live !== null || !given.store);
  return sound ? given : null;
}

// ---- one scenario

const engines = new Map();

// The engine's commands of a scenario; they are the same for each browser.
function engineOf(name) {
  if (!engines.has(name)) {
    const text = corpus.textOf(name);
    const scenario = readScenario(text);
    engines.set(name, { scenario, commands: playedCommands(Buffer.from(text), scenario) });
  }
  return engines.get(name);
}

function judged(name, played) {
  const { scenario, commands } = engineOf(name);
  return explained(scenario, played, comparePlays(scenario, commands, played));
}

const unexplainedTexts = (commands) => unexplained(commands).map((one) => one.place + " " + differenceText(one));

// ---- the corpus

// What was counted: how many commands agree, how many differences are explained, and which rule explained something in
// which scenario.
class Counts {
  constructor() {
    this.scenarios = 0;
    this.commands = 0;
    this.agreeing = 0;
    this.explained = 0;
    this.unexplained = 0;
    this.used = new Set();
    this.versions = new Set();
    this.planted = 0;
    this.unanswered = 0;
    this.again = { again: 0, mended: 0 };
  }

  add(name, played, commands) {
    this.scenarios += 1;
    this.versions.add(played.version);
    this.commands += commands.length;
    this.agreeing += commands.filter((compared) => compared.differences.length === 0).length;
    commands.flatMap((compared) => compared.differences).filter((one) => one.rule !== null).forEach((one) => {
      this.explained += 1;
      this.used.add(one.rule.name + " " + name);
    });
    this.unexplained += unexplained(commands).length;
  }

  // Where another version has played than the one that the rules were measured with.
  notes(browser) {
    return [...this.versions].map((version) => versionNote({ browser, version })).filter((note) => note !== null);
  }

  told(browser) {
    return NAMES[browser] + " " + [...this.versions].join(", ") + ": " + this.scenarios + " scenarios, " + this.commands
      + " commands, " + this.agreeing + " agree; " + this.explained + " differences explained, "
      + this.unexplained + " unexplained" + (this.planted > 0 ? "; " + this.planted + " planted" : "")
      + (this.again.again > 0 ? "; " + this.again.again + " played again, of which " + this.again.mended
        + " as expected" : "")
      + (this.unanswered > 0 ? "; " + this.unanswered + " scenarios have no stored answer" : "");
  }
}

// ---- with the stored answers

async function compareStored(context, counts, name, browser) {
  const played = corpus.answers(name, browser);
  const commands = judged(name, played);
  counts.add(name, played, commands);
  await compare(context, "unexplained", unexplainedTexts(commands), []);
  const { scenario, commands: own } = engineOf(name);
  const { planted, found } = foundPlanted(scenario, own, played);
  counts.planted += planted;
  await compare(context, "planted differences that are explained", planted - found, 0);
}

async function checkStored(context, counts, names, browser) {
  const answered = names.filter((name) => corpus.hasAnswers(name, browser));
  counts.unanswered = names.length - answered.length;
  for (const name of answered) {
    await context.test(name, (own) => compareStored(own, counts, name, browser));
  }
}

// ---- with a browser

const changes = (name, browser, commands) => (corpus.hasAnswers(name, browser)
  ? changesOf(judged(name, corpus.answers(name, browser)), commands) : []);

const toldAgain = (commands) => commands.map(({ place, differences }) => [place, differences]);

// An observation that is a file must be judged as the play that it was written of.
async function compareLive(context, name, browser, { played, error }) {
  if (error !== undefined) {
    throw error;
  }
  const commands = judged(name, played);
  await compare(context, "unexplained", unexplainedTexts(commands), []);
  await compare(context, "changed since the stored answers", changes(name, browser, commands), []);
  await compare(context, "the observation, judged as the play",
    toldAgain(judged(name, readObservation(observationText(played)))), toldAgain(commands));
}

// What came of each scenario.
async function playedLive(counts, names, given, program) {
  const came = new Map();
  const isExpected = (name, played) => {
    const commands = judged(name, played);
    return unexplained(commands).length === 0 && changes(name, given.live, commands).length === 0;
  };
  const told = (name, played) => {
    came.set(name, { played });
    counts.add(name, played, judged(name, played));
    if (given.store) {
      corpus.store(name, played);
    }
  };
  const failed = (name, error) => came.set(name, { error });
  counts.again = await playCertain(program, { jobs: given.jobs, name: "browsers/check" },
    names.map((name) => [name, engineOf(name).scenario]), { isExpected, told, failed });
  return came;
}

async function checkLive(context, counts, names, given, program) {
  for (const [name, one] of await playedLive(counts, names, given, program)) {
    await context.test(name, (own) => compareLive(own, name, given.live, one));
  }
}

// ---- tables

// A rule must explain something in its own scenario, in each browser that it names.
async function checkRules(context, counts, browser) {
  for (const rule of rules.filter((one) => one.scenario !== undefined && one.browsers.includes(browser))) {
    await compare(context, "the rule " + rule.name + " explains something in " + rule.scenario,
      Boolean(rule.sometimes) || counts.used.has(rule.name + " " + rule.scenario), true);
  }
}

// Tables of words against those of the engine.
async function checkTables(context) {
  await compare(context, "docs/BROWSERS.md", documentFaults(), []);
  await compare(context, "browsers/rules", rulesFaults(), []);
  await compare(context, "browsers/reasons.js: what is no error",
    ALL_NAMES.filter((name) => !(name in engineNames.network_errors)), []);
  await compare(context, "browsers/grammar.js, TYPES: what it has not", KINDS.filter((kind) => !(kind in TYPES)), []);
}

async function checkBrowser(context, browser, names, given) {
  const counts = new Counts();
  const program = find(browser);
  if (given.live !== null) {
    await checkLive(context, counts, names, given, program);
  } else {
    await checkStored(context, counts, names, browser);
  }
  if (given.live === null && program === null) {
    await leave(context, NAMES[browser] + " itself, which is not here: its stored answers alone are compared");
  }
  if (given.names.length === 0) {
    await checkRules(context, counts, browser);
  }
  [counts.told(browser), ...counts.notes(browser)].forEach((text) => context.diagnostic(text));
}

// ---- the words

function end(status, text) {
  process.stderr.write(text);
  process.exit(status);
}

function main(words) {
  const given = readWords(words);
  if (given === null) {
    end(2, USAGE);
  }
  if (given.live !== null && find(given.live) === null) {
    end(3, "browsers/check: there is no " + NAMES[given.live] + "\n");
  }
  ["SIGINT", "SIGTERM"].forEach((signal) => process.on(signal, () => process.exit(3)));
  const isNamed = (name) => given.names.some((one) => name === one || name.startsWith(one + "/"));
  const names = corpus.names().filter((name) => given.names.length === 0 || isNamed(name));
  test("the tables", { skip: given.names.length > 0 && "a NAME is given" }, checkTables);
  for (const browser of given.live === null ? Object.keys(NAMES) : [given.live]) {
    test(NAMES[browser], (context) => checkBrowser(context, browser, names, given));
  }
}

main(process.argv.slice(2));
