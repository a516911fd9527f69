"use strict";

// bin/in-browser: plays a scenario by the engine and in a browser, and prints both beside each other.

const fs = require("fs");
const { readScenario, Unplayable } = require("./scenario.js");
const { printedPlay, playedCommands, commandsIn, Refused } = require("./engine.js");
const { comparePlays } = require("./compare.js");
const { explained, unexplained } = require("./explained.js");
const { writeReport } = require("./report.js");
const { changesOf } = require("./changes.js");
const { playIn, find } = require("./played.js");
const { readObservation, observationText, BadObservation } = require("./observation.js");
const { shown, asJson, nameOf } = require("./show.js");

const USAGE = `usage: bin/in-browser [--chromium | --firefox] [--json] [--keep FILE] [--observe FILE] [--report DIR]
           [--play PLAY] SCENARIO
       bin/in-browser --observed FILE [--before FILE] [--report DIR] [--json] [--play PLAY] SCENARIO

Plays a scenario of one to three documents by the engine (bin/fetchplay, or the program that FETCHPLAY names) and in a headless
browser (that of Debian, or the one that CHROMIUM or FIREFOX names), and prints both beside each other.

  --chromium, --firefox   the browser; Chromium where none is named
  --json                  the comparison as JSON
  --keep FILE             writes what the servers received to FILE, as JSON
  --observe FILE          writes what the browser did to FILE, as an observation (schema/observation.schema.json)
  --observed FILE         judges this observation, of any engine, and starts no browser
  --report DIR            writes a report of the differences to DIR, with its page and its servers
  --before FILE           tells what has changed since this observation by the same engine: a difference that is new, or gone
  --play PLAY             takes this printed play for the engine's

The status is 0 where each difference is one that docs/BROWSERS.md knows (with --before: none has changed), 1 where one is
unexplained (has changed), 2 where the words, a file or the scenario are refused or it cannot be played, 3 where the browser or
the engine is missing or fails.
`;

const STATUS = { explained: 0, unexplained: 1, refused: 2, failed: 3 };

class Usage extends Error {}

// A file that the words name, and that cannot be read or written.
class Unusable extends Error {}

const WHY = { ENOENT: "there is no such file or folder", EISDIR: "it is a folder", EACCES: "permission is denied" };

// What this does with a file, or why it cannot be done.
function usingFile(name, run) {
  try {
    return run(name);
  } catch (error) {
    throw new Unusable(name + ": " + (WHY[error.code] || error.message));
  }
}

const readFile = (name) => usingFile(name, (file) => fs.readFileSync(file));

const FILES = ["--keep", "--play", "--observe", "--observed", "--before", "--report"];

// Whether these words may stand together: what was observed needs no browser.
const isSound = (given) => given.scenario !== null
  && (given.observed === null || (given.browser === null && given.keep === null && given.observe === null));

function readWords(words) {
  const given = { browser: null, json: false, keep: null, play: null, observe: null, observed: null, before: null, report: null,
    scenario: null };
  const rest = [...words];
  while (rest.length > 0) {
    const word = rest.shift();
    if ((word === "--chromium" || word === "--firefox") && given.browser === null) {
      given.browser = word.slice(2);
    } else if (word === "--json") {
      given.json = true;
    } else if (FILES.includes(word) && rest.length > 0) {
      given[word.slice(2)] = rest.shift();
    } else if (word.startsWith("--") || given.scenario !== null) {
      throw new Usage();
    } else {
      given.scenario = word;
    }
  }
  if (!isSound(given)) {
    throw new Usage();
  }
  return { ...given, browser: given.browser || "chromium" };
}

// Refuses at once what no browser can play. What is no scenario at all is the engine's to refuse.
function refuseUnplayable(text, isObserved) {
  try {
    readScenario(text, isObserved);
  } catch (error) {
    if (error instanceof Unplayable) {
      throw error;
    }
  }
}

// The scenario, and the engine's commands of it. The engine is asked first whether this is one.
function readBoth(given) {
  const bytes = readFile(given.scenario);
  const text = bytes.toString("utf8");
  const isObserved = given.observed !== null;
  refuseUnplayable(text, isObserved);
  const printed = given.play === null ? printedPlay(bytes) : readFile(given.play).toString("latin1");
  const scenario = readScenario(text, isObserved);
  if (given.report !== null && scenario.documents.length > 1) {
    throw new Unplayable("/documents", "a report has one page");
  }
  const isOne = given.play !== null || scenario.documents.length === 1;
  return { scenario, engine: isOne ? commandsIn(printed, scenario) : playedCommands(bytes, scenario) };
}

// What the servers received, each header a pair; `own` says what a browser sent by itself.
function keptText(arrivals) {
  const told = arrivals.map(({ origin, method, target, headers, body, own }) => ({ origin, method, target,
    headers: headers.map(({ name, value }) => [name, value]), body, own }));
  return JSON.stringify(told, null, 1) + "\n";
}

// The files that are to be written are there before the browser is.
function makeFiles(given) {
  [given.keep, given.observe].filter((name) => name !== null)
    .forEach((name) => usingFile(name, (file) => fs.closeSync(fs.openSync(file, "a"))));
}

function findBrowser(browser) {
  const program = find(browser);
  if (program === null) {
    throw new Error("there is no " + nameOf(browser) + " (Debian: chromium, firefox-esr)");
  }
  return program;
}

// What a browser that is started for it does with the scenario.
async function playedLive(given, scenario) {
  makeFiles(given);
  const kept = (arrivals) => {
    if (given.keep !== null) {
      fs.writeFileSync(given.keep, keptText(arrivals));
    }
  };
  const played = await playIn(findBrowser(given.browser), scenario, { kept });
  if (given.observe !== null) {
    fs.writeFileSync(given.observe, observationText(played));
  }
  return played;
}

const observationIn = (name) => readObservation(readFile(name).toString("utf8"));

// The changes since an earlier observation; null where there is none.
function changesSince(name, judged, played, commands) {
  if (name === null) {
    return null;
  }
  const before = observationIn(name);
  if (before.browser !== played.browser) {
    throw new BadObservation(name + " is one of " + nameOf(before.browser) + ", and not of " + nameOf(played.browser));
  }
  return changesOf(judged(before), commands);
}

async function compare(given) {
  const { scenario, engine } = readBoth(given);
  const judged = (played) => explained(scenario, played, comparePlays(scenario, engine, played));
  const played = given.observed === null ? await playedLive(given, scenario) : observationIn(given.observed);
  const commands = judged(played);
  const left = unexplained(commands);
  if (given.report !== null) {
    usingFile(given.report, (folder) => writeReport(folder, scenario, played, commands));
  }
  const changes = changesSince(given.before, judged, played, commands);
  process.stdout.write(given.json ? asJson(played, commands, left, changes)
    : shown(played, commands, left, changes, process.stdout.isTTY || Boolean(process.env.FORCE_COLOR)));
  return (changes || left).length === 0 ? STATUS.explained : STATUS.unexplained;
}

async function main(words) {
  if (words[0] === "--help") {
    process.stdout.write(USAGE);
    return 0;
  }
  try {
    return await compare(readWords(words));
  } catch (error) {
    if (error instanceof Usage) {
      process.stderr.write(USAGE);
      return STATUS.refused;
    }
    if (!(error instanceof Refused)) {
      process.stderr.write("bin/in-browser: " + error.message + "\n");
    }
    return [Unplayable, Refused, Unusable, BadObservation].some((kind) => error instanceof kind) ? STATUS.refused : STATUS.failed;
  }
}

module.exports = { main };
