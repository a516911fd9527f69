"use strict";

// A reporter of node:test for X/check, whose tests stand in X/check.js or X/tests/check.test.js. It tells each case
// that fails, with its place, and what was left out; and where nothing fails a last line: what the tests counted, which
// they say by `diagnostic`, and how many cases there were.

const path = require("path");

const ROOT = path.join(__dirname, "..", "..", path.sep);
const BASE = path.join("view", "tests", "base.js");
const CHECK = path.relative(ROOT, process.argv[1]).replace("tests" + path.sep, "").replace(/\..*/, "");
const MOST = 2000; // characters of a message that are told
const COUNT_OF_NODE = /^(tests|suites|pass|fail|cancelled|skipped|todo|duration_ms) [0-9.]+$/;
const NOT_NAMED = /^test name does not match/; // where --test-name-pattern names others

function say(text) {
  process.stderr.write(CHECK + ": " + text + "\n");
}

// The lines of a stack that lead to this repository.
function placesOf({ stack = "" }) {
  return String(stack).split("\n").filter((line) => /^ +at /.test(line) && line.includes(ROOT) && !line.includes(BASE))
    .map((line) => line.replace("file://", "").replace(ROOT, ""));
}

function sayFault(names, { error }) {
  const fault = error.cause instanceof Error ? error.cause : error;
  const message = String(fault).slice(0, MOST).split("\n").map((line) => "    " + line);
  say([names.join(": "), ...message, ...placesOf(fault)].join("\n"));
}

class Told {
  constructor() {
    this.names = [];
    this.counted = [];
    this.cases = 0;
    this.failed = 0;
  }

  start({ name, nesting }) {
    this.names.splice(nesting, Infinity, name);
  }

  // A test that has others is no case, unless it fails by itself.
  end({ nesting, skip, details }) {
    const isCase = this.names.length === nesting + 1 && skip === undefined;
    const isFault = details.error !== undefined && details.error.failureType !== "subtestsFailed";
    this.cases += isCase || isFault ? 1 : 0;
    if (isFault) {
      this.failed += 1;
      sayFault(this.names.slice(0, nesting + 1), details);
    } else if (skip !== undefined && !NOT_NAMED.test(skip)) {
      say("left out: " + this.names[nesting] + (typeof skip === "string" && skip !== "" ? ": " + skip : ""));
    }
  }

  diagnostic({ message }) {
    if (!COUNT_OF_NODE.test(message)) {
      this.counted.push(message);
    }
  }

  lastLine() {
    return CHECK + ": " + [...this.counted, this.cases.toLocaleString("en") + " cases"].join("; ") + "\n";
  }
}

module.exports = async function* reported(events) {
  const told = new Told();
  for await (const { type, data } of events) {
    if (type === "test:start") {
      told.start(data);
    } else if (type === "test:pass" || type === "test:fail") {
      told.end(data);
    } else if (type === "test:diagnostic") {
      told.diagnostic(data);
    }
  }
  if (told.failed === 0) {
    yield told.lastLine();
  } else {
    say(told.failed + " of " + told.cases.toLocaleString("en") + " cases failed");
  }
};
