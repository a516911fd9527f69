"use strict";

// The scenarios of corpus/, by area, and beside each what the browsers answered: NAME.json, NAME.chromium.json and
// NAME.firefox.json.

const fs = require("fs");
const path = require("path");
const { isUnasked } = require("./compare.js");
const { readObservation } = require("./observation.js");

const ROOT = path.join(__dirname, "corpus");

// All scenarios by their names, such as `redirects/loop`.
function names() {
  return fs.readdirSync(ROOT, { withFileTypes: true }).filter((entry) => entry.isDirectory()).flatMap((area) => {
    const files = fs.readdirSync(path.join(ROOT, area.name));
    return files.filter((file) => /^[a-z0-9-]+\.json$/.test(file)).map((file) => area.name + "/" + file.slice(0, -5));
  }).sort();
}

function textOf(name) {
  return fs.readFileSync(path.join(ROOT, name + ".json"), "utf8");
}

function answersFile(name, browser) {
  return path.join(ROOT, name + "." + browser + ".json");
}

function hasAnswers(name, browser) {
  return fs.existsSync(answersFile(name, browser));
}

function answers(name, browser) {
  return readObservation(fs.readFileSync(answersFile(name, browser), "utf8"));
}

// Stores a play without the headers that no comparison looks at, and without times, a command on a line.
function store(name, played) {
  const trimmed = ({ at, ...request }, command) => ({ ...request,
    headers: request.headers.filter(([header]) => !isUnasked(header, command)) });
  const kept = played.commands.map(({ command, ...one }) => ({ ...one,
    requests: one.requests.map((request) => trimmed(request, command)) }));
  const head = "{\"browser\": " + JSON.stringify(played.browser) + ", \"version\": " + JSON.stringify(played.version);
  const lines = kept.map((one) => "\n  " + JSON.stringify(one)).join(",");
  fs.writeFileSync(answersFile(name, played.browser), head + ",\n \"commands\": [" + lines + "]}\n");
}

module.exports = { names, textOf, hasAnswers, answers, store };
