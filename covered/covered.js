"use strict";

// bin/covered: which points of the standards some plays reach, and which they do not, each with a scenario that does.

const fs = require("fs");
const path = require("path");
const { POINTS, waysIn } = require("./points.js");
const { scenariosIn, reachedIn, wayList, Unusable } = require("./plays.js");
const { pageOf } = require("./page.js");
const index = require("./index.json");
const beyond = require("./beyond.json");

const USAGE = `usage: bin/covered [--json | --html FILE] [--missing] SCENARIO|HAR|FOLDER ..

Plays scenarios, those of folders, and recordings, and says what of the standards they reach: ways to results, errors, calls
of the preflight cache and the HSTS list, steps of fetches, directives, source forms, and referrer policies by case. What
they do not reach is told with a scenario that does.

  --json        all points as JSON, each with the scenarios that reach it
  --html FILE   a page
  --missing     what is missing alone

The status is 0 where all is reached, 1 where something is missing, 2 where words or files are wrong, 3 where a program fails.
`;

class Usage extends Error {}

function readWords(words) {
  const given = { json: false, html: null, missing: false, names: [] };
  const rest = [...words];
  while (rest.length > 0) {
    const word = rest.shift();
    if (word === "--json" || word === "--missing") {
      given[word.slice(2)] = true;
    } else if (word === "--html" && rest.length > 0) {
      given.html = rest.shift();
    } else if (word.startsWith("-")) {
      throw new Usage();
    } else {
      given.names.push(word);
    }
  }
  if (given.names.length === 0 || (given.json && given.html !== null)) {
    throw new Usage();
  }
  return given;
}

// All points, but those that no play of a scenario reaches.
const allPoints = () => [...waysIn(wayList()), ...POINTS].filter(({ name }) => !(name in beyond));

// Each point with the scenarios that reach it, and one of this repository that does.
function withReached(points, reached) {
  return points.map((point) => ({ ...point, by: reached.filter((one) => one.points.has(point.name)).map(({ name }) => name),
    shown: index[point.name] || null }));
}

function told(points, missingAlone) {
  const groups = [...new Set(points.map(({ group }) => group))];
  return groups.flatMap((group) => {
    const own = points.filter((point) => point.group === group);
    const missing = own.filter(({ by }) => by.length === 0);
    const lines = (missingAlone ? [] : own.filter(({ by }) => by.length > 0))
      .map(({ name, by }) => "  " + name + ": " + by[0] + (by.length > 1 ? " and " + (by.length - 1) + " more" : ""));
    return [group + ": " + (own.length - missing.length) + " of " + own.length, ...lines,
      ...missing.map(({ name, what, shown }) => "  missing: " + name + ": " + what + (shown === null ? "" : " (" + shown + ")"))];
  });
}

async function cover(given) {
  const scenarios = given.names.flatMap(scenariosIn);
  const refused = (name, error) => process.stderr.write("bin/covered: " + name + ": " + error.message + "\n");
  const points = withReached(allPoints(), await reachedIn(scenarios, refused));
  const missing = points.filter(({ by }) => by.length === 0).length;
  if (given.html !== null) {
    fs.writeFileSync(given.html, pageOf(points, scenarios.length));
  } else if (given.json) {
    process.stdout.write(JSON.stringify({ scenarios: scenarios.length, points }, null, 1) + "\n");
  } else {
    process.stdout.write([...told(points, given.missing), scenarios.length + " scenarios reach " + (points.length - missing)
      + " of " + points.length + " points"].join("\n") + "\n");
  }
  return missing === 0 ? 0 : 1;
}

async function main(words) {
  if (words[0] === "--help") {
    process.stdout.write(USAGE);
    return 0;
  }
  try {
    return await cover(readWords(words));
  } catch (error) {
    process.stderr.write(error instanceof Usage ? USAGE : "bin/covered: " + error.message + "\n");
    return error instanceof Usage || error instanceof Unusable ? 2 : 3;
  }
}

module.exports = { main, allPoints };
