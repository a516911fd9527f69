"use strict";

// The table of rules against docs/BROWSERS.md: each rule is named there, in its section, with a link to its scenario; the
// page names no other rule; and a row names the browsers that its rules are of.

const fs = require("fs");
const path = require("path");
const { rules: all } = require("./rules.js");
const corpus = require("./corpus.js");

// The rules of the engines that the page tells of.
const rules = all.filter((rule) => rule.section !== undefined);

const PAGE = path.join(__dirname, "..", "docs", "BROWSERS.md");
const LINK = /\[`([a-z0-9-]+)`\]\(\.\.\/browsers\/corpus\/([a-z0-9/-]+)\.json\)/g;

// A heading's own link, as GitHub makes it.
function anchorOf(heading) {
  return heading.toLowerCase().replace(/[^a-z0-9 -]/g, "").replace(/ /g, "-");
}

// The rules that the page names: each with its section, its scenario, and its line.
function namedRules(text) {
  let section = null;
  return text.split("\n").flatMap((line) => {
    const heading = /^#+ (.*)$/.exec(line);
    section = heading === null ? section : anchorOf(heading[1]);
    return [...line.matchAll(LINK)].map(([, name, scenario]) => ({ name, scenario, section }));
  });
}

const cellsOf = (line) => line.split("|").map((cell) => cell.trim());

// The number of the column `browsers` of the table that this line is in; -1 where it has none.
function columnOf(lines, number) {
  let first = number;
  while (first > 0 && lines[first - 1].startsWith("|")) {
    first -= 1;
  }
  return cellsOf(lines[first]).indexOf("browsers");
}

// The cell of browsers names those that differ, or both: of each of them one of the row's rules is, and of no other.
function rowFaults(lines, line, number) {
  const rows = [...line.matchAll(LINK)].map(([, name]) => rules.find((rule) => rule.name === name)).filter(Boolean);
  const column = rows.length > 0 && line.startsWith("|") ? columnOf(lines, number) : -1;
  const named = column === -1 ? "" : cellsOf(line)[column];
  const differs = (browser) => named.startsWith("both: ") || named.toLowerCase().includes(browser + ": ");
  return (column === -1 ? [] : ["chromium", "firefox"])
    .filter((browser) => differs(browser) !== rows.some((rule) => rule.browsers.includes(browser)))
    .map((browser) => "docs/BROWSERS.md, line " + (number + 1) + ", and its rules say other things of " + browser);
}

function ruleFaults(rule, found) {
  const faults = found.length > 0 ? [] : ["docs/BROWSERS.md does not name the rule " + rule.name];
  if (found.some((one) => one.scenario !== rule.scenario)) {
    faults.push("docs/BROWSERS.md has another scenario of " + rule.name);
  }
  const other = found.find((one) => one.section !== rule.section);
  if (other !== undefined) {
    faults.push("docs/BROWSERS.md names the rule " + rule.name + " in " + other.section + ", and not in " + rule.section);
  }
  return faults;
}

function versionFaults(text) {
  const versions = new Set(corpus.names().flatMap((name) => ["chromium", "firefox"]
    .filter((browser) => corpus.hasAnswers(name, browser)).map((browser) => corpus.answers(name, browser).version)));
  return [...versions].filter((version) => !text.includes(version))
    .map((version) => "docs/BROWSERS.md does not name the version " + version + " of stored answers");
}

function documentFaults() {
  const text = fs.readFileSync(PAGE, "utf8");
  const lines = text.split("\n");
  const named = namedRules(text);
  const known = new Set(rules.map((rule) => rule.name));
  const strange = named.filter((one) => !known.has(one.name))
    .map((one) => "docs/BROWSERS.md names the rule " + one.name + ", which the table has not");
  return [...strange, ...versionFaults(text), ...lines.flatMap((line, number) => rowFaults(lines, line, number)),
    ...rules.flatMap((rule) => ruleFaults(rule, named.filter((one) => one.name === rule.name)))];
}

module.exports = { documentFaults };
