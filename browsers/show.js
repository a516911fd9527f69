"use strict";

// The comparison as a person reads it: each command with both sides beside each other, and a summary whose last lines,
// in red, are the differences that no rule explains.

const { engines, versionNote } = require("./rules.js");

const WIDTH = 58;
const RED = "\u001b[31m";
const PLAIN = "\u001b[0m";
const NAMES = { chromium: "Chromium", firefox: "Firefox" }; // that can be started

const nameOf = (browser) => (browser in engines ? engines[browser].name : browser);

// Where docs/BROWSERS.md tells a rule; null of an engine that it does not tell of.
const pageOf = (rule) => (rule.section === undefined ? null : "docs/BROWSERS.md#" + rule.section);

function shortened(text, width) {
  return text.length <= width ? text : text.slice(0, width - 3) + "...";
}

function row(left, right) {
  return "  " + shortened(left, WIDTH).padEnd(WIDTH) + "  " + right;
}

// ---- one command

function titleOf(place, command) {
  if (command === undefined) {
    return place;
  }
  const asked = command.fetch || command.load;
  const kind = command.fetch ? "fetch " + (asked.method || "GET") : "load " + asked.kind;
  return place + "  " + kind + " " + asked.url;
}

const requestText = (request) => request.method + " " + request.origin + request.target;

function bodyText(body) {
  if (body === undefined) {
    return null;
  }
  return body.end === "whole" ? body.hex.length / 2 + " bytes" : "body " + body.end;
}

function resultText(result, reasons) {
  if (result === undefined) {
    return "not played";
  }
  if (result.result === "response") {
    const words = ["response", result.type, result.status, bodyText(result.body)];
    return words.filter((word) => word !== null && word !== undefined).join(" ");
  }
  const named = result.name ? " " + result.number + " " + result.name + (result.header ? " " + result.header : "") : "";
  return result.result + named + (reasons && reasons.length > 0 ? ": " + shortened(reasons.join("; "), 120) : "");
}

function violationText(violation) {
  return "violation " + [violation.policy, violation.enforced ? "enforce" : "report", violation.directive,
    violation.url].join(" ");
}

// Both sides' lines beside each other; where they are equal the right one says so.
function beside(ours, theirs) {
  return Array.from({ length: Math.max(ours.length, theirs.length) }, (_, index) => {
    const [one, other] = [ours[index] || "", theirs[index] || ""];
    return row(one === "" ? "-" : one, other === one ? "the same" : other === "" ? "-" : other);
  });
}

function valueText(value) {
  if (value === null || value === undefined) {
    return "none";
  }
  return value === "" ? "an empty one" : shortened(String(value), 100);
}

function differenceText(difference) {
  const where = difference.request ? " of " + difference.request : "";
  const name = difference.name ? " " + difference.name : "";
  return difference.what + name + where + ": here " + valueText(difference.engine) + "; there "
    + valueText(difference.browser);
}

// The requests in the order in which both sides sent them, gaps where one sent none.
function requestLines(compared) {
  const ours = compared.engine ? compared.engine.requests.map(requestText) : [];
  const theirs = compared.browser ? compared.browser.requests.map(requestText) : [];
  const missing = compared.differences.filter((one) => one.what === "request").map((one) => one.engine || one.browser);
  const lines = [];
  while (ours.length > 0 || theirs.length > 0) {
    if (ours[0] === theirs[0]) {
      lines.push([ours.shift(), theirs.shift()]);
    } else if (theirs.length === 0 || (ours.length > 0 && missing.includes(ours[0]))) {
      lines.push([ours.shift(), ""]);
    } else {
      lines.push(["", theirs.shift()]);
    }
  }
  return beside(lines.map((line) => line[0]), lines.map((line) => line[1]));
}

function ruleText(rule) {
  if (rule === null) {
    return "UNEXPLAINED";
  }
  const page = pageOf(rule);
  return rule.name + ": " + rule.what + (page === null ? "" : " (" + page + ")");
}

function commandLines(compared) {
  const { engine, browser } = compared;
  const lines = [titleOf(compared.place, engine && engine.command), ...requestLines(compared),
    ...beside(engine ? engine.violations.map(violationText) : [], browser ? browser.violations.map(violationText) : []),
    row(resultText(engine && engine.result), resultText(browser && browser.result, browser && browser.reasons))];
  compared.differences.forEach((difference) => {
    lines.push("    " + differenceText(difference));
    lines.push("      " + ruleText(difference.rule));
  });
  return lines;
}

// ---- the whole

function countOf(number, word) {
  return number + " " + word + (number === 1 ? "" : "s");
}

function summaryLines(commands, unexplained, coloured) {
  const agreeing = commands.filter((compared) => compared.differences.length === 0).length;
  const all = commands.reduce((sum, compared) => sum + compared.differences.length, 0);
  const lines = ["", countOf(commands.length, "command") + ": " + agreeing + " agree; "
    + countOf(all - unexplained.length, "difference") + " explained, " + unexplained.length + " unexplained"];
  unexplained.forEach((one) => {
    const text = "unexplained: " + one.place + " " + differenceText(one);
    lines.push(coloured ? RED + text + PLAIN : text);
  });
  return lines;
}

function changeLines(changes) {
  return changes === null ? [] : ["", countOf(changes.length, "change"), ...changes];
}

function shown(played, commands, unexplained, changes, coloured) {
  const heading = row("the engine", nameOf(played.browser) + " " + played.version);
  const note = versionNote(played);
  return [heading, ...(note === null ? [] : [row("", note)]), ...commands.flatMap((compared) => ["", ...commandLines(compared)]),
    ...summaryLines(commands, unexplained, coloured), ...changeLines(changes)].join("\n") + "\n";
}

// For scripts: the same as JSON, each difference with the name and the section of its rule, or null.
function asJson(played, commands, unexplained, changes) {
  const told = ({ rule, ...difference }) => ({ ...difference,
    rule: rule === null ? null : { name: rule.name, section: pageOf(rule) } });
  return JSON.stringify({ browser: played.browser, version: played.version, unexplained: unexplained.length,
    ...(changes === null ? {} : { changes }), commands: commands.map(({ place, engine, browser, differences }) => ({ place, engine, browser,
      differences: differences.map(told) })) }, null, 1) + "\n";
}

module.exports = { commandLines, ruleText, shown, asJson, differenceText, nameOf, NAMES };
