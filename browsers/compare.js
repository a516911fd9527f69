"use strict";

// Compares the engine's play of a scenario with a browser's, command by command. A difference says `what` differs, with
// the engine's value and the browser's; null is what was not there. What is not compared is listed in browsers/README.md;
// nor is what the observation leaves out, since it was not seen (observation.js).

const { errorsOf } = require("./reasons.js");
const { ruleFor } = require("./scripted.js");

// Headers that browsers add by themselves, beside the Accept of a load.
const ADDED = new RegExp("^(user-agent|accept-language|accept-encoding|connection|cache-control|pragma|priority|te|dnt|range"
  + "|upgrade-insecure-requests|sec-.*)$");

const isOfBrowsers = (key, command) => ADDED.test(key) || (key === "accept" && command.load !== undefined);

// The values that a script gives under this lower-case name.
function givenOf(key, command) {
  return ((command.fetch || {}).headers || []).filter(([name]) => name.toLowerCase() === key).map(([, value]) => value.trim());
}

// Whether a header is never compared: browsers add it by themselves, and the script gives none of its name.
function isUnasked(name, command) {
  const key = name.toLowerCase();
  return isOfBrowsers(key, command) && givenOf(key, command).length === 0;
}

// Whether this header has a value that the script gave. A script's own may be dropped, and the browser's sent in its place.
function isGiven(header, key, command) {
  const lines = header === null ? "" : ", " + header.value + ", ";
  return header !== null && givenOf(key, command).some((value) => value.includes("${") || lines.includes(", " + value + ", "));
}

// The headers of a request by their lower-case names: the spelling and the joined values.
function headersOf(request) {
  const lines = new Map();
  request.headers.forEach(([name, value]) => {
    const key = name.toLowerCase();
    lines.set(key, [...(lines.get(key) || []), { name, value }]);
  });
  // Blanks at the ends are no part of a value on the wire. The last spelling of equal names counts.
  const joined = (equal) => ({ name: equal[equal.length - 1].name,
    value: equal.map(({ value }) => value.trim()).join(", ").trim() });
  return new Map([...lines].map(([key, equal]) => [key, joined(equal)]));
}

// ---- requests

const keyOf = (request) => request.method + " " + request.origin + request.target;

// Pairs the requests of both sides in order, as many as can be (the longest common subsequence).
function paired(ours, theirs) {
  const best = Array.from({ length: ours.length + 1 }, () => Array(theirs.length + 1).fill(0));
  for (let i = ours.length - 1; i >= 0; i -= 1) {
    for (let j = theirs.length - 1; j >= 0; j -= 1) {
      best[i][j] = keyOf(ours[i]) === keyOf(theirs[j]) ? best[i + 1][j + 1] + 1
        : Math.max(best[i + 1][j], best[i][j + 1]);
    }
  }
  const pairs = [];
  for (let i = 0, j = 0; i < ours.length || j < theirs.length;) {
    if (i < ours.length && j < theirs.length && keyOf(ours[i]) === keyOf(theirs[j])) {
      pairs.push([ours[i++], theirs[j++]]);
    } else if (j >= theirs.length || (i < ours.length && best[i + 1][j] >= best[i][j + 1])) {
      pairs.push([ours[i++], null]);
    } else {
      pairs.push([null, theirs[j++]]);
    }
  }
  return pairs;
}

function headerDifferences(command, ours, theirs) {
  const [engine, browser] = [headersOf(ours), headersOf(theirs)];
  const names = new Set([...engine.keys(), ...browser.keys()]);
  return [...names].flatMap((name) => {
    const [one, other] = [engine.get(name) || null, browser.get(name) || null];
    if (isOfBrowsers(name, command) && !isGiven(one, name, command) && !isGiven(other, name, command)) {
      return [];
    }
    const values = { engine: one && one.value, browser: other && other.value };
    if (values.engine !== values.browser) {
      return [{ what: "header", request: keyOf(ours), name, ...values }];
    }
    return one.name === other.name ? [] : [{ what: "spelling", request: keyOf(ours), name, engine: one.name,
      browser: other.name }];
  });
}

// What two requests of the same key differ in, as far as it was seen.
function pairDifferences(command, ours, theirs) {
  const headers = theirs.headers === undefined ? [] : headerDifferences(command, ours, theirs);
  const isSame = theirs.body === undefined || ours.body === theirs.body;
  return isSame ? headers
    : [...headers, { what: "body sent", request: keyOf(ours), engine: ours.body, browser: theirs.body }];
}

function requestDifferences(ours, theirs) {
  return theirs.requests === undefined ? [] : paired(ours.requests, theirs.requests).flatMap(([one, other]) => (
    one === null || other === null ? [{ what: "request", engine: one && keyOf(one), browser: other && keyOf(other) }]
      : pairDifferences(ours.command, one, other)));
}

// ---- violations: how often each is told, in any order

const toldAs = (violation) => [violation.policy, violation.enforced ? "enforce" : "report", violation.directive,
  violation.url.replace(/#.*$/, "")].join(" ");

function violationDifferences(ours, theirs) {
  if (theirs.violations === undefined) {
    return [];
  }
  const rest = theirs.violations.map(toldAs);
  const missing = ours.violations.map(toldAs).filter((told) => {
    const at = rest.indexOf(told);
    if (at >= 0) {
      rest.splice(at, 1);
    }
    return at < 0;
  });
  return [...missing.map((told) => ({ what: "violation", engine: told, browser: null })),
    ...rest.map((told) => ({ what: "violation", engine: null, browser: told }))];
}

// ---- results

function joined(headers) {
  const all = new Map();
  headers.forEach(([name, value]) => {
    const key = name.toLowerCase();
    all.set(key, all.has(key) ? all.get(key) + ", " + value : value);
  });
  return all;
}

function responseHeaderDifferences(ours, theirs) {
  if (theirs.headers === undefined) {
    return [];
  }
  const [engine, browser] = [joined(ours.headers), joined(theirs.headers)];
  return [...new Set([...engine.keys(), ...browser.keys()])].filter((name) => engine.get(name) !== browser.get(name))
    .map((name) => ({ what: "response header", name, engine: engine.has(name) ? engine.get(name) : null,
      browser: browser.has(name) ? browser.get(name) : null }));
}

const bodyText = (body) => (body.end === "whole" ? "whole " + body.hex : body.end === "fault" ? "cut" : body.end);

// XMLHttpRequest, and whoever else tells no type, tells no body of none.
function bodyDifferences(ours, theirs) {
  if (theirs.body === undefined) {
    return [];
  }
  const [one, other] = [bodyText(ours.body), bodyText(theirs.body)];
  const isSame = one === other || one === "toobig" || (theirs.type === null && one === "none" && other === "whole ");
  return isSame ? [] : [{ what: "body", engine: one, browser: other }];
}

function responseDifferences(ours, theirs) {
  const isSeen = (part) => theirs[part] !== null && theirs[part] !== undefined;
  const parts = ["type", "status", "url"].filter((part) => isSeen(part) && ours[part] !== theirs[part])
    .map((part) => ({ what: part, engine: ours[part], browser: theirs[part] }));
  return [...parts, ...responseHeaderDifferences(ours, theirs), ...bodyDifferences(ours, theirs)];
}

function toldResult(result) {
  return [result.result, result.status, result.name].filter(Boolean).join(" ");
}

// These fail in their elements, and not in the network, where the status is not ok.
const OWN_EVENTS = ["script", "style", "font", "audio", "video"];

function isOpen(ours, theirs, statusOfLoad) {
  const kind = ours.command.load && ours.command.load.kind;
  return OWN_EVENTS.includes(kind) && theirs.result.result === "failed"
    && ours.result.result === "loaded" && statusOfLoad !== null && (statusOfLoad < 200 || statusOfLoad > 299);
}

function reasonDifferences(browser, ours, theirs) {
  const names = errorsOf(browser, theirs.reasons || []);
  if (names === null || ours.result.fault || !ours.result.name || names.includes(ours.result.name)) {
    return [];
  }
  return [{ what: "reason", engine: ours.result.name, browser: theirs.reasons.join("; ") }];
}

function resultDifferences(browser, ours, theirs, statusOfLoad) {
  if (theirs.result === undefined) {
    return [];
  }
  if (ours.result.result !== theirs.result.result) {
    return isOpen(ours, theirs, statusOfLoad) ? []
      : [{ what: "result", engine: toldResult(ours.result), browser: toldResult(theirs.result) }];
  }
  return ours.result.result === "response" ? responseDifferences(ours.result, theirs.result)
    : reasonDifferences(browser, ours, theirs);
}

// ---- all of it

// The status with which the last request of a command is answered by the scenario's rules, or null.
function statusOf(scenario, requests) {
  const last = requests[requests.length - 1];
  const rule = last === undefined ? null : ruleFor(scenario, last.origin, last.method, last.target);
  return rule === null || rule.status === undefined ? null : rule.status;
}

function compareCommand(scenario, browser, ours, theirs) {
  if (ours === undefined || theirs === undefined) {
    return [{ what: "command", engine: ours ? ours.place : null, browser: theirs ? theirs.place : null }];
  }
  return [...requestDifferences(ours, theirs), ...violationDifferences(ours, theirs),
    ...resultDifferences(browser, ours, theirs, statusOf(scenario, ours.requests))];
}

const NOT_SEEN = { result: "not seen", type: null };

// A command of an observation as rules and pages look at it: what was not seen is empty.
function whole(theirs) {
  const requests = (theirs.requests || []).map((request) => ({ headers: [], body: "", ...request }));
  return { reasons: [], violations: [], result: NOT_SEEN, ...theirs, requests };
}

// One command of both sides, compared.
function compared(scenario, browser, place, engine, theirs) {
  return { place, engine, browser: theirs && whole(theirs),
    differences: compareCommand(scenario, browser, engine, theirs) };
}

// The commands of both sides by their places, each with its differences.
function comparePlays(scenario, engine, played) {
  const places = [...new Set([...engine, ...played.commands].map((command) => command.place))];
  return places.map((place) => {
    const ours = engine.find((command) => command.place === place);
    const theirs = played.commands.find((command) => command.place === place);
    return compared(scenario, played.browser, place, ours, theirs);
  });
}

module.exports = { comparePlays, compared, violationDifferences, isUnasked };
