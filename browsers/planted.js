"use strict";

// Plants differences in the engine's play of a scenario, one at a time: an Origin header changed, a preflight left out, a
// violation more, and others. No rule may explain one, or the rules are too wide.

const engineNames = require("../schema/names.json");
const { comparePlays, compared } = require("./compare.js");
const { explainedAt } = require("./explained.js");
const { documentAt, policiesOf } = require("./scenario.js");

const STRANGER = "https://planted.test";

const withAt = (list, at, value) => list.map((one, index) => (index === at ? value : one));

// ---- one request changed, or null where it has nothing to change

function withHeaderChanged(request, name, value) {
  return request.headers.every(([one]) => one !== name) ? null
    : { ...request, headers: request.headers.map(([one, own]) => [one, one === name ? value : own]) };
}

const REQUEST_CHANGES = [
  (request) => withHeaderChanged(request, "Origin", STRANGER),
  (request) => withHeaderChanged(request, "Origin", "null"),
  (request) => withHeaderChanged(request, "Referer", STRANGER + "/"),
  (request, document) => withHeaderChanged(request, "Referer", document.url.replace(/#.*$/, "")),
  (request) => withHeaderChanged(request, "Cookie", "planted=1"),
  (request) => ({ ...request, headers: [...request.headers, ["X-Planted", "1"]] }),
  (request) => ({ ...request, body: request.body + "00" }),
];

function requestsChanged({ requests }, document) {
  const plays = requests.flatMap((request, at) => REQUEST_CHANGES.map((change) => change(request, document))
    .filter((changed) => changed !== null).map((changed) => withAt(requests, at, changed)));
  return plays.map((changed) => ({ requests: changed }));
}

// ---- a request left out, a preflight more, and a request more

const isPreflight = (request) => request.method === "OPTIONS"
  && request.headers.some(([name]) => name === "Access-Control-Request-Method");

function preflightsLeftOut({ requests }) {
  return requests.filter(isPreflight).map((left) => ({ requests: requests.filter((request) => request !== left) }));
}

const preflightOf = ({ origin, target, method }, own) => ({ origin, target, method: "OPTIONS", body: "",
  headers: [["Access-Control-Request-Method", method], ["Origin", own]] });

// Before each request that has none.
function preflightsMore({ requests }, document) {
  const own = new URL(document.url).origin;
  const hasNone = (request, at) => !isPreflight(request) && (at === 0 || !isPreflight(requests[at - 1]));
  return requests.flatMap((request, at) => (hasNone(request, at)
    ? [{ requests: [...requests.slice(0, at), preflightOf(request, own), ...requests.slice(at)] }] : []));
}

function requestMore({ requests }) {
  return [{ requests: [...requests, { origin: STRANGER, method: "GET", target: "/", headers: [], body: "" }] }];
}

// ---- a violation less

function violationsLess({ violations }) {
  return violations.map((less) => ({ violations: violations.filter((violation) => violation !== less) }));
}

// ---- a violation more: of a stranger's URL, and of the own one by another directive

function violationsMore({ violations }, document) {
  const strange = policiesOf(document).slice(0, 1).map((policy) => ({ policy: 0, enforced: policy.enforced,
    directive: "connect-src", url: STRANGER + "/" }));
  const own = violations.slice(0, 1).map((violation) => ({ ...violation, directive: "object-src" }));
  return [...strange, ...own].map((more) => ({ violations: [...violations, more] }));
}

// ---- a response changed

const RESPONSE_CHANGES = [
  { status: 299 },
  { url: STRANGER + "/" },
  { body: { end: "whole", hex: "706c616e746564" } },
];

function responsesChanged({ result }) {
  return result.result !== "response" ? [] : RESPONSE_CHANGES.map((change) => ({ result: { ...result, ...change } }));
}

// ---- what the script read becomes a network error, each in turn (docs/rules/printed-text.md)

const ERRORS = Object.keys(engineNames.network_errors);

function errorsForAnswers({ result, command }) {
  const read = ["response", "loaded"].includes(result.result);
  return !read ? [] : ERRORS.map((name) => ({ result: { result: command.load === undefined ? "error" : "failed",
    fault: false, number: null, name, header: null } }));
}

// ---- all of it

const KINDS = [requestsChanged, preflightsLeftOut, preflightsMore, requestMore, violationsLess, violationsMore,
  responsesChanged, errorsForAnswers];

// The changed forms of a command.
function changedForms(command, document) {
  return KINDS.flatMap((kind) => kind(command, document)).map((change) => ({ ...command, ...change }));
}

// How many differences were planted in a command, and how many of them no rule explains. A change that brings the play no
// farther from the browser's plants none: the browser differs there by itself.
function foundAt(scenario, played, plain, at) {
  const { place, engine, browser, differences } = plain[at];
  const farther = changedForms(engine, documentAt(scenario, place))
    .map((changed) => compared(scenario, played.browser, place, changed, browser))
    .filter((changed) => changed.differences.length > differences.length);
  const isFound = (changed) => explainedAt(scenario, played.browser, withAt(plain, at, changed), at, played.version).differences
    .some((difference) => difference.rule === null);
  return { planted: farther.length, found: farther.filter(isFound).length };
}

// The same of all commands that both sides have played.
function foundPlanted(scenario, commands, played) {
  const plain = comparePlays(scenario, commands, played);
  const sums = plain.map((one, at) => (one.engine === undefined || one.browser === undefined ? { planted: 0, found: 0 }
    : foundAt(scenario, played, plain, at)));
  return sums.reduce((sum, one) => ({ planted: sum.planted + one.planted, found: sum.found + one.found }),
    { planted: 0, found: 0 });
}

module.exports = { foundPlanted, changedForms };
