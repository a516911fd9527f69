"use strict";

// An observation out of a recording (HAR) of the scenario's page. Its entries are given to the commands in order: a command
// has the entry of its own URL, the preflight before it, and those that redirects lead to.

const { observedCommands } = require("./commands.js");
const { BadObservation } = require("../observation.js");

const REDIRECTS = 20; // that a fetch follows

const bare = (text, base) => {
  try {
    const url = new URL(text, base);
    return url.host + url.pathname + url.search;
  } catch {
    return null;
  }
};

const pairsOf = (headers) => (headers || []).filter(({ name }) => !name.startsWith(":")).map(({ name, value }) => [name, value]);

function valueOf(headers, name) {
  const found = (headers || []).find((header) => header.name.toLowerCase() === name);
  return found === undefined ? null : found.value;
}

const isPreflight = ({ request }) => request.method === "OPTIONS"
  && valueOf(request.headers, "access-control-request-method") !== null;

const startOf = ({ startedDateTime }) => Date.parse(startedDateTime);

const isFor = (preflight, entry) => entry !== undefined && entry.request.url === preflight.request.url
  && entry.request.method === valueOf(preflight.request.headers, "access-control-request-method");
const isWithin = (preflight, entry) => startOf(entry) + (entry.time || 0) > startOf(preflight);

// The entries in order of time, each preflight before the request that it is for: Chromium begins to count that one first.
function ordered(entries) {
  const list = entries.filter(({ request }) => /^https?:/i.test(request.url))
    .sort((one, other) => startOf(one) - startOf(other));
  list.filter(isPreflight).forEach((preflight) => {
    const at = list.indexOf(preflight);
    const [before, next] = [list[at - 1], list[at + 1]];
    if (isFor(preflight, before) && (isWithin(preflight, before) || !isFor(preflight, next))) {
      list.splice(at - 1, 2, preflight, before);
    }
  });
  return list;
}

// Whether an entry goes on with the command of the entry before it.
function isNext(entry, before) {
  const led = before.response.redirectURL || valueOf(before.response.headers, "location");
  return isPreflight(before) ? !isPreflight(entry) && entry.request.url === before.request.url
    : Boolean(led) && bare(entry.request.url) === bare(led, before.request.url);
}

// Whether the browser led the request on by itself, as to a known host: then nothing was sent.
const isInternal = ({ response }) => valueOf(response.headers, "non-authoritative-reason") !== null
  || response.statusText === "Internal Redirect";

// Chromium records the headers of a failed request before it adds its own, so that there is no Host.
function requestOf({ request, startedDateTime }) {
  const url = new URL(request.url);
  const body = request.postData && request.postData.text;
  const sent = body === undefined ? {} : { body: Buffer.from(body, "utf8").toString("hex") };
  const headers = valueOf(request.headers, "host") === null ? {} : { headers: pairsOf(request.headers) };
  return { origin: url.origin, method: request.method, target: url.pathname + url.search, ...headers, ...sent,
    at: Date.parse(startedDateTime) };
}

// The requests of a command, where all were sent for sure: of one without an answer nothing tells whether it was.
function requestsOf(entries) {
  const isSure = entries.every(({ response }) => response.status > 0);
  return isSure ? { requests: entries.filter((entry) => !isInternal(entry)).map(requestOf) } : {};
}

// What the page saw, as far as a recording tells it: an error of the network, or in Chromium the status of an answer that
// the page could read. Whether Firefox kept an answer back is not recorded.
function resultOf(entries, command, browser) {
  const last = entries[entries.length - 1];
  if (last === undefined) {
    return {};
  }
  const error = last.response._error || last._error;
  if (error) {
    return { result: { result: command.load === undefined ? "error" : "failed" }, reasons: [error] };
  }
  const { mode, redirect } = command.fetch || { mode: "none" };
  const isRead = browser === "chromium" && [undefined, "cors", "same-origin"].includes(mode)
    && [undefined, "follow"].includes(redirect) && last.response.status > 0;
  return isRead ? { result: { result: "response", type: null, status: last.response.status } } : {};
}

// The entries of a command at the beginning of the rest.
function takenFor(url, rest) {
  const taken = [];
  const isFirst = (entry) => url !== null && bare(entry.request.url) === bare(url.href);
  const isOpen = () => taken.filter((entry) => !isPreflight(entry)).length <= REDIRECTS;
  while (rest.length > 0 && isOpen() && (taken.length === 0 ? isFirst(rest[0]) : isNext(rest[0], taken[taken.length - 1]))) {
    taken.push(rest.shift());
  }
  return taken;
}

const NAMES = [["firefox", /firefox/i], ["chromium", /webinspector|chrom/i]];

function browserOf({ creator, browser }) {
  const named = [browser, creator].filter(Boolean);
  const known = NAMES.find(([, form]) => named.some(({ name }) => form.test(name)));
  const version = (named[0] || {}).version || "unknown";
  return { browser: known === undefined ? "unknown" : known[0], version };
}

function fromHar(scenario, text) {
  const { log } = JSON.parse(text);
  const [document] = scenario.documents;
  const own = new URL(document.url);
  own.hash = "";
  const rest = ordered(log.entries).filter(({ request }) => !request.url.endsWith("/favicon.ico"));
  if (rest.length > 0 && rest[0].request.url === own.href) {
    rest.shift();
  }
  const program = browserOf(log);
  const commands = observedCommands(scenario, (command, url) => {
    const entries = takenFor(url, rest);
    return { ...requestsOf(entries), ...resultOf(entries, command, program.browser) };
  });
  if (rest.length > 0) {
    throw new BadObservation("no command asks for " + rest[0].request.method + " " + rest[0].request.url);
  }
  return { ...program, commands };
}

module.exports = { fromHar };
