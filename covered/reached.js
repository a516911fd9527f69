"use strict";

// Which points a play reaches: it is asked command by command, with the calls of all commands before it.

const { readCommands } = require("../browsers/engine.js");
const { policiesOf } = require("../browsers/scenario.js");
const { ruleFor } = require("../browsers/scripted.js");
const { originOf, referrerPolicyOf, keyOf, isSecurePage, valuesOf, answerTo } = require("../browsers/facts/looked.js");
const names = require("../schema/names.json");
const { FORMS } = require("./points.js");

const valueOf = ({ headers }, name) => (headers.find(([one]) => one.toLowerCase() === name) || [null, null])[1];
const isPreflight = (request) => request.method === "OPTIONS" && valueOf(request, "access-control-request-method") !== null;

// ---- results

function* resultPoints({ command, ours }) {
  const { result } = ours;
  if (result.result === "response") {
    yield "response/" + result.type;
  } else if (result.name !== null && result.name !== undefined) {
    yield (result.fault ? "fault/" : "error/") + result.name;
  }
  if (command.load !== undefined) {
    yield "load/" + command.load.kind + (result.result === "loaded" ? " loaded" : " failed");
  }
}

// ---- the preflight cache

const alike = (call) => (other) => other.key === call.key && other.url === call.url;

// What a question of the cache shows, with what the cache was taught before.
function* coversPoints(call, learnt) {
  const same = learnt.filter(alike(call));
  const own = same.filter((other) => other.origin === call.origin);
  if (call.origin === "null") {
    yield "covers for an opaque origin";
  }
  if (call.reply === "yes") {
    yield* ["covers", ...(call.credentials === "include" ? ["covers with credentials"] : []),
      ...(own.some((other) => !other.methods.includes(call.method) && other.methods.includes("*")) ? ["covers by a star"] : [])];
    return;
  }
  yield "asks and is not covered";
  if (own.some((other) => other.age > 0 && call.at >= other.at + other.age)) {
    yield "an entry has run out";
  }
  if (own.some((other) => call.at < other.at + other.age && other.credentials === "other" && call.credentials === "include")) {
    yield "other credentials do not cover";
  }
  if (same.some((other) => other.origin !== call.origin && call.at < other.at + other.age)) {
    yield "another page does not cover";
  }
}

function* learnPoints(call, learnt, ages) {
  yield* ["learns", ...(call.credentials === "include" ? ["learns with credentials"] : []),
    ...(call.age === 0 ? ["learns for no time"] : []), ...(call.age === 7200 ? ["learns for the longest age"] : []),
    ...(call.age === 5 && !ages.includes("5") ? ["learns for the default age"] : []),
    ...(call.methods.some((one) => one !== "*") ? ["learns a method"] : []),
    ...(call.names.some((one) => one !== "*") ? ["learns a name"] : []),
    ...([...call.methods, ...call.names].includes("*") ? ["learns a star"] : [])];
  if (learnt.filter(alike(call)).some((other) => call.at < other.at + other.age && call.methods.some((one) => other.methods.includes(one)))) {
    yield "an answer prolongs";
  }
}

function* cachePoints(context) {
  const learnt = context.calls.filter(({ op }) => op === "learn");
  for (const call of context.ours.calls) {
    if (call.op === "covers") {
      yield* coversPoints(call, learnt);
    } else if (call.op === "learn") {
      yield* learnPoints(call, learnt, valuesOf(answerTo(context, "OPTIONS " + call.url), "access-control-max-age"));
      learnt.push(call);
    } else if (call.op === "clear" && learnt.some(alike({ ...call, key: call.key || (learnt[0] || {}).key }))) {
      yield "a failure clears";
    }
  }
}

// ---- known hosts

function* hostPoints({ scenario, calls, ours }) {
  const known = [...(scenario.hsts || []), ...calls.filter(({ op }) => op === "note")];
  for (const call of ours.calls) {
    if (call.op === "match") {
      yield call.reply === "yes" ? "is known" : "is not known";
      const isParent = call.reply === "yes" && !known.some(({ host }) => host === call.host);
      yield* isParent ? ["is known by its parent"] : [];
      yield* call.reply === "no" && known.some(({ host, until = 0 }) => host === call.host && until <= call.at) ? ["has run out"] : [];
    } else if (call.op === "note") {
      known.push(call);
      yield call.age === 0 ? "is taken off" : "is noted";
    }
  }
}

// ---- steps

const hop = (context) => context.ours.requests.filter((request) => !isPreflight(request));
const answerOf = (context, request) => ruleFor(context.scenario, request.origin, request.method, request.target) || { status: 0 };

function* redirectPoints(context) {
  const sent = hop(context);
  for (const [at, request] of sent.entries()) {
    const before = sent[at - 1];
    if (before === undefined) {
      continue;
    }
    yield "a redirect by " + answerOf(context, before).status;
    if (request.method !== before.method) {
      yield before.method === "POST" ? "a redirect makes POST a GET" : "a redirect makes another method a GET";
    } else if (request.body !== "") {
      yield "a redirect keeps a method and a body";
    }
    if (request.origin !== before.origin) {
      yield "a redirect across origins";
      yield* valueOf(before, "authorization") !== null && valueOf(request, "authorization") === null ? ["a redirect drops Authorization"] : [];
      yield* valueOf(request, "origin") === "null" && valueOf(before, "origin") !== "null" ? ["a redirect taints the origin"] : [];
    }
    yield* valuesOf(answerOf(context, before), "referrer-policy").length > 0 ? ["a redirect changes the referrer policy"] : [];
    yield* isPreflight(context.ours.requests[context.ours.requests.indexOf(request) - 1] || { headers: [] }) ? ["a redirect is preflighted"] : [];
  }
}

function* preflightPoints(context) {
  for (const [at, request] of context.ours.requests.entries()) {
    if (isPreflight(request)) {
      const next = context.ours.requests[at + 1];
      yield* next !== undefined && !isPreflight(next) ? ["a preflight passes"] : [];
      yield valueOf(request, "access-control-request-headers") === null ? "a preflight for a method" : "a preflight for a header";
    }
  }
  yield* context.asked.upload === true && context.ours.requests.some(isPreflight) ? ["an upload listener asks"] : [];
  yield* context.ours.result.type === "cors" && !context.ours.requests.some(isPreflight) ? ["no preflight of a safelisted request"] : [];
}

function* headPoints(context) {
  for (const request of hop(context)) {
    const [origin, referer] = [valueOf(request, "origin"), valueOf(request, "referer")];
    const isCors = context.command.fetch === undefined ? names.cors_loads.includes(context.asked.kind) || context.asked.crossorigin !== undefined
      : [undefined, "cors"].includes(context.asked.mode);
    yield origin === null ? "no Origin is sent" : origin === "null" ? "Origin is null"
      : isCors ? "Origin is sent in mode cors" : "Origin is sent outside mode cors";
    yield referer === null ? "no Referer" : /^https?:\/\/[^/]*\/$/.test(referer) ? "a Referer of the origin" : "a Referer in full";
    const hasCookies = (context.scenario.cookies || []).some(([one]) => one === request.origin);
    yield* valueOf(request, "cookie") !== null ? ["cookies are sent"] : hasCookies ? ["cookies are left out"] : [];
    yield* request.body !== "" ? ["a body is sent"] : valueOf(request, "content-length") === "0" ? ["Content-Length 0"] : [];
  }
}

function isUpgradedBy(context) {
  const [first] = context.ours.requests;
  const isHttp = /^http:/i.test(new URL(context.asked.url || "", context.document.url).href);
  if (first === undefined || !isHttp || !first.origin.startsWith("https:")) {
    return [];
  }
  const isKnown = context.ours.calls.some((call) => call.op === "match" && call.reply === "yes");
  const isByPolicy = policiesOf(context.document).some(({ text, enforced }) => enforced && /upgrade-insecure-requests/i.test(text));
  return [isKnown ? "an http URL of a known host is upgraded" : isByPolicy ? "an http URL is upgraded by a policy"
    : "an http URL is upgraded as mixed content"];
}

function* answerPoints(context) {
  const { result, requests } = context.ours;
  const last = requests.length === 0 ? null : answerTo(context, keyOf(requests[requests.length - 1]));
  const exposed = valuesOf(last, "access-control-expose-headers").join(",");
  if (result.result === "response") {
    yield* ["cut", "hang", "fault"].includes(result.body.end) ? ["a body is cut off"] : result.body.end === "none" && [204, 205, 304].includes(result.status) ? ["a null body status"] : [];
    yield* result.type === "opaque" ? ["an opaque answer hides all"] : [];
    const told = result.headers.map(([name]) => name.toLowerCase());
    const all = ((last || {}).headers || []).map(([name]) => name.toLowerCase());
    yield* result.type === "cors" && all.some((name) => !told.includes(name)) ? ["headers are hidden"] : [];
    yield* result.type === "cors" && exposed === "*" && told.length > 0 ? ["headers are exposed by a star"] : [];
    yield* result.type === "cors" && exposed.split(",").some((name) => told.includes(name.trim().toLowerCase())) ? ["headers are exposed by name"] : [];
  }
  yield* context.asked.integrity && ["response", "loaded"].includes(result.result) ? ["integrity fits"] : [];
  yield* context.asked.kind === "script" && context.asked.parser !== false ? ["a parser-inserted script"] : [];
}

function* stepPoints(context) {
  yield* preflightPoints(context);
  yield* redirectPoints(context);
  yield* headPoints(context);
  yield* answerPoints(context);
  try {
    yield* isUpgradedBy(context);
  } catch {
    // The URL is none: nothing is upgraded.
  }
}

// ---- policies

const FALLBACKS = { "style-src-elem": ["style-src-elem", "style-src", "default-src"],
  "script-src-elem": ["script-src-elem", "script-src", "default-src"] };

function wordsOf(policy, effective) {
  const directives = policy.text.split(";").map((part) => part.trim().split(/\s+/));
  const deciding = (FALLBACKS[effective] || [effective, "default-src"])
    .map((name) => directives.find(([one]) => one.toLowerCase() === name)).find(Boolean);
  return deciding === undefined ? null : deciding.slice(1);
}

function* policyPoints({ document, asked, command, ours }) {
  const effective = names.effective_directives[command.fetch === undefined ? asked.kind : "fetch"];
  for (const [number, policy] of policiesOf(document).entries()) {
    const words = wordsOf(policy, effective);
    const isTold = ours.violations.some((one) => one.policy === number);
    if (words !== null && (isTold || ours.requests.length > 0)) {
      yield "directive/" + effective + (policy.enforced ? " enforced" : " report-only") + (isTold ? " is violated" : " passes");
      for (const form of Object.keys(FORMS).filter((one) => words.length === 1 && FORMS[one].test(words[0]))) {
        yield "source/" + form + (isTold ? " refuses" : " matches");
      }
    }
  }
}

// ---- referrers

function* referrerPoints(context) {
  for (const request of hop(context)) {
    const isDown = isSecurePage(context) && request.origin.startsWith("http:");
    const where = isDown ? "http of the loopback" : request.origin === originOf(context.document.url) ? "the same origin" : "another origin";
    yield referrerPolicyOf(context, keyOf(request)) + " to " + where;
  }
}

// ---- all of it

const prefixed = (group, points) => [...points].map((one) => group + "/" + one);

function pointsOf(context) {
  return [...resultPoints(context), ...policyPoints(context), ...prefixed("cache", cachePoints(context)),
    ...prefixed("known host", hostPoints(context)), ...prefixed("step", stepPoints(context)),
    ...prefixed("referrer", referrerPoints(context))];
}

// The names of the points that a printed play of a scenario reaches.
function reachedBy(scenario, text) {
  const calls = [];
  const all = scenario.documents.flatMap((document, number) => readCommands(text, document, number)
    .map((ours) => ({ document, ours })));
  const firstLine = ({ ours }) => Math.min(Infinity, ...ours.calls.map(({ line }) => line));
  const found = all.sort((one, other) => firstLine(one) - firstLine(other)).flatMap(({ document, ours }) => {
    const context = { scenario, document, ours, command: ours.command, calls: [...calls],
      asked: ours.command.fetch || ours.command.load };
    calls.push(...ours.calls);
    return pointsOf(context);
  });
  return new Set(found);
}

module.exports = { reachedBy };
