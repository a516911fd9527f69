"use strict";

// Requests that one side alone sent, their headers, and cookies.

const engineNames = require("../../schema/names.json");
const { isRequest, isHeader, isPreflightMore, isPreflightLess, urlOf, methodOf, keyOf, hostOf, originOf, documentOrigin,
  isSecurePage, isAfterDetour, referrerPolicyOf, answerTo, valuesOf, cookieOf, isOwnRequest, isOwnRequestLess,
  isOwnRequestMore } = require("./looked.js");

const siteOf = (url) => hostOf(url).split(".").slice(-2).join(".");
const media = (command) => command !== undefined && command.command.load !== undefined
  && engineNames.effective_directives[command.command.load.kind] === "media-src";
const commandsSoFar = (context) => [...context.before.map((compared) => compared.engine), context.ours];

// The cookies that answers to earlier requests to this host have set.
function setBefore(context, host) {
  const requests = commandsSoFar(context).flatMap((command) => (command ? command.requests : []));
  return requests.filter((request) => hostOf(request.origin) === host)
    .flatMap((request) => valuesOf(answerTo(context, keyOf(request)), "set-cookie"));
}

// Whether an earlier request has a shorter Referer: what is cut stays so.
function isCutBefore(difference, context) {
  const at = context.ours.requests.findIndex((request) => keyOf(request) === difference.request);
  return context.ours.requests.slice(0, Math.max(at, 0)).some(({ headers }) => headers
    .some(([name, value]) => name === "Referer" && value.length < difference.engine.length));
}

// The three cases in which a referrer policy makes the Origin of a no-cors request null (docs/rules/request-head.md).
function isNullByPolicy(context, key) {
  const policy = referrerPolicyOf(context, key);
  const isDowngrade = isSecurePage(context) && !urlOf(key).startsWith("https:");
  return policy === "no-referrer"
    || (policy === "same-origin" && originOf(urlOf(key)) !== documentOrigin(context))
    || (isDowngrade && ["no-referrer-when-downgrade", "strict-origin", "strict-origin-when-cross-origin"].includes(policy));
}

// Whether the browser's value is that of the lines behind the last empty one of this name.
function isLeftBehind(difference, context) {
  const values = (context.asked.headers || []).filter(([name]) => name.toLowerCase() === difference.name)
    .map(([, value]) => value.trim());
  return values.length > 1 && values.includes("")
    && difference.browser === values.slice(values.lastIndexOf("") + 1).join(", ");
}

// Whether the other side sends this request, too, with the pipes of its URL written otherwise.
const encoded = (url) => url.replaceAll("|", "%7C");

function isPairedByPipe(difference, context) {
  const other = difference.engine === null ? context.ours : context.theirs;
  return other.requests.some((request) => encoded(keyOf(request)) === encoded(difference.engine || difference.browser));
}

// Whether both sides send a preflight that a detour led to, with Origin null here, and the page's there.
function hasPageOrigin(context) {
  const originIn = ({ headers }) => (headers.find(([name]) => name.toLowerCase() === "origin") || [])[1];
  return context.ours.requests.filter((request) => request.method === "OPTIONS" && originIn(request) === "null")
    .filter((request) => isAfterDetour(context, keyOf(request)))
    .some((request) => context.theirs.requests.some((other) => keyOf(other) === keyOf(request)
      && originIn(other) === documentOrigin(context)));
}

// Whether this request of the engine's is behind the first one to another origin than the page's, where what the page gave
// of Authorization was dropped.
function isBehindDrop(difference, context) {
  const sent = context.ours.requests.filter((request) => request.method !== "OPTIONS");
  const dropped = sent.findIndex((request, at) => at > 0 && request.origin !== sent[at - 1].origin);
  const at = sent.findIndex((request) => keyOf(request) === difference.request);
  return dropped >= 0 && at > dropped;
}

const hasOtherOrigin = (difference, context) => (context.scenario.cookies || [])
  .some(([origin]) => hostOf(origin) === hostOf(urlOf(difference.request)) && origin !== originOf(urlOf(difference.request)));

const TESTS = {
  "is a request": (difference) => isRequest(difference),
  "is a request by GET": (difference) => isRequest(difference, "GET "),
  "is of its own request": isOwnRequest,
  "its own request is not sent there": isOwnRequestLess,
  "its own request is sent there alone": isOwnRequestMore,
  "a preflight more": isPreflightMore,
  "a preflight less": isPreflightLess,
  "is the header": (difference, context, name) => isHeader(difference, name),
  "is the scenario's cookie": (difference, context) => isHeader(difference, "cookie")
    && [null, cookieOf(context, urlOf(difference.request))].includes(difference.engine),
  "an answer of the host has set a cookie": (difference, context) =>
    setBefore(context, hostOf(urlOf(difference.request))).length > 0,
  "there begins as here": (difference) => difference.browser !== null && difference.browser.startsWith(difference.engine || ""),
  "another origin of the host has cookies": hasOtherOrigin,
  "it was asked for as audio or video": (difference, context) => commandsSoFar(context).filter(media)
    .some((command) => command.requests.map(keyOf).includes(difference.browser)),
  "is asked again at most": (difference, context, most) => context.theirs.requests.map(keyOf)
    .filter((key) => key === difference.browser).length <= most,
  "here sends it, too": (difference, context) => context.ours.requests.map(keyOf).includes(difference.browser),
  "here sends something": (_, context) => context.ours.requests.length > 0,
  "here sends several": (_, context) => context.ours.requests.length > 1,
  "is the first request here": (difference, context) => keyOf(context.ours.requests[0]) === difference.request,
  "the Referer was cut before": isCutBefore,
  "the referrer policy makes Origin null": (difference, context) => isNullByPolicy(context, difference.request),
  "a preflight behind a detour has the page's Origin there": (_, context) => hasPageOrigin(context),
  "is behind the hop that dropped Authorization": isBehindDrop,
  "is behind a request to another site": (difference, context) => context.ours.requests
    .slice(0, Math.max(context.ours.requests.findIndex((request) => keyOf(request) === difference.request), 0))
    .some(({ origin }) => siteOf(origin) !== siteOf(context.document.url)),
  "is behind a detour": (difference, context) => isAfterDetour(context, difference.request),
  "there has the lines behind an empty one": isLeftBehind,
  "there names each as often as it is given": (difference) => difference.browser !== null
    && [...new Set(difference.browser.split(","))].join(",") === difference.engine,
  "the other side has its pipes encoded": isPairedByPipe,
  "there has the pipes of here encoded": (difference) => difference.browser === encoded(difference.engine),
};

module.exports = { TESTS };
