"use strict";

// Violations, as compare.js writes them: `POLICY enforce|report DIRECTIVE URL`.

const { isOwnRequest, isFailure, hostOf, isAddress, isOfOwnUrl } = require("./looked.js");
const { violationDifferences } = require("../compare.js");
const { policiesOf } = require("../scenario.js");

const isReport = (told) => told !== null && / report /.test(told);
const countOf = (violations, told) => violations.filter((one) => [one.policy, one.enforced ? "enforce" : "report",
  one.directive, one.url.replace(/#.*$/, "")].join(" ") === told).length;

// ---- report-only policies

// The engine tells a report-only policy at the response once more; a browser does not.
function isToldOnceMore(difference, context) {
  return difference.what === "violation" && isReport(difference.engine) && difference.browser === null
    && countOf(context.ours.violations, difference.engine) === countOf(context.theirs.violations, difference.engine) + 1
    && countOf(context.theirs.violations, difference.engine) > 0;
}

// A browser tells once more what the engine tells.
function isToldThereOnceMore(difference, context) {
  const told = difference.browser;
  return difference.what === "violation" && isReport(told) && difference.engine === null
    && countOf(context.ours.violations, told) > 0
    && countOf(context.theirs.violations, told) === countOf(context.ours.violations, told) + 1;
}

// Whether what violates a report-only policy is told here at the response as well.
const isToldAtResponse = (difference, context) => ["response", "loaded"].includes(context.ours.result.result)
  && countOf(context.ours.behindLast, difference.browser) > 0;

// What is told here at the response of a URL that was upgraded behind the request, and at the request of the http URL.
function isOfUpgraded(difference, context) {
  if (difference.what !== "violation" || !isReport(difference.engine)) {
    return false;
  }
  const ofHttp = difference.engine.replace(/ https:([^ ]*)$/, " http:$1");
  return ofHttp !== difference.engine && isOfOwnUrl(difference.engine, context)
    && countOf(context.theirs.violations, difference.engine) === 0
    && countOf(context.ours.violations, ofHttp) > 0 && countOf(context.theirs.violations, ofHttp) > 0;
}

// ---- words of policies

// Which directive of a policy decides about what an effective one names (docs/rules/csp.md).
const FALLBACKS = { "style-src-elem": ["style-src-elem", "style-src", "default-src"],
  "script-src-elem": ["script-src-elem", "script-src", "default-src"] };

// The words by which a policy decides about an effective directive.
function wordsOf(policy, effective) {
  const directives = policy.text.split(";").map((part) => part.trim().split(/\s+/));
  const names = FALLBACKS[effective] || [effective, "default-src"];
  const deciding = names.map((name) => directives.find(([one]) => one.toLowerCase() === name)).find(Boolean);
  return deciding === undefined ? [] : deciding.slice(1);
}

// The violations of the command's own URL that one side alone tells, where one of the policy's words fits.
function toldByOne(context, side, fitsWord) {
  const policies = policiesOf(context.document);
  return violationDifferences(context.ours, context.theirs).map((difference) => difference[side])
    .filter((told) => told !== null && isOfOwnUrl(told, context))
    .filter((told) => {
      const [number, , effective, url] = told.split(" ");
      return wordsOf(policies[number], effective).some((word) => fitsWord(word, url));
    });
}

// What one side alone refuses: its violation, and where the policy is enforced the requests and the result, too.
function isRefusedByOne(difference, context, side, told) {
  const other = side === "engine" ? "browser" : "engine";
  if (difference.what === "violation") {
    return told.includes(difference[side]);
  }
  const enforced = told.some((one) => / enforce /.test(one));
  return enforced && ((isOwnRequest(difference, context) && difference[side] === null)
    || (difference.what === "result" && isFailure(difference[side]) && !isFailure(difference[other])));
}

// What one side alone refuses by a word of one of these forms, each for URLs of its own form.
const refusedBy = (side) => (difference, context, forms) => {
  const fits = [].concat(forms).map(({ word, url = "" }) => [new RegExp(word, "i"), new RegExp(url, "i")]);
  return isRefusedByOne(difference, context, side, toldByOne(context, side, (one, other) => fits
    .some(([word, url]) => word.test(one) && url.test(other))));
};

const VALUES = {
  "policies": (_, context) => policiesOf(context.document).map((policy) => policy.text),
};

const TESTS = {
  "here tells it once more": isToldOnceMore,
  "there tells it once more": isToldThereOnceMore,
  "here tells it at the response, too": isToldAtResponse,
  "here tells it of the upgraded URL": isOfUpgraded,
  "there violates an enforced policy": (_, context) => context.theirs.violations.some(({ enforced }) => enforced),
  "there tells it of the own URL": (difference, context) => difference.what === "violation" && difference.engine === null
    && isOfOwnUrl(difference.browser, context),
  "is refused here alone by a word": refusedBy("engine"),
  "is refused there alone by a word": refusedBy("browser"),
  "a URL has an address": (_, context) => [context.asked.url || "", ...[...context.ours.requests, ...context.theirs.requests]
    .map((one) => one.origin + one.target)].some((url) => isAddress(hostOf(url))),
};

module.exports = { VALUES, TESTS };
