"use strict";

// What a slow machine makes of the preflight cache: an entry runs out there between two commands that the engine plays
// within its age. The arrivals' own clock says whether it did.

const { keyOf, urlOf, callsBefore, coversOf, isPreflightLess, explainsPreflightMore } = require("./facts/looked.js");

const SLACK = 100; // milliseconds between a preflight's arrival and its entry, or between two looks at the clock

// When requests of this key arrived, in the commands before and in this one.
function arrivalsOf(context, key) {
  const commands = [...context.before.map((compared) => compared.browser), context.theirs];
  return commands.flatMap((command) => (command === undefined ? [] : command.requests))
    .filter((request) => keyOf(request) === key && request.at !== undefined).map((request) => request.at);
}

// What the engine's cache was taught of this URL before.
const learntOf = (context, url) => callsBefore(context, "learn").filter((call) => call.url.replace(/#.*$/, "") === url);

// Whether an entry that covers the URL here had run out there: between its last two preflights an age has passed.
function hasRunOut(context, url) {
  const asked = coversOf(context, url);
  const [before, last] = arrivalsOf(context, "OPTIONS " + url).slice(-2);
  return asked !== null && asked.reply === "yes" && last !== undefined
    && learntOf(context, url).some(({ age }) => last - before + SLACK >= age * 1000);
}

// Whether an entry that has run out here lived there: its age had not passed since its preflight.
function isAlive(context, url) {
  const asked = coversOf(context, url);
  const [preflight] = arrivalsOf(context, "OPTIONS " + url).slice(-1);
  const now = context.theirs.requests.find((request) => request.origin + request.target === url);
  return asked !== null && asked.reply === "no" && preflight !== undefined && now !== undefined && now.at !== undefined
    && learntOf(context, url).some(({ at, age }) => asked.at - at >= age && now.at - preflight <= age * 1000 + SLACK);
}

const CLOCK = { name: "clock", what: "by the arrivals' clock its entry of the preflight cache had run out, or had not yet",
  sometimes: true, browsers: [] };

// The rule of time, where it explains a difference; null where it does not.
function ruleOfTime(difference, context) {
  const isLess = isPreflightLess(difference) && isAlive(context, urlOf(difference.engine));
  return isLess || explainsPreflightMore(difference, context, (url) => hasRunOut(context, url)) ? CLOCK : null;
}

module.exports = { ruleOfTime };
