"use strict";

// What the checks have beside node:test: cases that are compared one after another, whatever came of the others.
// reporter.js writes what came of them.

const assert = require("node:assert/strict");
const { isDeepStrictEqual } = require("util");

const PATIENCE = 120000; // milliseconds, for what a page does by itself

// A case: a test of its own, whose name is told where the two differ. To be awaited.
function compare(context, name, got, wanted) {
  return context.test(name, () => assert.deepEqual(got, wanted));
}

function pause(milliseconds) {
  return new Promise((resolve) => setTimeout(resolve, milliseconds));
}

// Asks until the answer is good, or for as long as a page may take. Gives the last answer.
async function once(ask, isGood) {
  let answer = await ask();
  for (const end = Date.now() + PATIENCE; !isGood(answer) && Date.now() < end; answer = await ask()) {
    await pause(50);
  }
  return answer;
}

// A case of the value of an expression of a page: a key or a click may take a moment to do what it does. To be awaited.
async function compareSoon(context, browser, name, expression, wanted) {
  const got = await once(() => browser.value(expression), (value) => isDeepStrictEqual(value, wanted));
  return compare(context, name, got, wanted);
}

// A part that is left out, and why. To be awaited.
function leave(context, part) {
  return context.test(part, { skip: true });
}

module.exports = { compare, compareSoon, leave, once, pause };
