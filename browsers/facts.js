"use strict";

// The vocabulary of conditions: values, which are compared, and tests, which hold or not, each of a difference and its
// context (explained.js).

const parts = ["asked", "requests", "preflights", "redirects", "policies", "upgrades", "answers"]
  .map((name) => require("./facts/" + name + ".js"));

const VALUES = Object.assign({}, ...parts.map((part) => part.VALUES || {}));
const TESTS = Object.assign({}, ...parts.map((part) => part.TESTS || {}));

module.exports = { VALUES, TESTS };
