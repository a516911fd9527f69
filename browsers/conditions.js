"use strict";

// When a rule explains a difference: a condition is data (browsers/rules/*.json), and made of
//   "a test"                    a word of facts/, which holds or not
//   {"a value": what it is}     a value of facts/: a text, a number or null that it equals, a list of which one fits,
//                               {"form": a regular expression, "flags": ".."}, or {"value": another value's name};
//                               of a value that is a list one item must fit
//   {"a test": argument}        a test that takes something, often a condition of its own
//   [..], {"all": [..]}         all of these hold; so do all keys of an object
//   {"any": [..]}, {"not": ..}  one of these; not this one

const { VALUES, TESTS } = require("./facts.js");

const FORMS = new Map();

function formOf({ form, flags = "" }) {
  const key = flags + "/" + form;
  if (!FORMS.has(key)) {
    FORMS.set(key, new RegExp(form, flags));
  }
  return FORMS.get(key);
}

function fitsOne(value, wanted, difference, context) {
  if (wanted === null || typeof wanted !== "object") {
    return value === wanted;
  }
  return wanted.value === undefined ? value !== null && formOf(wanted).test(value)
    : value === VALUES[wanted.value](difference, context);
}

function fits(value, wanted, difference, context) {
  const values = Array.isArray(value) ? value : [value];
  return values.some((one) => [].concat(wanted).some((other) => fitsOne(one, other, difference, context)));
}

function holdsKey(name, argument, difference, context) {
  const holdsOne = (condition) => holds(condition, difference, context);
  switch (name) {
    case "all": return argument.every(holdsOne);
    case "any": return argument.some(holdsOne);
    case "not": return !holdsOne(argument);
    default: return name in VALUES ? fits(VALUES[name](difference, context), argument, difference, context)
      : TESTS[name](difference, context, argument, holds);
  }
}

// Whether this condition holds of a difference, in the context that explained.js gives.
function holds(condition, difference, context) {
  if (typeof condition === "string") {
    return TESTS[condition](difference, context);
  }
  return Array.isArray(condition) ? condition.every((one) => holds(one, difference, context))
    : Object.keys(condition).every((name) => holdsKey(name, condition[name], difference, context));
}

// The words of a condition that facts/ has not, and forms that are none.
function faultsOf(condition) {
  if (typeof condition === "string") {
    return condition in TESTS ? [] : ["there is no test " + JSON.stringify(condition)];
  }
  if (Array.isArray(condition)) {
    return condition.flatMap(faultsOf);
  }
  return Object.entries(condition).flatMap(([name, argument]) => {
    if (["all", "any", "not"].includes(name) || (TESTS[name] || {}).takesCondition) {
      return faultsOf(argument);
    }
    return name in VALUES ? [].concat(argument).flatMap(valueFaults)
      : name in TESTS ? [] : ["there is no test and no value " + JSON.stringify(name)];
  });
}

function valueFaults(wanted) {
  if (wanted === null || typeof wanted !== "object") {
    return [];
  }
  if (wanted.value !== undefined) {
    return wanted.value in VALUES ? [] : ["there is no value " + JSON.stringify(wanted.value)];
  }
  try {
    formOf(wanted);
    return [];
  } catch (error) {
    return [error.message];
  }
}

module.exports = { holds, faultsOf };
