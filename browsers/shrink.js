"use strict";

// Makes a failing scenario smaller: it leaves out one part after the other as long as it still fails, until nothing can be
// left out any more.

const PARTS = ["script", "do", "then", "else", "servers", "rules", "headers", "cookies", "hsts"]; // lists without an order to keep
const NEEDED = ["format", "servers", "documents", "url", "kind", "status", "raw", "origin", "rules", "script", "fetch", "load",
  "wait", "if", "then", "repeat", "do", "host", "subdomains", "until", "top"];
const POLICY = /^content-security-policy/i;

const without = (list, at) => list.filter((_, index) => index !== at);

// A header line's value with one directive or one word less.
function* smallerPolicies(value) {
  const directives = value.split(";").map((one) => one.trim()).filter((one) => one !== "");
  for (let at = 0; directives.length > 1 && at < directives.length; at += 1) {
    yield without(directives, at).join("; ");
  }
  for (const [at, directive] of directives.entries()) {
    const words = directive.split(/\s+/);
    for (let word = 1; word < words.length; word += 1) {
      yield directives.map((one, index) => (index === at ? without(words, word).join(" ") : one)).join("; ");
    }
  }
}

function* smallerList(list, name) {
  if (PARTS.includes(name)) {
    for (let at = list.length - 1; at >= 0; at -= 1) {
      yield without(list, at);
    }
  }
  for (const [at, item] of list.entries()) {
    for (const smaller of smallerValues(item, "")) {
      yield list.map((one, index) => (index === at ? smaller : one));
    }
  }
}

// The values that have one part less than this one, the larger parts first.
function* smallerValues(value, name) {
  if (Array.isArray(value)) {
    if (typeof value[0] === "string" && POLICY.test(value[0])) {
      for (const policy of smallerPolicies(value[1])) {
        yield [value[0], policy];
      }
      return;
    }
    yield* smallerList(value, name);
  } else if (typeof value === "object" && value !== null) {
    for (const key of Object.keys(value).filter((one) => !NEEDED.includes(one))) {
      const { [key]: _, ...rest } = value;
      yield rest;
    }
    for (const key of Object.keys(value)) {
      for (const smaller of smallerValues(value[key], key)) {
        yield { ...value, [key]: smaller };
      }
    }
  }
}

// `fails` says of a scenario whether it still fails; what is no scenario any more does not.
async function shrunk(scenario, fails) {
  for (const smaller of smallerValues(scenario, "")) {
    if (await fails(smaller)) {
      return shrunk(smaller, fails);
    }
  }
  return scenario;
}

module.exports = { shrunk, smallerValues };
