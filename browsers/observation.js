"use strict";

// An observation: what any engine did with a scenario (schema/observation.schema.json). What it leaves out was not seen,
// and is not compared.

const { faultOf } = require("./schema.js");
const schema = require("../schema/observation.schema.json");

class BadObservation extends Error {
  constructor(sentence) {
    super("no observation: " + sentence);
    this.name = "BadObservation";
  }
}

function readJson(text) {
  try {
    return JSON.parse(text);
  } catch (error) {
    throw new BadObservation(error.message);
  }
}

// The observation in this text, or why there is none.
function readObservation(text) {
  const value = readJson(text);
  const found = faultOf(schema, value);
  if (found !== null) {
    throw new BadObservation(found.place + ": " + found.sentence);
  }
  return value;
}

// The text of an observation, a command on a line.
function observationText({ browser, version, commands }) {
  const lines = commands.map(({ place, requests, violations, result, reasons }) => "\n  "
    + JSON.stringify({ place, requests, violations, result, reasons })).join(",");
  return "{\"browser\": " + JSON.stringify(browser) + ", \"version\": " + JSON.stringify(version) + ",\n \"commands\": ["
    + lines + "]}\n";
}

module.exports = { readObservation, observationText, BadObservation };
