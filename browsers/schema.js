"use strict";

// Reads a value by a JSON Schema (draft 2020-12), as far as the schemas of schema/ go that are read here: it says the first
// place where the value is otherwise, and why.

const TYPES = {
  object: (value) => typeof value === "object" && value !== null && !Array.isArray(value),
  array: Array.isArray,
  string: (value) => typeof value === "string",
  number: (value) => typeof value === "number",
  integer: Number.isInteger,
  boolean: (value) => typeof value === "boolean",
  null: (value) => value === null,
};

const told = (value) => JSON.stringify(value).slice(0, 60);
const fault = (place, sentence) => ({ place: place === "" ? "/" : place, sentence });

function typeFault(schema, value, place) {
  const types = [].concat(schema.type || []);
  const isOfOne = types.length === 0 || types.some((type) => TYPES[type](value));
  return isOfOne ? null : fault(place, told(value) + " is not of the type " + types.join(" or "));
}

function wordFault(schema, value, place) {
  if (schema.enum !== undefined && !schema.enum.includes(value)) {
    return fault(place, told(value) + " is none of " + schema.enum.join(", "));
  }
  if (schema.pattern !== undefined && typeof value === "string" && !new RegExp(schema.pattern, "u").test(value)) {
    return fault(place, told(value) + " has not the form " + schema.pattern);
  }
  return schema.minimum !== undefined && value !== null && value < schema.minimum
    ? fault(place, told(value) + " is less than " + schema.minimum) : null;
}

function keyFault(schema, value, place) {
  const known = schema.properties || {};
  const missing = (schema.required || []).find((name) => !(name in value));
  if (missing !== undefined) {
    return fault(place, "the key " + missing + " is missing");
  }
  const strange = Object.keys(value).find((name) => !(name in known));
  return schema.additionalProperties === false && strange !== undefined
    ? fault(place + "/" + strange, "there is no such key") : null;
}

// The parts of a value, each with its schema and its place.
function partsOf(schema, value, place) {
  if (Array.isArray(value)) {
    const first = schema.prefixItems || [];
    return value.map((item, at) => [at < first.length ? first[at] : schema.items, item, place + "/" + at]);
  }
  const known = schema.properties || {};
  return Object.keys(value).map((name) => [known[name] || schema.additionalProperties, value[name], place + "/" + name]);
}

function containerFault(root, schema, value, place) {
  if (Array.isArray(value) && schema.minItems !== undefined && value.length < schema.minItems) {
    return fault(place, "there are fewer than " + schema.minItems);
  }
  const own = Array.isArray(value) ? null : keyFault(schema, value, place);
  if (own !== null) {
    return own;
  }
  for (const [part, item, here] of partsOf(schema, value, place)) {
    const found = part === false ? fault(here, "there is one too many") : faultOf(root, part, item, here);
    if (found !== null) {
      return found;
    }
  }
  return null;
}

// The first fault of a value, with its place; null where there is none.
function faultOf(root, schema, value, place = "") {
  if (schema === undefined || schema === true) {
    return null;
  }
  if (schema.$ref !== undefined) {
    return faultOf(root, root.$defs[schema.$ref.slice("#/$defs/".length)], value, place);
  }
  const own = typeFault(schema, value, place) || wordFault(schema, value, place);
  return own !== null || typeof value !== "object" || value === null ? own : containerFault(root, schema, value, place);
}

module.exports = { faultOf: (schema, value) => faultOf(schema, schema, value) };
