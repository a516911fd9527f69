"use strict";

// What may stand at a place of a scenario: the keys that an object has not yet, and the values that the schema names. Each
// choice has a `label`, a `detail` in words, and the `text` that it puts there.

const reading = typeof module === "undefined" ? { contextAt, readJson, Schemas }
  : { ...require("./places.js"), ...require("./json_text.js"), ...require("./schema.js") };

// The schemas that hold at a path, and the node there.
function schemasAt(schemas, root, path) {
  let node = root;
  let held = schemas.holding(root, schemas.root);
  path.forEach((step) => {
    const next = held.map((one) => (typeof step === "number" ? schemas.itemOf(one, step)
      : Object.hasOwn(one.properties || {}, step) ? one.properties[step] : undefined));
    node = childOf(node, step);
    held = next.filter((one) => typeof one === "object").flatMap((one) => schemas.holding(node, one));
  });
  return held;
}

function childOf(node, step) {
  if (node === null) {
    return null;
  }
  const child = typeof step === "number" ? (node.items || [])[step]
    : ((node.members || []).filter(({ key }) => key !== null && key.value === step).pop() || {}).value;
  return child === undefined ? null : child;
}

// ---- the least value that a schema takes, as a text

function leastText(schemas, schema) {
  const held = schemas.holding(null, firstForm(schemas, schema));
  const all = Object.assign({}, ...[...held].reverse());
  const value = [all.const, all.default, (all.enum || [])[0]].find((one) => one !== undefined);
  if (value !== undefined) {
    return JSON.stringify(value);
  }
  return { object: () => leastObject(schemas, held), array: () => leastList(schemas, all),
    integer: () => String(all.minimum || 0), boolean: () => "true", string: () => '""' }[all.type || "string"]();
}

// A schema with alternatives stands for its first one.
function firstForm(schemas, schema) {
  const forms = schemas.linked(schema).find((one) => one.oneOf !== undefined);
  return forms === undefined ? schema : forms.oneOf[0];
}

function leastObject(schemas, held) {
  const properties = Object.assign({}, ...[...held].reverse().map((one) => one.properties || {}));
  const names = [...new Set(held.flatMap((one) => one.required || []))];
  return "{" + names.map((name) => '"' + name + '": ' + leastText(schemas, properties[name])).join(", ") + "}";
}

function leastList(schemas, schema) {
  const parts = (schema.prefixItems || []).slice(0, schema.minItems || 0);
  return "[" + parts.map((one) => leastText(schemas, one)).join(", ") + "]";
}

// ---- the choices

function detailOf(schemas, schema) {
  const told = schemas.linked(schema).find((one) => one.description !== undefined);
  return told === undefined ? "" : told.description;
}

function keyChoices(schemas, held, { node, part }) {
  const there = node.members.filter(({ key }) => key !== null && key !== part).map(({ key }) => key.value);
  const refused = held.flatMap((one) => Object.entries(one.properties || {})).filter(([, own]) => own === false);
  const not = new Set([...there, ...refused.map(([name]) => name)]);
  const required = new Set(held.flatMap((one) => one.required || []));
  const found = new Map();
  held.flatMap((one) => Object.entries(one.properties || {})).forEach(([name, own]) => {
    if (!not.has(name) && !found.has(name)) {
      found.set(name, { label: name, detail: detailOf(schemas, own), text: leastText(schemas, own) });
    }
  });
  const all = [...found.values()];
  return [...all.filter(({ label }) => required.has(label)), ...all.filter(({ label }) => !required.has(label))];
}

// The values that one schema names, and else the least that it takes.
function valuesOf(schemas, schema) {
  const detail = detailOf(schemas, schema);
  const choice = (text, named) => ({ label: text.replace(/^"(.+)"$/, "$1"), detail, text, named });
  const all = Object.assign({}, ...schemas.holding(null, schema).reverse());
  const named = all.enum || (all.const === undefined ? undefined : [all.const])
    || (all.type === "boolean" ? [true, false] : undefined);
  return named === undefined ? [choice(leastText(schemas, schema), false)]
    : named.map((value) => choice(JSON.stringify(value), true));
}

function valueChoices(schemas, held) {
  const forms = held.filter((one) => one.oneOf !== undefined).flatMap((one) => one.oneOf);
  const plain = held.filter((one) => one.type !== undefined || one.enum !== undefined || one.const !== undefined);
  const found = new Map();
  (forms.length > 0 ? forms : plain).flatMap((one) => valuesOf(schemas, one)).forEach((choice) => {
    found.set(choice.text, found.get(choice.text) || choice);
  });
  return [...found.values()];
}

// Whether the part can still be completed: a text of which the quotes are around the place, a word or a number.
function isOpen(part, at) {
  return part === null || (part.kind === "string" ? part.start < at && (at < part.end || !part.closed)
    : part.kind === "word" || part.kind === "number");
}

function begun(text, part, at) {
  return part === null ? "" : text.slice(part.start + (part.kind === "string" ? 1 : 0), at);
}

// A key brings its colon and a value, where there is none, and the commas around it.
function wholeMember(text, context, range, choice) {
  const before = /[{,]\s*$/.test(text.slice(0, range.start)) ? "" : ", ";
  const after = /^\s*"/.test(text.slice(range.end)) ? ", " : "";
  return context.colon ? '"' + choice.label + '"' : before + '"' + choice.label + '": ' + choice.text + after;
}

function wholeItem(text, range, choice) {
  const before = /[[{,:]\s*$/.test(text.slice(0, range.start)) || /^\s*$/.test(text.slice(0, range.start)) ? "" : ", ";
  const after = /^\s*["{[]/.test(text.slice(range.end)) ? ", " : "";
  return before + choice.text + after;
}

// What a choice replaces. A text that is not closed has taken the rest of its line, which stays.
function replacedRange(part, at) {
  return part === null ? { start: at, end: at }
    : { start: part.start, end: part.kind === "string" && !part.closed ? at : part.end };
}

// The choices at a place, and the range of the text that they replace. `named` tells that there are words to choose
// from, and not only a value to begin with.
function completionsAt(schemas, text, at) {
  const { root } = reading.readJson(text);
  const context = reading.contextAt(root, at);
  if (context.role === "none" || !isOpen(context.part, at)) {
    return { choices: [], range: { start: at, end: at }, named: false };
  }
  const range = replacedRange(context.part, at);
  const held = schemasAt(schemas, root, context.path);
  const all = context.role === "key" ? keyChoices(schemas, held, context) : valueChoices(schemas, held);
  const start = begun(text, context.part, at).toLowerCase();
  const choices = all.filter(({ label }) => label.toLowerCase().startsWith(start)).map((choice) => ({ ...choice,
    text: context.role === "key" ? wholeMember(text, context, range, choice) : wholeItem(text, range, choice) }));
  return { choices, range, named: context.role === "key" || all.some((choice) => choice.named) };
}

if (typeof module !== "undefined") {
  module.exports = { completionsAt };
}
