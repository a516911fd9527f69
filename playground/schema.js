"use strict";

// Checks a tree of json_text.js by a JSON Schema, as far as schema/scenario.schema.json uses one: which schemas hold for a
// node, and what does not fit. Whole numbers are looked at as they are written, since the program refuses 1.0.

const KIND_OF_TYPE = { object: "object", array: "list", string: "string", integer: "number", boolean: "word" };
const TYPE_TOLD = { object: "an object", array: "a list", string: "a text", integer: "a whole number",
  boolean: "true or false" };

// The member of this key that counts, which is the last one.
function memberOf(node, name) {
  return node.kind !== "object" ? undefined
    : node.members.filter(({ key }) => key !== null && key.value === name).pop();
}

function isEqual(node, value) {
  if (Array.isArray(value)) {
    return node.kind === "list" && node.items.length === value.length
      && value.every((part, index) => node.items[index] !== null && isEqual(node.items[index], part));
  }
  return node.kind !== "list" && node.kind !== "object" && node.value === value;
}

class Schemas {
  constructor(root) {
    this.root = root;
    this.patterns = new Map();
  }

  pattern(text) {
    if (!this.patterns.has(text)) {
      this.patterns.set(text, new RegExp(text, "u"));
    }
    return this.patterns.get(text);
  }

  // The schema itself, and what it refers to.
  linked(schema) {
    if (schema.$ref === undefined) {
      return [schema];
    }
    const { $ref: name, ...own } = schema;
    return [own, ...this.linked(this.root.$defs[name.replace("#/$defs/", "")])];
  }

  // All schemas that hold for a node, each by itself: among alternatives the one that is meant; where none is, or the
  // node is null, all of them.
  holding(node, schema) {
    return this.linked(schema).flatMap((one) => [one, ...this.conditional(node, one), ...this.alternative(node, one)]);
  }

  conditional(node, schema) {
    if (schema.if === undefined) {
      return [];
    }
    const branch = node !== null && this.problems(node, schema.if).length === 0 ? schema.then : schema.else;
    return branch === undefined ? [] : this.holding(node, branch);
  }

  alternative(node, schema) {
    const all = schema.oneOf || [];
    const meant = node === null ? all : all.filter((one) => this.isMeant(node, one));
    return (meant.length === 1 ? meant : all).flatMap((one) => this.holding(node, one));
  }

  // Whether a node begins as an alternative does: by its first key or by its first item.
  isMeant(node, schema) {
    return this.linked(schema).some((one) => {
      if (node.kind === "object") {
        return node.members.some(({ key }) => key !== null && (one.required || []).includes(key.value));
      }
      const first = one.const === undefined ? ((one.prefixItems || [])[0] || {}).const : [].concat(one.const)[0];
      return node.kind === "list" && node.items.length > 0 && node.items[0] !== null
        && first !== undefined && isEqual(node.items[0], first);
    });
  }

  // What of a node does not fit: each with the node or the key, and a sentence.
  problems(node, schema) {
    const all = this.linked(schema);
    const told = all.find((one) => one.description !== undefined);
    return all.flatMap((one) => this.own(node, one)).map((problem) => (problem.undescribed && told !== undefined
      ? { node: problem.node, sentence: problem.sentence + ". " + told.description } : problem));
  }

  own(node, schema) {
    if (schema === false) {
      return [{ node, sentence: "this does not belong here" }];
    }
    if (schema.type !== undefined && !this.isOfType(node, schema.type)) {
      return [{ node, sentence: TYPE_TOLD[schema.type] + " belongs here" }];
    }
    const inside = { object: () => this.ofObject(node, schema), list: () => this.ofList(node, schema),
      string: () => this.ofText(node, schema), number: () => this.ofNumber(node, schema), word: () => [] }[node.kind]();
    return [...this.ofValue(node, schema), ...inside, ...this.ofConditions(node, schema),
      ...this.ofAlternatives(node, schema)];
  }

  isOfType(node, type) {
    const words = type === "boolean" ? typeof node.value === "boolean" : true;
    return node.kind === KIND_OF_TYPE[type] && words && !(type === "integer" && node.float);
  }

  ofValue(node, schema) {
    const allowed = schema.enum || (schema.const === undefined ? null : [schema.const]);
    return allowed === null || allowed.some((value) => isEqual(node, value)) ? []
      : [{ node, sentence: "one of these belongs here: " + allowed.map((value) => JSON.stringify(value)).join(", ") }];
  }

  ofObject(node, schema) {
    const missing = (schema.required || []).filter((name) => memberOf(node, name) === undefined)
      .map((name) => ({ node, missing: name, sentence: "the key " + name + " is missing" }));
    const properties = schema.properties || {};
    const members = node.members.filter((member) => member.key !== null && memberOf(node, member.key.value) === member);
    const parts = members.flatMap(({ key, value }) => {
      const own = Object.hasOwn(properties, key.value) ? properties[key.value] : undefined;
      if (own === false) {
        return [{ node: key, of: node, sentence: "the key " + key.value + " does not belong beside the others" }];
      }
      if (own === undefined) {
        return schema.additionalProperties === false
          ? [{ node: key, of: node, sentence: "there is no key " + key.value + " here" }] : [];
      }
      return value === null ? [] : this.problems(value, own);
    });
    return [...parts, ...missing];
  }

  // The schema of an item; undefined where any may stand.
  itemOf(schema, index) {
    return index < (schema.prefixItems || []).length ? schema.prefixItems[index] : schema.items;
  }

  ofList(node, schema) {
    const [least, most] = [schema.minItems || 0, schema.maxItems === undefined ? Infinity : schema.maxItems];
    const count = node.items.length < least || node.items.length > most
      ? [{ node, sentence: "this list has " + (least === most ? "" : node.items.length < least ? "at least " : "at most ")
        + (node.items.length < least ? least : most) + " items" }] : [];
    const items = node.items.flatMap((item, index) => {
      const own = this.itemOf(schema, index);
      return item === null || own === undefined || own === false ? [] : this.problems(item, own);
    });
    return [...count, ...items];
  }

  ofText(node, schema) {
    const length = [...node.value].length;
    const fits = (schema.pattern === undefined || this.pattern(schema.pattern).test(node.value))
      && length >= (schema.minLength || 0) && length <= (schema.maxLength === undefined ? Infinity : schema.maxLength);
    return fits ? [] : [{ node, sentence: "this text is not as it must be", undescribed: true }];
  }

  ofNumber(node, schema) {
    const [least, most] = [schema.minimum, schema.maximum];
    return (least !== undefined && node.value < least) || (most !== undefined && node.value > most)
      ? [{ node, sentence: "a number from " + least + " to " + most + " belongs here" }] : [];
  }

  ofConditions(node, schema) {
    if (schema.if === undefined) {
      return [];
    }
    const branch = this.problems(node, schema.if).length === 0 ? schema.then : schema.else;
    return branch === undefined ? [] : this.problems(node, branch);
  }

  ofAlternatives(node, schema) {
    const all = schema.oneOf || [];
    if (all.length === 0 || all.filter((one) => this.problems(node, one).length === 0).length === 1) {
      return [];
    }
    const meant = all.filter((one) => this.isMeant(node, one));
    return meant.length === 1 ? this.problems(node, meant[0])
      : [{ node, sentence: "this is none of the forms that belong here", undescribed: true }];
  }
}

// What the schema finds in a tree, in the order of the places, one for each node and for each key that it lacks.
function schemaProblems(schemas, root) {
  const found = new Map();
  schemas.problems(root, schemas.root).forEach((problem) => {
    const name = problem.node.start + " " + (problem.missing || "");
    found.set(name, found.get(name) || problem);
  });
  return [...found.values()].sort((one, other) => one.node.start - other.node.start);
}

if (typeof module !== "undefined") {
  module.exports = { Schemas, memberOf, schemaProblems };
}
