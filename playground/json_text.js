"use strict";

// Reads a JSON text as far as it goes, as one types it: a tree whose nodes have their places, and the faults. The program
// reads a text exactly where it has no fault and is not too long.
//
// A node has `kind` (object, list, string, number, word), `start` and `end`. An object has `members` with a `key` (a
// string) and a `value` each, a list has `items`, any other a `value`; objects, lists and strings tell whether they are
// `closed`. A value that is missing is null.

const DEEPEST = 127;
const NUMBER_FORM = /-?(?:0|[1-9][0-9]*)(?:\.[0-9]+)?(?:[eE][-+]?[0-9]+)?/y;
const WORD_FORM = /[^ \t\n\r{}[\],:"]+/y;
const WORDS = new Map([["true", true], ["false", false], ["null", null]]);

class TooDeep extends Error {}

class JsonReader {
  constructor(text) {
    this.text = text;
    this.at = 0;
    this.depth = 0;
    this.faults = [];
  }

  fault(start, end, sentence) {
    this.faults.push({ start, end: Math.max(end, start), sentence });
  }

  // Skips blanks, and gives the next sign; an empty text at the end.
  next() {
    while (" \t\n\r".includes(this.text[this.at] || "-")) {
      this.at += 1;
    }
    return this.text[this.at] || "";
  }

  // Takes what has this form, from here.
  take(form) {
    form.lastIndex = this.at;
    const found = form.exec(this.text);
    if (found === null) {
      return null;
    }
    this.at += found[0].length;
    return found[0];
  }

  value() {
    const sign = this.next();
    if (sign === "{" || sign === "[") {
      return this.inside(sign);
    }
    if (sign === '"') {
      return this.string();
    }
    const number = this.take(NUMBER_FORM);
    if (number !== null && " \t\n\r{}[],:\"".includes(this.text[this.at] || " ")) {
      return this.number(this.at - number.length, number);
    }
    return this.word(number === null ? "" : number);
  }

  number(start, text) {
    const value = Number(text);
    if (!Number.isFinite(value)) {
      this.fault(start, this.at, "this number is greater than any that is read");
    }
    return { kind: "number", start, end: this.at, value, float: /[.eE]/.test(text) || text === "-0" };
  }

  // true, false or null; any other word is a fault, and is skipped.
  word(before) {
    const start = this.at - before.length;
    const text = before + (this.take(WORD_FORM) || "");
    if (text === "") {
      return null;
    }
    if (!WORDS.has(text)) {
      this.fault(start, this.at, "no value begins so; a text stands in double quotes");
    }
    return { kind: "word", start, end: this.at, value: WORDS.get(text), text };
  }

  inside(sign) {
    this.depth += 1;
    if (this.depth > DEEPEST) {
      this.fault(this.at, this.at + 1, "lists and objects stand more than " + DEEPEST + " deep in each other");
      throw new TooDeep();
    }
    const node = sign === "{" ? this.object() : this.list();
    this.depth -= 1;
    return node;
  }

  object() {
    const node = { kind: "object", start: this.at, end: this.at, closed: false, members: [] };
    this.at += 1;
    this.parts(node, "}", () => node.members.push(this.member()));
    return node;
  }

  list() {
    const node = { kind: "list", start: this.at, end: this.at, closed: false, items: [] };
    this.at += 1;
    this.parts(node, "]", () => node.items.push(this.wanted("a value")));
    return node;
  }

  // The parts up to the closing sign, with a comma between each two.
  parts(node, close, read) {
    let comma = null;
    for (let sign = this.next(); sign !== close && sign !== ""; sign = this.next()) {
      if (sign === "}" || sign === "]") {
        break;
      }
      read();
      comma = this.separated(close);
    }
    if (this.next() === close) {
      if (comma !== null) {
        this.fault(comma, comma + 1, "no comma stands before " + close);
      }
      node.closed = true;
      this.at += 1;
    } else {
      this.fault(node.start, node.start + 1, "this is not closed by " + close);
    }
    node.end = this.at;
  }

  // The place of the comma after a part; null where there is none.
  separated(close) {
    const before = this.at;
    const sign = this.next();
    if (sign === ",") {
      this.at += 1;
      return this.at - 1;
    }
    if (sign !== close && sign !== "" && sign !== "}" && sign !== "]") {
      this.fault(before, before, "a comma belongs here");
    }
    return null;
  }

  member() {
    const start = this.at;
    const key = this.next() === '"' ? this.string() : this.wanted("a key in double quotes");
    if (key !== null && key.kind !== "string") {
      this.fault(key.start, key.end, "a key stands in double quotes");
    }
    const colon = this.next() === ":";
    if (colon) {
      this.at += 1;
    } else if (key !== null && key.kind === "string") {
      this.fault(key.end, key.end, "a colon and a value belong here");
    }
    const after = this.at;
    const value = colon ? this.wanted("a value") : null;
    return { key, value, colon, start, after, end: this.at };
  }

  // A value; what cannot begin one is a fault, and is skipped where it closes nothing.
  wanted(what) {
    const before = this.at;
    const value = this.value();
    if (value === null) {
      this.fault(before, this.at, what + " belongs here");
      this.at += this.text[this.at] === ":" ? 1 : 0;
    }
    return value;
  }

  string() {
    const start = this.at;
    const closed = this.scan();
    const text = this.text.slice(start, this.at);
    let value = text.slice(1, closed ? -1 : undefined);
    try {
      value = JSON.parse(closed ? text : text + '"');
    } catch (error) {
      this.fault(start, this.at, "this text has a bad escape or a control character in it");
    }
    if (!closed) {
      this.fault(start, this.at, "this text is not closed by a double quote");
    }
    if (/\p{Surrogate}/u.test(value)) {
      this.fault(start, this.at, "this text has half of a surrogate pair in it");
    }
    return { kind: "string", start, end: this.at, value, closed };
  }

  // Goes to behind the closing quote, or to the end of the line where there is none.
  scan() {
    for (this.at += 1; this.at < this.text.length; this.at += 1) {
      const sign = this.text[this.at];
      if (sign === "\n") {
        return false;
      }
      if (sign === '"') {
        this.at += 1;
        return true;
      }
      this.at += sign === "\\" && this.text[this.at + 1] !== "\n" ? 1 : 0;
    }
    this.at = Math.min(this.at, this.text.length);
    return false;
  }

  whole() {
    const root = this.wanted("a scenario");
    if (this.next() !== "") {
      this.fault(this.at, this.at + 1, "nothing belongs behind the scenario");
    }
    return root;
  }
}

// The tree of a text, and its faults in the order of their places.
function readJson(text) {
  const reader = new JsonReader(text);
  let root = null;
  try {
    root = reader.whole();
  } catch (error) {
    if (!(error instanceof TooDeep)) {
      throw error;
    }
  }
  return { root, faults: reader.faults.sort((one, other) => one.start - other.start) };
}

if (typeof module !== "undefined") {
  module.exports = { readJson };
}
