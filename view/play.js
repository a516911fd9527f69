"use strict";

// Reads the printed text of a play by the grammar of docs/rules/printed-text.md. Each value has `line`, the number of
// its first line, counted from 1. What is no play is refused with a sentence and the line where it goes wrong.

const known = typeof module === "undefined" ? { names: engineNames, networkErrors, requestFaults }
  : { names: require("./names.js"), ...require("./errors.js") };

class PlayError extends Error {
  constructor(line, sentence) {
    super("line " + line + ": " + sentence);
    this.name = "PlayError";
    this.line = line;
    this.sentence = sentence;
  }
}

// ---- the words of the grammar; a number has no sign and no leading zero

const NUMBER = "(0|[1-9][0-9]{0,14})";
const ORIGIN = "(null|https?://[!-.0-~]+)";
const SERVER = "(https?://[!-.0-~]+)";
const URL_TEXT = "(https?://[!-~]+)";
const HOST = "([!-.0-~]+)";
const TOKEN = "[-!#$%&'*+.^_`|~0-9A-Za-z]+";
const LIST = "(\\(\\)|" + TOKEN + "(?:," + TOKEN + ")*)";
const ASKER = ORIGIN + " " + ORIGIN + " (include|other)";
const TIME = " at " + NUMBER + ": ";
const BODY = NUMBER + ": (.*)";

function whole(pattern) {
  return new RegExp("^" + pattern + "$");
}

const DOCUMENT = whole("document " + NUMBER + " " + ORIGIN);
const FETCH = whole("fetch " + NUMBER);
const LOAD = whole("load " + NUMBER + " (" + Object.keys(known.names.loads).join("|") + ")");
const SEND = whole("send " + SERVER);
// A directive that is unknown is drawn as any other.
const VIOLATION = whole("violation " + NUMBER + " (enforce|report) ([a-z]+(?:-[a-z]+)*) " + URL_TEXT);
const RESPONSE = whole("result (" + known.names.response_types.join("|") + ") " + NUMBER
  + " (\\(\\)|https?://[!-~]+)");
const NETWORK_ERROR = whole("result (error|failed) " + NUMBER + " ([A-Za-z]+)(?: (" + TOKEN + "))?");
const FAULT = whole("result (type-error|failed type-error) " + NUMBER + " ([A-Za-z]+)(?: " + NUMBER + ")?");
const END = whole("end (finished|limit commands|limit fetches|limit text)");
const ENTRY = whole(NUMBER + " " + NUMBER + " (.*)");
const REQUEST_LINE = whole("  (" + TOKEN + ") (/[^ ]*) HTTP/1\\.1");
const HEADER = whole("  (" + TOKEN + "): (.*)");
const REQUEST_BODY = whole("  body " + BODY);
const BODY_WHOLE = whole("  body whole " + BODY);
const BODY_SHORT = whole("  body (cut|fault) " + NUMBER);

// The calls of the shared book: what each prints after its OP, and the names of these words.
const CALLS = [
  { op: "match", words: ["host", "at", "reply"], form: whole("match " + HOST + TIME + "(yes|no)") },
  { op: "note", words: ["host", "age", "reach", "at", "reply"],
    form: whole("note " + HOST + " " + NUMBER + " (sub|exact)" + TIME + "(done)") },
  { op: "covers", words: ["key", "origin", "credentials", "method", "names", "url", "at", "reply"],
    form: whole("covers " + ASKER + " (\\(\\)|" + TOKEN + ") " + LIST + " " + URL_TEXT + TIME + "(yes|no)") },
  { op: "learn", words: ["key", "origin", "credentials", "age", "methods", "names", "url", "at", "reply"],
    form: whole("learn " + ASKER + " " + NUMBER + " " + LIST + " " + LIST + " " + URL_TEXT + TIME + "(done)") },
  { op: "clear", words: ["key", "origin", "url", "at", "reply"],
    form: whole("clear " + ORIGIN + " " + ORIGIN + " " + URL_TEXT + TIME + "(done)") },
];

const LISTS = new Set(["names", "methods"]);
const NUMBERS = new Set(["at", "age"]);

// ---- the lines

class Lines {
  constructor(text) {
    this.all = text.split("\n");
    this.next = 0;
    // What comes after the last LF is a line that does not end.
    this.unended = this.all.pop();
  }

  // The number of the next line.
  number() {
    return this.next + 1;
  }

  peek() {
    return this.next < this.all.length ? this.all[this.next] : null;
  }

  // Takes the next line where it has this form, and gives its words.
  take(form) {
    const line = this.peek();
    const words = line === null ? null : form.exec(line);
    if (words !== null) {
      this.next += 1;
    }
    return words;
  }

  takeText(text) {
    const fits = this.peek() === text;
    this.next += fits ? 1 : 0;
    return fits;
  }

  refuse(wanted) {
    if (this.peek() === null && this.unended !== "") {
      throw new PlayError(this.number(), "the line does not end in LF");
    }
    const found = this.peek() === null ? "the text ends" : "another line stands";
    throw new PlayError(this.number(), found + " where " + wanted + " belongs");
  }
}

// ---- escaped text

const ESCAPED = /^(?:[ -\[\]-~]|\\x[0-9a-f]{2})*$/;

// Whether each byte is written as the grammar writes it: a plain one as itself, any other by two digits.
function isEscaped(text) {
  const escapes = text.match(/\\x[0-9a-f]{2}/g) || [];
  return ESCAPED.test(text) && escapes.every((escape) => {
    const byte = parseInt(escape.slice(2), 16);
    return byte < 0x20 || byte > 0x7e || byte === 0x5c;
  });
}

function checkEscaped(text, line) {
  if (!isEscaped(text)) {
    throw new PlayError(line, "the text is not escaped: any byte but printable ASCII without \\ is \\x and two digits");
  }
  return text;
}

function readBody(words, line) {
  const length = Number(words[1]);
  const text = checkEscaped(words[2], line);
  const found = text.replace(/\\x../g, "x").length;
  if (found !== length) {
    throw new PlayError(line, "the body has " + found + " bytes, and the line says " + length);
  }
  return { end: "whole", length, text, line };
}

// ---- the events

function readHeaders(lines) {
  const headers = [];
  for (;;) {
    const line = lines.number();
    const words = lines.take(HEADER);
    if (words === null) {
      return headers;
    }
    headers.push({ name: words[1], value: checkEscaped(words[2], line), line });
  }
}

function readSend(lines, line, words) {
  const head = lines.take(REQUEST_LINE) || lines.refuse("the first line of a request's head");
  const target = checkEscaped(head[2], line + 1);
  const headers = readHeaders(lines);
  const bodyLine = lines.number();
  const body = lines.take(REQUEST_BODY);
  return { kind: "send", origin: words[1], method: head[1], target, headers,
    body: body === null ? null : readBody(body, bodyLine), line };
}

function readResponseBody(lines) {
  const line = lines.number();
  if (lines.takeText("  body none")) {
    return { end: "none", length: 0, line };
  }
  if (lines.takeText("  body toobig")) {
    return { end: "toobig", length: null, line };
  }
  const short = lines.take(BODY_SHORT);
  if (short !== null) {
    return { end: short[1], length: Number(short[2]), line };
  }
  return readBody(lines.take(BODY_WHOLE) || lines.refuse("a header or the body of a response"), line);
}

function readResponse(lines, line, words) {
  const url = words[3] === "()" ? null : words[3];
  const headers = readHeaders(lines);
  return { kind: "result", result: "response", of: "fetch", type: words[1], status: Number(words[2]), url, headers,
    body: readResponseBody(lines), line };
}

function wordOf(name, text) {
  if (LISTS.has(name)) {
    return text === "()" ? [] : text.split(",");
  }
  if (name === "method") {
    return text === "()" ? null : text;
  }
  return NUMBERS.has(name) ? Number(text) : text;
}

// A call of the book, as it stands after `call ` and in a line of the history.
function readCall(text, line) {
  const op = CALLS.find((one) => text.startsWith(one.op + " "));
  const words = op === undefined ? null : op.form.exec(text);
  if (words === null) {
    throw new PlayError(line, "no call of the shared book with its reply");
  }
  const call = { op: op.op, text, line };
  op.words.forEach((name, index) => {
    call[name] = wordOf(name, words[index + 1]);
  });
  return call;
}

// The number and the name must be those of one row, and its detail (a header's name or index) there where it belongs.
function checkRefusal(table, words, detailed, line) {
  const row = table.get(Number(words[2]));
  if (row === undefined || row.name !== words[3]) {
    throw new PlayError(line, "no refusal has the number " + words[2] + " and the name " + words[3]);
  }
  if ((words[4] !== undefined) !== (row.name === detailed)) {
    throw new PlayError(line, row.name + (row.name === detailed ? " must name a header" : " names no more than this"));
  }
  return { number: row.number, name: row.name };
}

function readError(lines, line, words) {
  const refusal = checkRefusal(known.networkErrors, words, "PreflightHeader", line);
  return { kind: "result", result: "error", of: words[1] === "error" ? "fetch" : "load", ...refusal,
    header: words[4] === undefined ? null : words[4], line };
}

function readFault(lines, line, words) {
  const refusal = checkRefusal(known.requestFaults, words, "BadHeader", line);
  const of = words[1] === "type-error" ? "fetch" : "load";
  if (of === "load" && !["BadUrl", "LongUrl"].includes(refusal.name)) {
    throw new PlayError(line, "a load has no other fault than 1 BadUrl and 10 LongUrl");
  }
  const index = words[4] === undefined ? null : Number(words[4]);
  return { kind: "result", result: "fault", of, ...refusal, index, line };
}

function readViolation(lines, line, words) {
  return { kind: "violation", policy: Number(words[1]), enforced: words[2] === "enforce", directive: words[3],
    url: words[4], line };
}

// What may come between the start of a fetch or a load and its result, and the results.
const EVENTS = [
  [whole("call (.*)"), (lines, line, words) => ({ kind: "call", ...readCall(words[1], line) })],
  [SEND, readSend],
  [VIOLATION, readViolation],
  [whole("result loaded"), (lines, line) => ({ kind: "result", result: "loaded", of: "load", line })],
  [RESPONSE, readResponse],
  [NETWORK_ERROR, readError],
  [FAULT, readFault],
];

function readEvent(lines) {
  const line = lines.number();
  for (const [form, read] of EVENTS) {
    const words = lines.take(form);
    if (words !== null) {
      const event = read(lines, line, words);
      event.last = lines.next;
      return event;
    }
  }
  return lines.refuse("a call, a request, a violation or a result");
}

// The start of the next fetch or load; null where a document's run ends.
function readStart(lines, number) {
  const line = lines.number();
  const fetch = lines.take(FETCH);
  const words = fetch || lines.take(LOAD);
  if (words === null) {
    return null;
  }
  if (Number(words[1]) !== number) {
    throw new PlayError(line, "the number " + number + " belongs here");
  }
  return fetch ? { kind: "fetch", number, line, last: line }
    : { kind: "load", number, destination: words[2], line, last: line };
}

// One fetch or load, after its first line, up to its result.
function readEvents(lines, start, events) {
  for (;;) {
    const event = readEvent(lines);
    events.push(event);
    if (event.kind === "result") {
      if (event.of !== start.kind) {
        throw new PlayError(event.line, "this is a result of a " + event.of + ", and a " + start.kind + " was started");
      }
      return;
    }
  }
}

function readDocument(lines, number) {
  const line = lines.number();
  const words = lines.take(DOCUMENT) || lines.refuse("a document or the line `history`");
  if (Number(words[1]) !== number) {
    throw new PlayError(line, "the document " + number + " belongs here");
  }
  const events = [];
  let started = 0;
  for (let start = readStart(lines, started); start !== null; start = readStart(lines, started)) {
    events.push(start);
    readEvents(lines, start, events);
    started += 1;
  }
  const end = lines.take(END) || lines.refuse("a fetch, a load or the end of the document");
  return { number, key: words[2], events, ending: end[1], line, last: lines.next };
}

// ---- the history

function readEntry(lines, turn, documents) {
  const line = lines.number();
  const words = lines.take(ENTRY) || lines.refuse("an entry of the history or the line `done`");
  if (Number(words[1]) !== turn) {
    throw new PlayError(line, "the turn " + turn + " belongs here");
  }
  if (Number(words[2]) >= documents.length) {
    throw new PlayError(line, "there is no document " + words[2]);
  }
  return { turn, document: Number(words[2]), ...readCall(words[3], line), last: line };
}

// The calls of a document and its entries are the same, in the same order: each gets the other's place. `calls` are
// those without an entry yet, the last first.
function link(entry, calls) {
  const call = calls.pop();
  if (call === undefined || call.text !== entry.text) {
    throw new PlayError(entry.line, "this is not the next call of document " + entry.document);
  }
  call.turn = entry.turn;
  call.entryLine = entry.line;
  entry.callLine = call.line;
}

function linkAll(documents, history) {
  const calls = documents.map((document) => document.events.filter((event) => event.kind === "call").reverse());
  history.forEach((entry) => link(entry, calls[entry.document]));
  const left = calls.find((list) => list.length > 0);
  if (left !== undefined) {
    throw new PlayError(left[left.length - 1].line, "the history has no entry of this call");
  }
}

function readPlay(text) {
  const lines = new Lines(text);
  if (!lines.takeText("fetchplay 1")) {
    lines.refuse("the line `fetchplay 1`");
  }
  const documents = [];
  while (!lines.takeText("history")) {
    documents.push(readDocument(lines, documents.length));
  }
  const history = [];
  while (!lines.takeText("done")) {
    history.push(readEntry(lines, history.length, documents));
  }
  if (lines.peek() !== null || lines.unended !== "") {
    throw new PlayError(lines.number(), "there is more after the line `done`");
  }
  linkAll(documents, history);
  return { documents, history };
}

if (typeof module !== "undefined") {
  module.exports = { readPlay, PlayError };
}
