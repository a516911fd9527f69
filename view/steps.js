"use strict";

// From a play that was read to the lanes and the steps that are drawn. A step is one arrow or mark: its kind, the lanes
// from and to, its label, the lines of the text that it stands for, and its refusal where it is one. No DOM here.

const tables = typeof module === "undefined" ? { networkErrors, requestFaults } : require("./errors.js");
const telling = typeof module === "undefined" ? { statusOf } : require("./told.js");

// ---- lanes: the documents, the book, and each server in the order in which it is first asked

function lanesOf(play) {
  const documents = play.documents.map(({ number, key }) => {
    return { kind: "document", name: "document " + number, detail: key };
  });
  const origins = new Set();
  play.documents.forEach((document) => {
    document.events.filter((event) => event.kind === "send").forEach((event) => origins.add(event.origin));
  });
  const servers = [...origins].map((origin) => ({ kind: "server", name: origin, detail: "server" }));
  return [...documents, { kind: "book", name: "shared book", detail: "preflight cache, known hosts" }, ...servers];
}

// ---- what the events of one fetch or load tell together

function isPreflight(event) {
  return event.kind === "send" && event.method === "OPTIONS"
    && headerOf(event, "Access-Control-Request-Method") !== null;
}

function isRequest(event) {
  return event.kind === "send" && !isPreflight(event);
}

// No line tells that a redirect was followed. After a request these tell it: the fetch asks the book about a URL, sends
// again, or is refused before anything was sent to the URL.
function tellsRedirect(event) {
  if (event.kind === "result") {
    return event.result === "error" && event.number <= 6;
  }
  return event.kind === "send" || (event.kind === "call" && (event.op === "match" || event.op === "covers"));
}

// Where a redirect leads, by what comes after it; null where no line says it.
function targetOf(events) {
  const next = events.find((event) => event.kind === "send" || event.op === "covers" || event.kind === "result");
  if (next === undefined || next.kind === "result") {
    const asked = events.find((event) => event.op === "match");
    return asked === undefined ? null : asked.host;
  }
  return next.kind === "send" ? next.origin + next.target : next.url;
}

// The redirect that was followed after the request at this index of a fetch: the index of the event that it comes
// before, and that of the first event which tells it. Null where none was followed.
function redirectAfter(events, index) {
  const told = events.findIndex((event, other) => other > index && (tellsRedirect(event) || event.kind === "result"));
  if (told < 0 || !tellsRedirect(events[told])) {
    return null;
  }
  const notes = events[index + 1].op === "note" ? 1 : 0;
  return { before: index + 1 + notes, told };
}

// The fetches and loads of a document: each with its start, and the events up to its result.
function fetchesOf(document) {
  const fetches = [];
  document.events.forEach((event) => {
    if (event.kind === "fetch" || event.kind === "load") {
      fetches.push({ start: event, events: [] });
    } else {
      fetches[fetches.length - 1].events.push(event);
    }
  });
  return fetches;
}

// ---- the step of one event

function bodyText(body) {
  return { none: "no body", whole: body.length + " bytes", cut: "body cut after " + body.length + " bytes",
    fault: "link failed after " + body.length + " bytes", toobig: "body too big" }[body.end];
}

function refusalOf(event) {
  const table = event.result === "error" ? tables.networkErrors : tables.requestFaults;
  const { number, name, sentence, rule } = table.get(event.number);
  const detail = event.header || (event.index === null || event.index === undefined ? "" : String(event.index));
  return { number, name, detail, sentence, rule, fault: event.result === "fault" };
}

function resultStep(event, lane, server) {
  if (event.result === "loaded") {
    return { kind: "result", from: server, to: lane, label: "loaded" };
  }
  if (event.result === "response") {
    const text = event.type + " " + event.status + (event.url === null ? "" : " " + event.url);
    return { kind: "result", from: server, to: lane, label: text + ", " + bodyText(event.body) };
  }
  const refusal = refusalOf(event);
  const label = [refusal.number, refusal.name, refusal.detail].join(" ").trim();
  // With 1 to 6 nothing was sent to the URL that is refused, so no server answered.
  const answered = event.result === "error" && event.number > 6;
  return { kind: "refusal", from: answered ? server : lane, to: lane, label, refusal };
}

function headerOf(event, name) {
  const found = event.headers.find((header) => header.name === name);
  return found === undefined ? null : found.value;
}

// What a preflight asks for.
function wishOf(event) {
  const names = headerOf(event, "Access-Control-Request-Headers");
  return ", may it " + headerOf(event, "Access-Control-Request-Method") + (names === null ? "?" : " with " + names + "?");
}

// What an answer goes by, beside the method and the target.
function tellingHeaders(event) {
  const origin = headerOf(event, "Origin");
  const held = ["Cookie", "Authorization"].filter((name) => headerOf(event, name) !== null);
  return (origin === null ? "" : ", Origin " + origin) + held.map((name) => ", with " + name).join("");
}

// The Referer after a redirect, and where it is another than that of the document's request before.
function refererText(steps, event) {
  const referer = headerOf(event, "Referer");
  const isTold = steps.isRedirected || referer !== steps.referer;
  steps.referer = referer;
  return !isTold ? "" : referer === null ? ", no Referer" : ", Referer " + referer;
}

function sendStep(steps, event) {
  const label = event.method + " " + event.origin + event.target;
  const arrow = { from: steps.lane, to: steps.laneOfServer.get(event.origin) };
  if (isPreflight(event)) {
    return { kind: "preflight", ...arrow, label: label + wishOf(event) };
  }
  const body = event.body === null ? "" : ", " + event.body.length + " bytes";
  return { kind: "request", ...arrow, label: label + body + tellingHeaders(event) + refererText(steps, event) };
}

function secondsText(count) {
  return count + (count === 1 ? " second" : " seconds");
}

// The request that the preflight cache is asked about, or has learnt.
function coveredText(event) {
  const methods = [].concat(event.method || event.methods || []);
  const credentials = event.credentials === "include" ? "with credentials" : "without credentials";
  return [...methods, ...event.names].join(" ") + " " + event.url + ", " + credentials;
}

// A call in words, the reply first where they may be long; the words of the text are those of its line.
const CALLS_TOLD = {
  match: (event) => "is " + event.host + " a known host? " + event.reply,
  note: (event) => (event.age === 0 ? "max-age 0: forget the known host " + event.host
    : event.host + " is a known host for " + secondsText(event.age) + (event.reach === "sub" ? ", with its subdomains" : "")),
  covers: (event) => "covered? " + event.reply + ": " + coveredText(event) + ", " + askerText(event),
  learn: (event) => "learnt for " + secondsText(event.age) + ": " + coveredText(event) + ", " + askerText(event),
  clear: (event) => "forget " + event.url + ", " + askerText(event),
};

function askerText(event) {
  return "for " + event.origin + (event.origin === event.key ? "" : " under " + event.key);
}

function callStep(event, lane, book) {
  const label = CALLS_TOLD[event.op](event);
  return { kind: "call", from: lane, to: book, label, turn: event.turn, entryLine: event.entryLine };
}

function violationStep(event, lane) {
  const manner = event.enforced ? "enforced" : "report only";
  return { kind: "violation", from: lane, to: lane, enforced: event.enforced,
    label: "policy " + event.policy + ", " + manner + ": " + event.directive + " " + event.url };
}

// ---- the steps of one document, in the order of its text

// Gathers steps, and counts the calls of the book before each: the documents are woven by that.
class Steps {
  constructor(document, laneOfServer, book) {
    this.lane = document.number;
    this.laneOfServer = laneOfServer;
    this.book = book;
    this.calls = 0;
    this.time = null;
    this.referer = null;
    this.isRedirected = false;
    this.fetch = null;
    this.all = [];
  }

  add(step, line, last) {
    this.calls += step.kind === "call" ? 1 : 0;
    this.all.push({ ...step, document: this.lane, fetch: this.fetch, line, last, calls: this.calls, said: [] });
  }

  mark(kind, label, line) {
    this.add({ kind, from: this.lane, to: this.lane, label }, line, line);
  }
}

// The clock is told by calls alone, and stands still during a fetch.
function addTime(steps, events) {
  const call = events.find((event) => event.kind === "call");
  if (call === undefined || call.at === steps.time) {
    return;
  }
  const passed = steps.time === null ? "" : ", " + secondsText(call.at - steps.time) + " later";
  if (steps.time !== null || call.at !== 0) {
    steps.mark("wait", "at " + call.at + passed, call.line);
  }
  steps.time = call.at;
}

function addEvent(steps, event, server) {
  const step = {
    call: () => callStep(event, steps.lane, steps.book),
    send: () => sendStep(steps, event),
    violation: () => violationStep(event, steps.lane),
    result: () => resultStep(event, steps.lane, server),
  }[event.kind]();
  steps.add(step, event.line, event.last);
}

function addRedirect(steps, events, told, request) {
  const target = targetOf(events.slice(told));
  steps.isRedirected = true;
  steps.add({ kind: "redirect", from: steps.laneOfServer.get(request.origin), to: steps.lane,
    label: "to " + (target === null ? "a URL that is refused" : target) }, request.line, events[told].last);
}

// What a fetch or a load asks for, as far as its lines tell it; null where they do not.
function askedText(events) {
  const request = events.find(isRequest);
  if (request !== undefined) {
    return request.method + " " + request.origin + request.target;
  }
  const told = events.find((event) => event.op === "covers" || event.kind === "violation");
  return told === undefined ? null : [told.method, told.url].filter((part) => typeof part === "string").join(" ");
}

// All of a fetch in one mark: what was asked, and what came of it.
function sumUp(steps, start, events) {
  const last = steps.all[steps.all.length - 1];
  start.outcome = last.kind;
  start.folded = [start.label, askedText(events), last.label].filter((part) => part !== null).join(": ");
}

function addFetch(steps, { start, events }) {
  steps.fetch = start.number;
  addTime(steps, events);
  steps.isRedirected = false;
  const kindOfLoad = start.kind === "load" ? ", " + start.destination : "";
  steps.mark(start.kind, start.kind + " " + start.number + kindOfLoad, start.line);
  const first = steps.all[steps.all.length - 1];
  let server = steps.lane;
  let pending = null;
  events.forEach((event, index) => {
    if (pending !== null && pending.before === index) {
      addRedirect(steps, events, pending.told, pending.request);
    }
    addEvent(steps, event, server);
    if (event.kind === "send") {
      server = steps.laneOfServer.get(event.origin);
    }
    if (isRequest(event)) {
      const redirect = redirectAfter(events, index);
      pending = redirect === null ? null : { ...redirect, request: event };
    }
  });
  sumUp(steps, first, events);
}

function stepsOfDocument(document, laneOfServer, book) {
  const steps = new Steps(document, laneOfServer, book);
  steps.mark("begin", "under the key " + document.key, document.line);
  fetchesOf(document).forEach((fetch) => addFetch(steps, fetch));
  steps.fetch = null;
  steps.mark("end", document.ending, document.last);
  return steps.all;
}

// ---- all documents: by the turns of the history

// Takes from the end of `rest`, which has a document's steps from the last to the first, those up to its next call.
function takeUntilCall(rest, calls, woven) {
  while (rest.length > 0 && rest[rest.length - 1].calls <= calls) {
    woven.push(rest.pop());
  }
}

// What a document does before its first call comes first, and then each call with what its document does after it.
function weave(all, history) {
  const rests = all.map((steps) => [...steps].reverse());
  const calls = all.map(() => 0);
  const woven = [];
  rests.forEach((rest) => takeUntilCall(rest, 0, woven));
  history.forEach(({ document }) => {
    calls[document] += 1;
    takeUntilCall(rests[document], calls[document], woven);
  });
  return woven;
}

// For each line of the text the index of its step, or undefined. Lines of other steps tell a redirect and a wait.
function stepsByLine(steps) {
  const byLine = [];
  steps.forEach((step, index) => {
    const own = step.kind === "redirect" || step.kind === "wait" ? 0 : step.last - step.line + 1;
    byLine.length = Math.max(byLine.length, step.line + own);
    byLine.fill(index, step.line, step.line + own);
    if (step.entryLine !== undefined) {
      byLine[step.entryLine] = index;
    }
  });
  return byLine;
}

// Gives each step what is said behind its lines, and a request its answer's status. What is said of no step is left.
function attachSaid(steps, byLine, said) {
  const left = [];
  said.forEach((lines, line) => {
    const step = steps[byLine[line]];
    (step === undefined ? left : step.said).push(...lines);
  });
  steps.filter(({ kind }) => kind === "request" || kind === "preflight").forEach((step) => {
    const status = telling.statusOf(step.said);
    step.label += status === null ? "" : ", answered " + status;
  });
  return left;
}

// `said` is what readTold has found beside the play.
function stepsOf(play, said = new Map()) {
  const lanes = lanesOf(play);
  const laneOfServer = new Map();
  lanes.forEach((lane, index) => lane.kind === "server" && laneOfServer.set(lane.name, index));
  const book = play.documents.length;
  const all = play.documents.map((document) => stepsOfDocument(document, laneOfServer, book));
  const steps = weave(all, play.history);
  const byLine = stepsByLine(steps);
  return { lanes, steps, byLine, left: attachSaid(steps, byLine, said) };
}

// A step in words, for who hears the drawing.
function spokenStep(step, lanes) {
  const own = lanes[step.document].name;
  const [from, to] = [lanes[step.from].name, lanes[step.to].name];
  const words = {
    begin: own + " begins ",
    end: own + " ends: ",
    wait: "time of " + own + ": ",
    call: own + " calls the shared book: ",
    preflight: own + " sends a preflight: ",
    request: own + " sends a request: ",
    redirect: from + " redirects " + own + " ",
    violation: own + " violates ",
    result: own + " gets a result from " + from + ": ",
    refusal: own + " is refused: ",
  }[step.kind];
  const meaning = step.refusal === undefined ? "" : ". " + step.refusal.sentence;
  return (words === undefined ? own + " starts " : words) + step.label + meaning;
}

if (typeof module !== "undefined") {
  module.exports = { spokenStep, stepsOf };
}
