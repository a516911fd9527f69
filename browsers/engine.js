"use strict";

// The engine's play of a scenario, in the shape in which a browser's is kept: command by command, what was sent, which
// policies were violated and what came of it. The text is read by view/play.js.

const path = require("path");
const { spawnSync } = require("child_process");
const { readPlay } = require("../view/play.js");
const { commandsOf, placeIn, NOTHING } = require("./scenario.js");

const PROGRAM = process.env.FETCHPLAY || path.join(__dirname, "..", "bin", "fetchplay");

// How often several documents are played until they come one after another.
const TRIES = 400;

// The statuses with which the program refuses its input (docs/rules/command-line.md), and has said so.
const REFUSALS = [2, 6];

class Refused extends Error {
  constructor() {
    super("the engine refuses the scenario");
    this.name = "Refused";
  }
}

// The printed text of the play of these bytes. What the program says, also while it is being proved, is seen at once.
function printedPlay(scenario) {
  const ran = spawnSync(PROGRAM, ["play"], { input: scenario, encoding: "latin1", maxBuffer: 1 << 28,
    stdio: ["pipe", "pipe", "inherit"] });
  // A refusal may come before the input is read to its end, which is an error of writing it, too.
  if (REFUSALS.includes(ran.status)) {
    throw new Refused();
  }
  if (ran.error !== undefined) {
    throw new Error(PROGRAM + ": " + ran.error.message);
  }
  if (ran.status !== 0) {
    throw new Error(PROGRAM + " ended with " + (ran.status === null ? ran.signal : "status " + ran.status));
  }
  return ran.stdout;
}

// The bytes of an escaped text, each a character.
function unescaped(text) {
  return text.replace(/\\x([0-9a-f]{2})/g, (_, digits) => String.fromCharCode(parseInt(digits, 16)));
}

const pairsOf = (headers) => headers.map((header) => [header.name, unescaped(header.value)]);
const hexOf = (body) => Buffer.from(unescaped(body.text), "latin1").toString("hex");

function requestOf(event) {
  return { origin: event.origin, method: event.method, target: unescaped(event.target), headers: pairsOf(event.headers),
    body: event.body === null ? "" : hexOf(event.body) };
}

function resultOf(event) {
  if (event.result !== "response") {
    const { result, number, name, header, of } = event;
    return { result: result === "loaded" ? "loaded" : of === "load" ? "failed" : "error", fault: result === "fault",
      number: number === undefined ? null : number, name: name === undefined ? null : name, header: header || null };
  }
  const body = event.body.end === "whole" ? { end: "whole", hex: hexOf(event.body) } : { end: event.body.end };
  return { result: "response", type: event.type, status: event.status, url: event.url === null ? "" : event.url,
    headers: pairsOf(event.headers), body };
}

function lastOf(result) {
  if (result.result === "response") {
    const body = result.body.end === "whole" ? Buffer.from(result.body.hex, "hex").toString("utf8") : null;
    return { ...NOTHING, type: result.type, status: result.status, body };
  }
  return { ...NOTHING, type: result.fault && result.result === "error" ? "type-error" : result.result };
}

const violationsOf = (events) => events.filter((event) => event.kind === "violation")
  .map(({ policy, enforced, directive, url }) => ({ policy, enforced, directive, url }));

// `behindLast`: the violations that are told behind the last request, at its response where there is one.
function commandOf(events) {
  const of = (kind) => events.filter((event) => event.kind === kind);
  const last = events.map((event) => event.kind).lastIndexOf("send");
  return { requests: of("send").map(requestOf), calls: of("call"), violations: violationsOf(events),
    behindLast: violationsOf(events.slice(last + 1)), result: resultOf(of("result")[0]) };
}

// The fetches and loads of a document, the first one where no number is given, each with the place of its command in the
// script.
function readCommands(text, document, number = 0) {
  const starts = [];
  readPlay(text).documents[number].events.forEach((event) => {
    if (event.kind === "fetch" || event.kind === "load") {
      starts.push([]);
    } else {
      starts[starts.length - 1].push(event);
    }
  });
  const state = { last: NOTHING };
  const commands = [];
  for (const { place, command } of commandsOf(document.script, state)) {
    if (command.wait === undefined && commands.length < starts.length) {
      const played = commandOf(starts[commands.length]);
      commands.push({ place, command, ...played });
      state.last = lastOf(played.result);
    }
  }
  return commands;
}

// The commands of all documents; `at` says which number a document has in the text.
function commandsIn(text, scenario, at = (number) => number) {
  return scenario.documents.flatMap((document, number) => readCommands(text, document, at(number))
    .map((command) => ({ ...command, place: placeIn(scenario, number, command.place) })));
}

// Whether the calls of each document stand behind those of the documents before it.
const isInOrder = (numbers) => numbers.every((number, index) => index === 0 || numbers[index - 1] <= number);

// A play in which each document ends before the next begins, as a browser plays them. The engine plays them side by side,
// and which comes first is left to the machine: so they are played in both orders until they come one after another.
function commandsInOrder(bytes, scenario) {
  const last = scenario.documents.length - 1;
  const turned = Buffer.from(JSON.stringify({ ...scenario, documents: [...scenario.documents].reverse() }));
  for (let tries = 0; tries < TRIES; tries += 1) {
    for (const [played, at] of [[bytes, (number) => number], [turned, (number) => last - number]]) {
      const text = printedPlay(played);
      if (isInOrder(readPlay(text).history.map((entry) => at(entry.document)))) {
        return commandsIn(text, scenario, at);
      }
    }
  }
  throw new Error("the engine did not play the documents one after another in " + 2 * TRIES + " plays");
}

// The engine's commands of a scenario, whose bytes are these.
function playedCommands(bytes, scenario) {
  return scenario.documents.length === 1 ? commandsIn(printedPlay(bytes), scenario) : commandsInOrder(bytes, scenario);
}

module.exports = { printedPlay, playedCommands, commandsIn, readCommands, Refused };
