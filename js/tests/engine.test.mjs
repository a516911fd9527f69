// The module by random calls, plays and audits against the native library and the program; its memory, and its times.
import fs from "node:fs";
import path from "node:path";
import test from "node:test";
import { spawnSync } from "node:child_process";
import { compare, leave } from "../../view/tests/base.js";
import { caseFiles, galleryFiles, generatedText, isInTurn } from "../../view/tests/stored.js";
import { BUILT, ROOT, hasNative, inPackage, native } from "./built.mjs";
import { Drawer, SLOT_COUNT, given, parametersOf } from "./drawn.mjs";

const MOST_NANOSECONDS = 5000; // of the processor's time, of a corsCheck, which takes less than a thousand
const fiorrudda = await inPackage("index.js");
const { Engine } = await inPackage("engine.js");
const calls = await inPackage("calls.js");
const wasm = await WebAssembly.compile(fs.readFileSync(path.join(BUILT, "fiorrudda.wasm")));

// ---- random calls

// What came of a call, as tests.js.native has it.
function cameOf(answer, kinds) {
  const outs = kinds.filter((kind) => kind.endsWith("_out"));
  if (typeof answer !== "object") {
    return [answer === undefined ? null : answer, null, []];
  }
  const { code, bytes, ...told } = answer;
  const text = bytes === undefined || bytes === null ? null : Buffer.from(bytes).toString("base64");
  return [code, text, outs.length === 0 ? [] : Object.values(told)];
}

// All calls of the module, and handles for what they are given.
class Caller {
  constructor(engine) {
    this.engine = engine;
    this.names = Object.keys(calls.CALLS).filter((name) => name !== "play");
    const camel = (name) => name.replace(/_(\w)/g, (_, letter) => letter.toUpperCase());
    this.functions = new Map(this.names.map((name) => [name, calls[camel(name)]]));
    this.parameters = new Map(this.names.map((name) => [name, parametersOf(this.functions.get(name))]));
    this.handles = Array.from({ length: SLOT_COUNT }, () => engine.handle());
    this.drawer = new Drawer(7);
  }

  // A random call: the line that tells it and what came of it.
  line(name) {
    const kinds = calls.CALLS[name].split(" ");
    const words = given(this.drawer, name, this.parameters.get(name));
    const lent = kinds.filter((kind) => kind !== "room" && !kind.endsWith("_out"));
    const taken = words.map((word, at) => (lent[at] === "handle" ? this.handles[word] : word));
    const answer = this.functions.get(name)(this.engine, ...taken);
    const shown = words.map((word) => (typeof word === "number" ? word : word.toString("base64")));
    return JSON.stringify([name, shown, cameOf(answer, kinds)]);
  }

  empty() {
    this.handles.forEach((at) => this.engine.exports.fiorrudda_free(at));
  }

  close() {
    this.handles.forEach((at) => this.engine.free(at));
  }
}

const NO_NATIVE = hasNative() ? false : "there is no native library, or no python3";

test("random calls", { skip: NO_NATIVE }, async (context) => {
  const caller = new Caller(new Engine(wasm));
  const { names, drawer } = caller;
  const count = Number(process.env.CALLS || 10000) * names.length;
  let [done, difference] = [0, null];
  for (const lines = [JSON.stringify(calls.CALLS)]; done < count && difference === null; lines.length = 1) {
    while (lines.length < 20000) {
      lines.push(caller.line(names[done % names.length === 0 ? 0 : drawer.below(names.length)]));
      done += 1;
    }
    caller.empty(); // as each batch begins there, too
    [, difference] = JSON.parse(native("calls", lines.join("\n") + "\n"));
    await compare(context, "up to " + done, difference, null);
  }
  caller.close();
  context.diagnostic(done.toLocaleString("en") + " random calls of " + names.length
    + " kinds are answered as by the native library");
});

// ---- plays

const generatedOf = (count) => Buffer.from(generatedText(count));

function played(scenario) {
  try {
    return [0, fiorrudda.play(scenario)];
  } catch (error) {
    return [error.code, error.place || error.name];
  }
}

function allScenarios() {
  const files = [...galleryFiles(), ...caseFiles()].map(([file]) => file);
  const stored = files.map((file) => ({ name: path.relative(ROOT, file), scenario: fs.readFileSync(file) }));
  const generated = [1, 2, 8, 64].map((count) => ({ name: "gen " + count, scenario: generatedOf(count) }));
  return [...stored, ...generated].map((one) => ({ ...one, came: played(one.scenario) }));
}

function program() {
  return [process.env.FETCHPLAY, path.join(ROOT, "crates", "fetchplay", "out", "fetchplay")].find((one) => one
    && fs.existsSync(one));
}

// Gives whether the program printed the same.
async function checkProgram(context, { name, scenario, came: [code, text] }) {
  const ran = spawnSync(program(), ["play"], { input: scenario, maxBuffer: 1 << 28 });
  const printed = ran.stdout.toString("latin1");
  if (ran.status === 2) {
    const [, place] = /refused at (\S+)/.exec(ran.stderr.toString());
    await compare(context, name + ": refused", [code, text], [1, place]);
    return false;
  }
  if (isInTurn(printed)) {
    await compare(context, name + ": by the program", [code, text === printed], [0, true]);
    return true;
  }
  return false;
}

async function checkLibrary(context, all) {
  const scenarios = all.map(({ scenario }) => scenario.toString("base64"));
  const lines = native("plays", scenarios.join("\n") + "\n").split("\n");
  for (const [at, { name, came }] of all.entries()) {
    const [code, text] = JSON.parse(lines[at]);
    await compare(context, name + ": by the library", [code, came[1] === Buffer.from(text, "base64").toString()],
      [came[0], true]);
  }
}

test("plays", async (context) => {
  const all = allScenarios();
  if (caseFiles().length === 0) {
    await leave(context, "the cases of ../shared/cases, which are not there");
  }
  await context.test("by the program", { skip: program() ? false : "FETCHPLAY names none" }, async (own) => {
    let equal = 0;
    for (const one of all) {
      equal += await checkProgram(own, one) ? 1 : 0;
    }
    context.diagnostic(equal + " of " + all.length + " plays are what the program printed");
  });
  await context.test("by the library", { skip: NO_NATIVE }, async (own) => {
    await checkLibrary(own, all);
    context.diagnostic(all.length + " plays are those of the native library");
  });
});

// Of each stored play of the gallery, and of the same with a line less.
test("audits", async (context) => {
  const engine = new Engine(wasm);
  const lines = [JSON.stringify(calls.CALLS)];
  for (const files of galleryFiles()) {
    const [scenario, stored] = files.map((file) => fs.readFileSync(file));
    const cut = Buffer.from(stored.toString("latin1").replace(/^  .*\n/m, ""), "latin1");
    await compare(context, path.relative(ROOT, files[0]) + ": its audit", calls.audit(engine, scenario, stored).code, 0);
    for (const text of [stored, cut]) {
      const came = cameOf(calls.audit(engine, scenario, text), ["text", "text", "room"]);
      lines.push(JSON.stringify(["audit", [scenario.toString("base64"), text.toString("base64")], came]));
    }
  }
  if (hasNative()) {
    await compare(context, "audits", JSON.parse(native("calls", lines.join("\n") + "\n")), [lines.length - 1, null]);
  }
  context.diagnostic(lines.length - 1 + " audits"
    + (hasNative() ? " say what those of the native library say" : ""));
});

function reportProgram() {
  return [process.env.CSPREPORT, path.join(ROOT, "crates", "cspreport", "out", "cspreport")].find((one) => one
    && fs.existsSync(one));
}

// What the program prints of the reports of a play, or null where its documents came in another order.
function reportedByProgram(scenario) {
  const ran = spawnSync(reportProgram(), ["play"], { input: scenario, maxBuffer: 1 << 28 });
  if (ran.status === 2) {
    return [1, /fault 2 at (\S+)/.exec(ran.stderr.toString())[1]];
  }
  const printed = ran.stdout.toString("latin1");
  return isInTurn(printed) ? [0, printed] : null;
}

// Of each play of the gallery, and of each case that has a policy.
test("reports", async (context) => {
  const engine = new Engine(wasm);
  const lines = [JSON.stringify(calls.CALLS)];
  let printed = 0;
  for (const [file] of [...galleryFiles(), ...caseFiles()]) {
    const scenario = fs.readFileSync(file);
    const answer = calls.reports(engine, scenario);
    lines.push(JSON.stringify(["reports", [scenario.toString("base64")], cameOf(answer, ["text", "room"])]));
    const wanted = reportProgram() ? reportedByProgram(scenario) : null;
    if (wanted) {
      const came = [answer.code, Buffer.from(answer.bytes).toString("latin1")];
      await compare(context, path.relative(ROOT, file) + ": its reports", came, wanted);
      printed += 1;
    }
  }
  if (hasNative()) {
    await compare(context, "reports", JSON.parse(native("calls", lines.join("\n") + "\n")), [lines.length - 1, null]);
  }
  context.diagnostic(lines.length - 1 + " plays with reports, " + printed + " as the program printed them");
});

// ---- memory

// By an engine of its own, whose blocks are counted.
test("blocks", async (context) => {
  const engine = new Engine(wasm);
  const scenario = fs.readFileSync(path.join(ROOT, "gallery", "star-with-credentials", "scenario.json"));
  calls.play(engine, scenario);
  const [lent, size] = [engine.exports.room_lent(), engine.exports.memory.buffer.byteLength];
  const count = Number(process.env.PLAYS || 100000);
  for (let at = 0; at < count; at += 1) {
    calls.play(engine, scenario);
  }
  await compare(context, "blocks that are left of plays", Number(engine.exports.room_lent() - lent), 0);
  await compare(context, "the memory after plays", engine.exports.memory.buffer.byteLength, size);
  context.diagnostic(count.toLocaleString("en") + " plays leave nothing, in " + (size >> 10) + " KiB");
});

// A memory that is full: a code, and the engine goes on.
test("with no more memory", async (context) => {
  const engine = new Engine(wasm);
  engine.exports.room_limit(BigInt(engine.exports.memory.buffer.byteLength));
  const { code } = calls.play(engine, fs.readFileSync(path.join(ROOT, "examples", "several-fetches.json")));
  const wide = calls.play(engine, Buffer.from('{"format": 1, "documents": [], "x": "' + "y".repeat(1000) + '"}'));
  engine.exports.room_limit(1n << 40n);
  await compare(context, "a play", [0, 3].includes(code), true);
  await compare(context, "a refused scenario", wide.code, 1);
});

// ---- times

function median(times) {
  return times.sort((one, other) => one - other)[times.length >> 1];
}

function timesOf(count, work) {
  return Array.from({ length: count }, () => {
    const begun = process.hrtime.bigint();
    work();
    return Number(process.hrtime.bigint() - begun) / 1e6;
  });
}

// By the processor's time, since others may run beside it.
function nanosecondsOfCheck() {
  const list = new fiorrudda.HeaderList([["Access-Control-Allow-Origin", "https://app.example"]]);
  const rounds = Array.from({ length: 20 }, () => {
    const begun = process.cpuUsage();
    for (let at = 0; at < 50000; at += 1) {
      fiorrudda.corsCheck("https://app.example", list);
    }
    const { user, system } = process.cpuUsage(begun);
    return (user + system) * 1000 / 50000;
  });
  return Math.round(Math.min(...rounds));
}

test("times", async (context) => {
  const nanoseconds = nanosecondsOfCheck();
  await compare(context, "corsCheck in " + nanoseconds + " ns", nanoseconds <= MOST_NANOSECONDS, true);
  context.diagnostic("corsCheck in " + nanoseconds + " ns");
  const scenario = generatedOf(8);
  const own = median(timesOf(200, () => fiorrudda.play(scenario)));
  context.diagnostic("the play of gen 8 in " + own.toFixed(2) + " ms"
    + (hasNative() ? ", native " + Number(native("time", scenario)).toFixed(2) : ""));
});
