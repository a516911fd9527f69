"use strict";

// What view/check does: it says there what that is.

const fs = require("fs");
const os = require("os");
const path = require("path");
const { spawnSync } = require("child_process");
const test = require("node:test");
const { readPlay, PlayError } = require("../play.js");
const { readTold } = require("../told.js");
const { stepsOf } = require("../steps.js");
const { networkErrors, requestFaults, ERROR_TEXTS, FAULT_TEXTS } = require("../errors.js");
const engineNames = require("../names.js");
const made = require("./made.js");
const chosen = require("./chosen.js");
const drawn = require("./drawn.js");
const { compare } = require("./base.js");
const { inBrowsers } = require("./browsers.js");

const ROOT = path.join(__dirname, "..", "..");
const SCRIPTS = 12;
const LONG = 10000; // lines
const MOST_TIME = 5; // seconds of the processor, for what takes a tenth of one

function textOf(...names) {
  return fs.readFileSync(path.join(ROOT, ...names), "latin1");
}

// ---- the stored plays

// Over real servers the time of a call differs from run to run, so it is stored as T.
function storedPlays() {
  const gallery = fs.readdirSync(path.join(ROOT, "gallery"), { withFileTypes: true });
  const plays = gallery.filter((entry) => entry.isDirectory()).map((entry) => "gallery/" + entry.name + "/play.txt");
  const examples = fs.readdirSync(path.join(ROOT, "examples")).filter((name) => name.endsWith(".out"));
  const all = [...plays, ...examples.map((name) => "examples/" + name), "net/play.txt"];
  return all.map((name) => ({ name, text: textOf(name).replace(/ at T: /g, " at 7: ") }));
}

const knownHost = () => textOf("examples", "known-host.out");

// What grep counts: each kind of step by the beginning of its lines.
const GREPS = {
  begin: "^document ",
  fetch: "^fetch ",
  load: "^load ",
  call: "^call ",
  preflight: "^  Access-Control-Request-Method: ",
  sent: "^send ",
  violation: "^violation ",
  result: "^result (basic|cors|opaque|opaqueredirect|loaded)( |$)",
  refusal: "^result (error|failed|type-error) ",
  end: "^end ",
  history: "^[0-9]+ [0-9]+ (match|note|covers|learn|clear) ",
};

function grepCount(pattern, text) {
  return Number(spawnSync("grep", ["-cE", pattern], { input: text, encoding: "latin1" }).stdout);
}

function countsByGrep(text) {
  return Object.fromEntries(Object.entries(GREPS).map(([name, pattern]) => [name, grepCount(pattern, text)]));
}

function countsOfSteps(play, steps) {
  const count = (kind) => steps.filter((step) => step.kind === kind).length;
  const counts = Object.fromEntries(Object.keys(GREPS).map((name) => [name, count(name)]));
  return { ...counts, sent: count("preflight") + count("request"), history: play.history.length };
}

// Written by hand, from the scenarios: no line of a play tells that a redirect was followed.
const REDIRECTS = { "gallery/redirect-method/play.txt": 4, "gallery/csp-path-after-redirect/play.txt": 2,
  "gallery/tabs-share/play.txt": 2, "gallery/redirect-origin/play.txt": 4,
  "gallery/redirect-authorization/play.txt": 3, "gallery/redirect-referrer/play.txt": 4,
  "gallery/just-these-pages/play.txt": 0, "examples/known-host.out": 0 };

function ascends(numbers) {
  return numbers.every((number, index) => index === 0 || numbers[index - 1] < number);
}

async function checkOrder(context, name, play, steps) {
  const told = steps.filter((step) => step.kind !== "wait" && step.kind !== "redirect");
  for (const { number } of play.documents) {
    const lines = told.filter((step) => step.document === number).map((step) => step.line);
    await compare(context, name + ": the order of document " + number, ascends(lines), true);
  }
  const turns = steps.filter((step) => step.kind === "call").map((step) => step.turn);
  await compare(context, name + ": the turns", turns, play.history.map((entry) => entry.turn));
}

// Each line from the first document's to the one before `history` belongs to a step, and so does each entry.
async function checkLines(context, name, text, play, byLine) {
  const lines = text.split("\n");
  const history = lines.length - play.history.length - 2;
  const outside = [1, history, lines.length - 1];
  const bare = lines.slice(0, -1).map((line, index) => index + 1).filter((line) => byLine[line] === undefined);
  await compare(context, name + ": the lines without a step", bare, outside);
}

async function checkPlay(context, { name, text }) {
  const play = readPlay(text);
  const { steps, byLine } = stepsOf(play);
  await compare(context, name + ": the counts", countsOfSteps(play, steps), countsByGrep(text));
  await checkOrder(context, name, play, steps);
  await checkLines(context, name, text, play, byLine);
  if (REDIRECTS[name] !== undefined) {
    await compare(context, name + ": the redirects", steps.filter((step) => step.kind === "redirect").length,
      REDIRECTS[name]);
  }
}

test("the stored plays", async (context) => {
  const plays = storedPlays();
  for (const play of plays) {
    await context.test(play.name, (own) => checkPlay(own, play));
  }
  context.diagnostic(plays.length + " plays are read and stepped");
});

// ---- the plays of the stored run: those that the top call wrote with status 0, where the whole text is stored

function rowPlays() {
  const parts = textOf("crates", "rows_plays", "stdout").split(/^status 0\n(?=fetchplay 1\n)/m).slice(1);
  const plays = parts.map((text) => text.split("\n\n")[0] + "\n");
  return plays.filter((text) => text.includes("\ndone\n")).map((text) => text.slice(0, text.indexOf("\ndone\n") + 6));
}

// Gives the counts of its steps.
async function checkRow(context, name, text) {
  const play = readPlay(text);
  const { steps, byLine } = stepsOf(play);
  await checkOrder(context, name, play, steps);
  await checkLines(context, name, text, play, byLine);
  return countsOfSteps(play, steps);
}

// Their steps are counted together.
test("the plays of the stored run", async (context) => {
  const texts = rowPlays();
  const sums = Object.fromEntries(Object.keys(GREPS).map((name) => [name, 0]));
  for (const [index, text] of texts.entries()) {
    Object.entries(await checkRow(context, "row " + index, text)).forEach(([name, count]) => {
      sums[name] += count;
    });
  }
  await compare(context, "how many there are", texts.length > 200, true);
  await compare(context, "the counts", sums, countsByGrep(texts.join("")));
  context.diagnostic(texts.length + " of the stored run too");
});

// ---- texts that are no play

// The line at which a text is refused.
function lineOfRefusal(text) {
  try {
    readPlay(text);
    return "it was read";
  } catch (error) {
    return error instanceof PlayError ? error.line : error.stack;
  }
}

test("texts that are no play", async (context) => {
  const refused = made.refusedTexts(knownHost());
  for (const [name, text, line] of refused) {
    await compare(context, name + ": the line", lineOfRefusal(text), line);
  }
  context.diagnostic(refused.length + " texts are refused");
});

// ---- violations: of each directive of the engine, and of one that is unknown, which is drawn all the same

test("directives", async (context) => {
  for (const directive of [...engineNames.directives, "worker-src"]) {
    const { steps } = stepsOf(readPlay(made.violatingPlay(directive)));
    await compare(context, "a violation of " + directive,
      steps.filter(({ kind }) => kind === "violation").map(({ label }) => label),
      ["policy 0, enforced: " + directive + " http://a.test/"]);
  }
});

// ---- a long play

test("the long play", async (context) => {
  const text = made.longPlay(LONG);
  const start = process.cpuUsage();
  const play = readPlay(text);
  const { steps } = stepsOf(play);
  const { user, system } = process.cpuUsage(start);
  const took = (user + system) / 1e6;
  await compare(context, "its lines", text.split("\n").length > LONG, true);
  await compare(context, "the counts", countsOfSteps(play, steps), countsByGrep(text));
  await compare(context, "it took " + took.toFixed(2) + " seconds", took < MOST_TIME, true);
});

// ---- what is said between the lines, and the switches

test("a told play", (context) => chosen.checkTold(context, knownHost()));

test("the switches", (context) => chosen.checkChoice(context, knownHost()));

// ---- the refusals, and where their rules stand

function listed(title) {
  const part = textOf("docs", "rules", "printed-text.md").split("\n## " + title + "\n")[1].split("\n## ")[0];
  const cells = [...part.matchAll(/\| ([0-9]+) \| ([A-Za-z]+) (?=\|)/g)];
  return cells.map((cell) => cell[1] + " " + cell[2]);
}

// The anchor of a title, as a forge makes it.
function anchorOf(title) {
  return title.toLowerCase().replace(/[^a-z0-9 _-]/g, "").replace(/ /g, "-");
}

async function checkRule(context, { name, rule }) {
  const [file, anchor] = rule.split("#");
  const titles = [...textOf("docs", file).matchAll(/^#+ (.*)$/gm)].map((title) => anchorOf(title[1]));
  await compare(context, name + ": the place of its rule", anchor === undefined || titles.includes(anchor), true);
}

// Each name of the engine is in the page, and has its text.
async function checkTable(context, title, table, names, texts) {
  const [own, told] = [Object.entries(names).map(([name, number]) => number + " " + name), listed(title)];
  await compare(context, "what the page lacks", own.filter((one) => !told.includes(one)), []);
  await compare(context, "what the page has too much", told.filter((one) => !own.includes(one)), []);
  await compare(context, "names without a text", Object.keys(names).filter((name) => !(name in texts)), []);
  await compare(context, "texts without a name", Object.keys(texts).filter((name) => !(name in names)), []);
  for (const row of table.values()) {
    await checkRule(context, row);
  }
}

test("Network errors", (context) => checkTable(context, "Network errors", networkErrors, engineNames.network_errors,
  ERROR_TEXTS));

test("Faults of a request", (context) => checkTable(context, "Faults of a request", requestFaults,
  engineNames.request_faults, FAULT_TEXTS));

// ---- the scripts of the page, which share their names

test("the scripts of the page", async (context) => {
  const files = [...textOf("view", "page.html").matchAll(/<script src="(\w+\.js)">/g)].map((found) => found[1]);
  await compare(context, "how many there are", files.length, SCRIPTS);
  const names = files.flatMap((file) => [...textOf("view", file).matchAll(/^(?:const|let|class|function) (\w+)/gm)])
    .map((found) => found[1]);
  await compare(context, "names that two scripts have", names.filter((name, at) => names.indexOf(name) !== at), []);
  for (const file of files) {
    await compare(context, file + ": what would end it", /<\/script|<!--/i.test(textOf("view", file)), false);
  }
});

// ---- the pages that bin/view writes

function hasPython() {
  return spawnSync("python3", ["-c", "import sys; sys.exit(sys.version_info < (3, 9))"]).status === 0;
}

async function writePage(context, folder, name, text) {
  const [given, page] = [path.join(folder, name + ".txt"), path.join(folder, name + ".html")];
  fs.writeFileSync(given, text, "latin1");
  const ran = spawnSync(path.join(ROOT, "bin", "view"), ["--text", given, "-o", page], { encoding: "utf8" });
  await compare(context, name + ": bin/view", [ran.status, ran.stdout, ran.stderr], [0, page + "\n", ""]);
  return page;
}

// The block of data is JSON of the text, and the page has no more scripts, comments and styles than without the play.
async function checkPage(context, folder) {
  const text = made.hostilePlay();
  await checkPlay(context, { name: "hostile texts", text });
  const page = fs.readFileSync(await writePage(context, folder, "hostile", text), "latin1");
  const data = page.split('<script type="application/json" id="play">')[1].split("</script>")[0];
  await compare(context, "hostile texts: the data of the page", JSON.parse(data).text, text);
  await compare(context, "hostile texts: its signs", /[<>&]/.test(data), false);
  const policy = / content="(default-src[^"]*)">/.exec(page)[1].replace(/'sha256-[A-Za-z0-9+/=]{44}'/g, "HASH");
  await compare(context, "the policy of the page", policy, "default-src 'none'; style-src HASH; script-src"
    + " HASH".repeat(SCRIPTS) + "; base-uri 'none'; form-action 'none'");
  const tags = ["<script", "</script", "<style", "<!--", "<img"].map((tag) => page.split(tag).length - 1);
  await compare(context, "hostile texts: the tags of the page", tags, [SCRIPTS + 1, SCRIPTS + 1, 1, 0, 0]);
}

// A program that refuses the scenario: its complaint and its status are passed on, and nothing is written.
async function checkRefusal(context, folder) {
  const [program, page] = [path.join(folder, "refuses"), path.join(folder, "refused.html")];
  const complaint = "fetchplay: scenario refused at /servers\n";
  const script = "#!/bin/sh\ncat >/dev/null\nprintf '%s' '" + complaint + "' >&2\nexit 2\n";
  fs.writeFileSync(program, script, { mode: 0o755 });
  const ran = spawnSync(path.join(ROOT, "bin", "view"), ["-o", page], { input: "{}", encoding: "utf8",
    env: { ...process.env, FETCHPLAY: program } });
  await compare(context, "a refused scenario", [ran.status, ran.stdout, ran.stderr, fs.existsSync(page)],
    [2, "", complaint, false]);
}

// A scenario is drawn with what bin/why says of its play, here by a program that prints a stored one.
async function checkSaid(context, folder) {
  const [program, page] = [path.join(folder, "plays"), path.join(folder, "said.html")];
  const play = path.join(ROOT, "gallery", "star-with-credentials", "play.txt");
  const script = "#!/bin/sh\ncat >/dev/null\ncat '" + play + "'\n";
  fs.writeFileSync(program, script, { mode: 0o755 });
  const scenario = path.join(ROOT, "gallery", "star-with-credentials", "scenario.json");
  const ran = spawnSync(path.join(ROOT, "bin", "view"), [scenario, "-o", page], { encoding: "utf8",
    env: { ...process.env, FETCHPLAY: program } });
  await compare(context, "a scenario: bin/view", [ran.status, ran.stderr], [0, ""]);
  const written = fs.readFileSync(page, "latin1");
  const data = written.split('<script type="application/json" id="play">')[1].split("</script>")[0];
  const told = readTold(JSON.parse(data).text);
  await compare(context, "a scenario: its play", told.play, fs.readFileSync(play, "latin1"));
  const words = [...told.said.values()].flat().map((line) => line.split(" ").slice(0, 2).join(" "));
  for (const word of ["< HTTP/1.1", "# why:", "# change:"]) {
    await compare(context, "a scenario: it is said: " + word, words.includes(word), true);
  }
}

// ---- in a browser

async function writePages(context, folder) {
  const plays = [...storedPlays(), { name: "the long play", text: made.longPlay(LONG) }];
  const pages = [];
  for (const [number, { name, text }] of plays.entries()) {
    pages.push({ name, text, page: await writePage(context, folder, "play" + number, text) });
  }
  return pages;
}

async function drawAll(context, browser, pages) {
  for (const { name, text, page } of pages) {
    const play = readPlay(text);
    await drawn.checkDrawn(context, browser, name, page, drawn.countedOf(text, play, stepsOf(play).steps));
  }
}

// What is done in a page that is written, by the name of its test.
async function usesOf(context, folder) {
  const [known, long] = [knownHost(), made.longPlay(LONG)];
  const written = (name, text) => writePage(context, folder, name, text);
  const pages = {
    known: await written("known", known),
    long: await written("long", long),
    wide: await written("wide", made.widePlay(128)),
    noPlay: await written("no-play", known.replace("result error 5 SameOriginMode\n", "")),
    told: await written("told", made.toldPlay(known)),
  };
  const [empty, stored] = [path.join(ROOT, "view", "page.html"), path.join(ROOT, "examples", "known-host.out")];
  return {
    "keys": (own, browser) => drawn.checkKeys(own, browser, pages.known),
    "clicks": (own, browser) => drawn.checkClicks(own, browser),
    "the tree": (own, browser) => drawn.checkTree(own, browser),
    "the page without a play": (own, browser) => drawn.checkOpening(own, browser, empty, stored),
    "the long play": (own, browser) => drawn.checkLong(own, browser, pages.long, stepsOf(readPlay(long)).steps.length),
    "the wide play": (own, browser) => drawn.checkWide(own, browser, pages.wide),
    "no play": (own, browser) => drawn.checkNoPlay(own, browser, pages.noPlay),
    "the switches": (own, browser) => drawn.checkSwitches(own, browser, pages.told),
    "hostile texts": (own, browser) => drawn.checkHostile(own, browser, path.join(folder, "hostile.html"),
      made.hostilePlay(), SCRIPTS + 1),
  };
}

async function checkInBrowsers(context, folder) {
  const pages = await writePages(context, folder);
  const uses = await usesOf(context, folder);
  const count = await inBrowsers(context, async (own, browser) => {
    await own.test("all plays", (one) => drawAll(one, browser, pages));
    for (const [name, use] of Object.entries(uses)) {
      await own.test(name, (one) => use(one, browser));
    }
  });
  context.diagnostic("they are drawn by " + ["no browser", "one browser", "two browsers"][count]);
}

const LEFT_OUT = hasPython() ? false : "there is no python3 (3.9 or later)";

test("bin/view, and the browsers", { skip: LEFT_OUT }, async (context) => {
  const folder = fs.mkdtempSync(path.join(os.tmpdir(), "view-"));
  context.after(() => fs.rmSync(folder, { recursive: true, force: true }));
  await context.test("hostile texts", (own) => checkPage(own, folder));
  await context.test("a refused scenario", (own) => checkRefusal(own, folder));
  await context.test("a scenario", (own) => checkSaid(own, folder));
  await context.test("the picture", (own) => chosen.checkPicture(own, knownHost()));
  await checkInBrowsers(context, folder);
});
