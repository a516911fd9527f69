"use strict";

// What playground/check_page does: it says there what that is.

const fs = require("fs");
const os = require("os");
const path = require("path");
const { spawnSync } = require("child_process");
const assert = require("node:assert/strict");
const test = require("node:test");
const used = require("./used.js");
const { compare } = require("../../view/tests/base.js");
const { inBrowsers } = require("../../view/tests/browsers.js");
const { caseFiles, galleryFiles, generatedText, isInTurn } = require("../../view/tests/stored.js");

const ROOT = path.join(__dirname, "..", "..");
const RUNS = 200;

// What one scenario comes to, as the program or the native library has it.
function scenarios() {
  return [...galleryFiles(), ...caseFiles()].map(([scenario, play]) => ({ name: path.relative(ROOT, scenario),
    text: fs.readFileSync(scenario, "utf8"), play: fs.readFileSync(play, "latin1") }));
}

// All plays by the page's own worker. Documents play one after another in a page: a stored play of threads that came in
// another order is another one. Gives how many are the same.
async function checkPlays(context, browser) {
  let count = 0;
  for (const { name, text, play } of scenarios()) {
    const answer = await browser.value("playChecked(" + JSON.stringify(text) + ")");
    if (play === "" ? answer.place === undefined : answer.text === undefined) {
      await compare(context, name + ": what comes of it", answer, "a play");
    } else if (play !== "" && isInTurn(play)) {
      await compare(context, name + ": byte for byte", answer.text === play, true);
      count += 1;
    }
  }
  await compare(context, "plays byte for byte: there are many", count > 30, true);
  return count;
}

async function checkLimits(context, browser, text) {
  const answerOf = (limits, played = text) => browser.value("playChecked(" + JSON.stringify(played) + ", " + limits
    + ")");
  await compare(context, "a play that takes too long", (await answerOf("{ seconds: 0 }")).failure,
    "it took longer than 0 seconds, and was stopped");
  await compare(context, "a play of too much memory", (await answerOf("{ megabytes: 4 }", generatedText(16))).failure,
    "it needs more memory than 4 MB, and was stopped");
}

async function checkNetwork(context, browser) {
  const asked = await browser.value("performance.getEntriesByType('resource').map(({ name }) => name)"
    + ".filter((name) => !/^(blob|data):/.test(name))");
  await compare(context, "what the page asked of a network", asked, []);
  await compare(context, "complaints", await browser.complaints(), []);
}

// The median of the times of a play, by the worker's clock.
function timed(browser, scenario) {
  return browser.value(`(async () => {
    const text = ${JSON.stringify(scenario)};
    const times = [];
    for (let at = 0; at < ${RUNS}; at += 1) {
      times.push((await playChecked(text)).milliseconds);
    }
    return times.sort((one, other) => one - other)[${RUNS} >> 1];
  })()`);
}

// What is done in the page, and a line that tells what was counted.
async function useIn(context, browser, address) {
  const took = await used.checkUse(context, browser, address);
  await context.test("the network", (own) => checkNetwork(own, browser));
  let count = 0;
  await context.test("plays", async (own) => {
    count = await checkPlays(own, browser);
  });
  const large = generatedText(8);
  await context.test("limits", (own) => checkLimits(own, browser, large));
  const median = await timed(browser, large);
  return "draws the first play in " + took + " milliseconds, and has " + count + " plays byte for byte"
    + (median === null ? "" : "; the play of gen 8 takes " + median.toFixed(2) + " milliseconds");
}

test("the page", async (context) => {
  const folder = fs.mkdtempSync(path.join(os.tmpdir(), "playground-page-"));
  context.after(() => fs.rmSync(folder, { recursive: true, force: true }));
  const file = path.join(folder, "page.html");
  const made = spawnSync(path.join(ROOT, "bin", "playground"), ["--page", file, ...used.PATIENT], { encoding: "utf8" });
  assert.equal(made.status, 0, made.stderr);
  context.diagnostic("one file, from file://");
  await inBrowsers(context, async (own, browser, name) => {
    context.diagnostic(name + " " + await useIn(own, browser, "file://" + file));
  });
});
