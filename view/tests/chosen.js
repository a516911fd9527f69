"use strict";

// What view/check asks of the parts that need no browser: what is said between the lines of a play, which steps are
// drawn by which switches, and the saved picture. By hand, from examples/known-host.out, whose steps are begin, fetch
// 0, call, refusal, wait, fetch 1, call, request, result and end.

const { spawnSync } = require("child_process");
const { compare } = require("./base.js");
const made = require("./made.js");
const { readPlay } = require("../play.js");
const { readTold, rowsOfText } = require("../told.js");
const { stepsOf } = require("../steps.js");
const { Choice } = require("../shown.js");
const { svgOf } = require("../svg.js");

const COLORS = { page: "#fff", ink: "#000", soft: "#000", rule: "#ccc", book: "#000", request: "#00f",
  preflight: "#00f", redirect: "#00f", violation: "#f00", result: "#080", refusal: "#f00" };

// The text, its lines, and the steps of a play as bin/why tells it.
function toldOf(text) {
  const { play, said } = readTold(text);
  return { play, said, lines: play.split("\n").slice(0, -1), ...stepsOf(readPlay(play), said) };
}

async function checkTold(context, good) {
  const { play, said, lines, steps, left } = toldOf(made.toldPlay(good));
  await compare(context, "a told play: the play in it", play, good);
  await compare(context, "a told play: what is said of no mark", left, [made.WARNING]);
  await compare(context, "a told play: what is said of the refusal", steps[3].said, made.ADVICE);
  await compare(context, "a told play: the answer", steps[7].said, made.ANSWER);
  await compare(context, "a told play: its status at the request", steps[7].label, "GET http://a.test/, answered 200");
  const rows = rowsOfText(lines, said);
  await compare(context, "a told play: its rows", rows.length, 21 + 8);
  await compare(context, "a told play: the row of line 6", rows[10], { number: 6, text: "fetch 1", behind: 6 });
  await compare(context, "a told play: the row behind line 5", rows[6],
    { number: null, text: made.ADVICE[0], behind: 5 });
}

async function checkChoice(context, good) {
  const { lines, steps, lanes } = toldOf(made.toldPlay(good));
  const shown = (change) => {
    const choice = Object.assign(new Choice(), change);
    return choice.shown(steps, lines);
  };
  await compare(context, "all steps", shown({}), [0, 1, 2, 3, 4, 5, 6, 7, 8, 9]);
  await compare(context, "without calls of the book", shown({ hasCalls: false }), [0, 1, 3, 4, 5, 7, 8, 9]);
  await compare(context, "without the book: the lanes",
    Object.assign(new Choice(), { hasCalls: false }).columns(lanes), [0, -1, 1]);
  await compare(context, "one fetch folded", shown({ folded: new Set(["0 1"]) }), [0, 1, 2, 3, 5, 9]);
  await compare(context, "a filter: a result", shown({ filter: " sameoriginMODE" }), [1, 2, 3]);
  await compare(context, "a filter: a header of an answer", shown({ filter: "text/plain" }), [4, 5, 6, 7, 8]);
  await compare(context, "a filter: nothing", shown({ filter: "no such text" }), []);
  const choice = new Choice();
  choice.foldAll(steps, true);
  await compare(context, "all folded", choice.shown(steps, lines), [0, 1, 5, 9]);
  await compare(context, "all folded: what they say", [1, 5].map((index) => choice.labelOf(steps[index])),
    ["fetch 0: 5 SameOriginMode", "fetch 1: GET http://a.test/: basic 200 http://a.test/, 2 bytes"]);
  await compare(context, "all folded: a refusal looks like one", [1, 5].map((index) => choice.kindOf(steps[index])),
    ["refusal", "fetch"]);
}

// Counts by python3, which refuses what is no XML: the texts, and the groups of steps and lanes.
const COUNTS = "import sys, xml.etree.ElementTree as tree\n"
  + "names = [one.tag.rpartition('}')[2] for one in tree.parse(sys.stdin).getroot().iter()]\n"
  + "print(names.count('text'), names.count('g'), names.count('script'))";

function countsOfPicture(text) {
  const { lines, steps, lanes } = toldOf(text);
  const choice = new Choice();
  const picture = svgOf(choice.shown(steps, lines).map((index) => steps[index]), lanes, choice, COLORS);
  const ran = spawnSync("python3", ["-c", COUNTS], { input: picture, encoding: "utf8",
    env: { ...process.env, PYTHONUTF8: "1" } });
  return ran.stdout.trim() + ran.stderr;
}

// Each lane has two texts, each step its label, and below the refusal its meaning and three said lines.
async function checkPicture(context, good) {
  await compare(context, "the picture", countsOfPicture(made.toldPlay(good)), 3 * 2 + 10 + 4 + " " + (2 + 10) + " 0");
  await compare(context, "the picture of hostile texts", countsOfPicture(made.hostilePlay()),
    3 * 2 + 6 + " " + (2 + 6) + " 0");
}

module.exports = { checkChoice, checkPicture, checkTold };
