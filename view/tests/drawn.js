"use strict";

// What view/check asks a browser: that each play is drawn as it was counted, that keys and clicks do what they should,
// that of a long play only what is in sight is drawn, and that hostile texts stay text.

const fs = require("fs");
const path = require("path");
const { isDeepStrictEqual } = require("util");
const { compare, compareSoon, once, pause } = require("./base.js");
const made = require("./made.js");

const COUNTS = `(() => {
  const counts = {};
  document.querySelectorAll("#diagram .row").forEach(({ dataset: { kind } }) => {
    counts[kind] = (counts[kind] || 0) + 1;
  });
  return { counts, arrows: document.querySelectorAll("#diagram svg").length,
    links: document.querySelectorAll("#diagram a.rule").length,
    lines: document.querySelectorAll("#text .row").length, entries: document.querySelectorAll("#history .row").length };
})()`;

function countedOf(text, play, steps) {
  const counts = {};
  steps.forEach(({ kind }) => {
    counts[kind] = (counts[kind] || 0) + 1;
  });
  return { counts, arrows: steps.length, links: counts.refusal || 0, lines: text.split("\n").length - 1,
    entries: play.history.length };
}

// All rows are drawn, as for paper.
async function checkDrawn(context, browser, name, page, counted) {
  await browser.open(page);
  await browser.value("window.onbeforeprint()");
  await compare(context, name + ": drawn", await browser.value(COUNTS), counted);
  await compare(context, name + ": what the browser complains of", await browser.complaints(), []);
}

const ACTIVE = "Number(document.activeElement.closest('li').dataset.index)";
const CURRENT = `[...document.querySelectorAll("#diagram .marked")].map((row) => Number(row.dataset.index))`;
const MARKED = `[...document.querySelectorAll("#text .marked")].map((row) => Number(row.dataset.index) + 1)`;
const TURNS = `[...document.querySelectorAll("#history .marked")].map((row) => Number(row.dataset.index))`;
const SHOWN = `document.querySelector("#details pre").textContent`;

// examples/known-host.out, by hand: its marks are begin, fetch 0, the call of line 4, the refusal of line 5, and so on.
async function checkKeys(context, browser, page) {
  await browser.open(page);
  await browser.value("document.querySelector('#diagram .label').focus()");
  await browser.press("ArrowDown");
  await browser.press("ArrowDown");
  await compareSoon(context, browser, "ArrowDown twice", ACTIVE, 2);
  await browser.press("Enter");
  await compareSoon(context, browser, "Enter: the mark", CURRENT, [2]);
  await compare(context, "Enter: its lines", await browser.value(MARKED), [4, 19]);
  await compare(context, "Enter: its entry", await browser.value(TURNS), [0]);
  await compare(context, "Enter: what is shown", await browser.value(SHOWN), "call match a.test at 0: yes");
  await browser.press("n");
  await compareSoon(context, browser, "n", ACTIVE, 3);
  await browser.press("End");
  await compareSoon(context, browser, "End", ACTIVE, 9);
  await browser.press("p");
  await compareSoon(context, browser, "p", ACTIVE, 3);
}

async function checkClicks(context, browser) {
  const click = (selector) => browser.value("document.querySelector('" + selector + "').click()");
  await click('#text [data-index="10"] button');
  await compare(context, "a line of a request: its mark", await browser.value(CURRENT), [7]);
  await compare(context, "a line of a request: all its lines", await browser.value(MARKED), [8, 9, 10, 11, 12, 13, 14]);
  await click('#history [data-index="1"] button');
  await compare(context, "an entry: its mark", await browser.value(CURRENT), [6]);
  await compare(context, "an entry: its lines", await browser.value(MARKED), [7, 20]);
  await click('#diagram [data-index="4"] button');
  await compare(context, "the wait: the line that tells it", await browser.value(MARKED), [7]);
  await compare(context, "the marks, as they are said", await browser.value(
    "[...document.querySelectorAll('#diagram .label')].map((one) => one.getAttribute('aria-label'))"), SAID);
}

const SAID = [
  "document 0 begins under the key http://a.test",
  "document 0 starts fetch 0",
  "document 0 calls the shared book: is a.test a known host? yes",
  "document 0 is refused: 5 SameOriginMode. The mode is same-origin, and the URL has another origin.",
  "time of document 0: at 10, 10 seconds later",
  "document 0 starts fetch 1",
  "document 0 calls the shared book: is a.test a known host? no",
  "document 0 sends a request: GET http://a.test/",
  "document 0 gets a result from http://a.test: basic 200 http://a.test/, 2 bytes",
  "document 0 ends: finished",
];

const namesIn = (tree, role) => tree.filter((one) => one.role === role).map(({ name }) => name);

// The names and roles that a screen reader is told, in their order: a browser tells them one after another.
async function checkTree(context, browser) {
  const wanted = [SAID, ["Sequence", "Chosen mark", "Text of the play", "History of the shared book"],
    ["the rule of 5 SameOriginMode"]];
  const partsOf = (tree) => [namesIn(tree, "button").filter((name) => SAID.includes(name)), namesIn(tree, "region"),
    namesIn(tree, "link").slice(0, 1)];
  const [marks, parts, rules] = partsOf(await once(() => browser.tree(),
    (tree) => isDeepStrictEqual(partsOf(tree), wanted)));
  await compare(context, "the tree: the marks", marks, wanted[0]);
  await compare(context, "the tree: the parts", parts, wanted[1]);
  await compare(context, "the tree: the rules", rules, wanted[2]);
}

async function checkLong(context, browser, page, steps) {
  await browser.open(page);
  const rows = "document.querySelectorAll('.row').length";
  await compare(context, "the long play: few rows at first", await browser.value(rows) < 300, true);
  await browser.value("document.querySelector('#diagram .label').focus()");
  await browser.press("End");
  await compareSoon(context, browser, "the long play: End", ACTIVE, steps - 1);
  await browser.value("document.querySelector('#diagram .scroll').scrollTop = 40000");
  await compareSoon(context, browser, "the long play: rows where it is scrolled to",
    "[...document.querySelectorAll('#diagram .row')].filter((row) => { const box = row.getBoundingClientRect();"
    + " return box.bottom > 200 && box.top < 800; }).length > 8", true);
  await compare(context, "the long play: few rows after", await browser.value(rows) < 300, true);
}

// The mark that has the focus is in sight, also in the last of 128 lanes.
async function checkWide(context, browser, page) {
  await browser.open(page);
  await browser.value("document.querySelector('#diagram .label').focus()");
  await browser.press("End");
  await compareSoon(context, browser, "the wide play: the last mark is in sight", `(() => {
    const [mark, view] = [document.activeElement, document.querySelector("#diagram .scroll")]
      .map((part) => part.getBoundingClientRect());
    return mark.left >= view.left && mark.left < view.right && mark.top >= view.top && mark.bottom <= view.bottom;
  })()`, true);
}

// ---- the switches, by the told play of made.js

const KINDS_DRAWN = "[...document.querySelectorAll('#diagram .row')].map((row) => row.dataset.kind)";
const NOTES = "[...document.querySelectorAll('#diagram .note')].map((note) => note.textContent)";
const DETAILS = "document.getElementById('details').textContent";

// Waits for the filter, which waits for one who types.
function type(browser, text) {
  return browser.value(`new Promise((done) => {
    const filter = document.getElementById("filter");
    filter.value = ${JSON.stringify(text)};
    filter.dispatchEvent(new Event("input"));
    setTimeout(done, 400);
  })`);
}

async function checkSwitches(context, browser, page) {
  await browser.open(page);
  const click = (selector) => browser.value("document.querySelector('" + selector + "').click()");
  const advice = made.ADVICE.map((line) => line.slice(2));
  await compare(context, "what is said below the refusal", (await browser.value(NOTES)).slice(1),
    [0, 1, 3].map((index) => advice[index]));
  await compare(context, "what is said of the whole play",
    await browser.value("document.getElementById('said').textContent"), made.WARNING.slice(2));
  await click('#diagram [data-kind=request] .label');
  await compare(context, "a request: its answer", (await browser.value(DETAILS)).endsWith(
    "The answer:HTTP/1.1 200 Scripted\nContent-Type: text/plain\n(2 bytes follow)"), true);
  await click('#diagram [data-kind=refusal] .label');
  const said = await browser.value(DETAILS);
  await compare(context, "a refusal: all that is said", advice.filter((line) => !said.includes(line)), []);
  await click("#calls");
  await compare(context, "without calls of the book", await browser.value(KINDS_DRAWN),
    ["begin", "fetch", "refusal", "wait", "fetch", "request", "result", "end"]);
  await compare(context, "without the book: the lanes",
    await browser.value("document.querySelectorAll('.lanes li').length"), 2);
  await click("#diagram .fold");
  await compare(context, "one fetch folded", await browser.value(KINDS_DRAWN),
    ["begin", "fetch", "wait", "fetch", "request", "result", "end"]);
  await click("#fold");
  await compare(context, "all folded", await browser.value(KINDS_DRAWN), ["begin", "fetch", "fetch", "end"]);
  await click('#text [data-index="14"] button');
  await compare(context, "a line of a folded fetch unfolds it", await browser.value(KINDS_DRAWN),
    ["begin", "fetch", "wait", "fetch", "request", "result", "end"]);
  await type(browser, "sameorigin");
  await compareSoon(context, browser, "the filter", KINDS_DRAWN, ["fetch"]);
  await compare(context, "the filter: what is said of it",
    await browser.value("document.getElementById('drawn').textContent"), "1 of 10 marks are drawn.");
  await type(browser, "");
  await click("#calls");
  await checkSaved(context, browser, fs.mkdtempSync(path.join(path.dirname(page), "saved-")));
  await checkPhone(context, browser, page);
}

// The button saves the picture, as a file of its own, which is written by and by.
async function checkSaved(context, browser, folder) {
  await browser.saveInto(folder);
  await browser.value("document.getElementById('picture').click()");
  const file = path.join(folder, "play.svg");
  const saved = await once(() => (fs.existsSync(file) ? fs.readFileSync(file, "utf8") : ""),
    (text) => text.trimEnd().endsWith("</svg>"));
  await compare(context, "the saved picture", [saved.startsWith("<svg "), saved.includes("5 SameOriginMode")],
    [true, true]);
}

// Below the marks and in the text, what does not fit into its row.
const CUT = `[...document.querySelectorAll("#diagram .note, #text code, #history code")].filter((one) =>
  one.getBoundingClientRect().bottom > one.closest(".row").getBoundingClientRect().bottom + 1)
  .map((one) => one.textContent)`;

// What is wider than the screen of a phone. The letters of an editor are cut by their field.
const WIDER = `[...document.querySelectorAll("body *")].filter((one) => one.closest("svg *, #field") === null
  && one.getBoundingClientRect().right > window.innerWidth + 0.5).map((one) => one.tagName + " " + one.className)`;

// `isDrawn` is an expression that holds once the page has all that it is to show. `act` does something in it then.
async function checkPhone(context, browser, page, isDrawn = "true", act = async () => {}) {
  await browser.narrow(390);
  await browser.open(page);
  await compareSoon(context, browser, page + " on a phone: it is drawn", isDrawn, true);
  await act();
  await pause(300);
  await compareSoon(context, browser, page + " on a phone: its width, what is wider, what is cut, and the document",
    `[window.innerWidth, ${WIDER}, ${CUT}, document.documentElement.scrollWidth <= window.innerWidth]`,
    [390, [], [], true]);
  await browser.narrow(null);
}

async function checkHostile(context, browser, page, text, scripts) {
  await browser.open(page);
  await compare(context, "hostile texts: nothing ran", await browser.value("window.ran === undefined"), true);
  const lines = await browser.value("[...document.querySelectorAll('#text code')].map((code) => code.textContent)");
  await compare(context, "hostile texts: the lines", lines, text.split("\n").slice(0, -1));
  await compare(context, "hostile texts: the elements", await browser.value(
    "[document.scripts.length, document.images.length, document.querySelectorAll('style, iframe').length]"),
    [scripts, 0, 1]);
  await compare(context, "hostile texts: complaints", await browser.complaints(), []);
  await browser.value("document.body.append("
    + "Object.assign(document.createElement('script'), { text: 'window.ran = 1' }))");
  await compare(context, "a script of another text does not run", await browser.value("window.ran === undefined"),
    true);
  await browser.value("document.body.innerHTML += '<img src=x onerror=\"window.ran = 1\">'");
  await compare(context, "nor does a handler", await browser.value("window.ran === undefined"), true);
}

async function checkNoPlay(context, browser, page) {
  await browser.open(page);
  await compare(context, "no play: what is said",
    await browser.value("document.querySelector('[role=alert]').textContent"),
    "This is no play: line 5: another line stands where a call, a request, a violation or a result belongs.");
  await compare(context, "no play: its line", await browser.value(MARKED), [5]);
}

// The page without a play opens a file.
async function checkOpening(context, browser, page, play) {
  await browser.open(page);
  await compare(context, "the page without a play: complaints", await browser.complaints(), []);
  await browser.giveFile("#file", play);
  await compareSoon(context, browser, "the page without a play: the marks of the file",
    "document.querySelectorAll('#diagram .row').length", SAID.length);
}

module.exports = {
  checkClicks, checkDrawn, checkHostile, checkKeys, checkLong, checkNoPlay, checkOpening, checkPhone, checkSwitches,
  checkTree, checkWide,
  countedOf, namesIn,
};
