"use strict";

// What playground/check and playground/check_page do in a browser: they draw each question, edit, follow a link, read
// documents, and ask from another origin.

const http = require("http");
const { isDeepStrictEqual } = require("util");
const { compare, compareSoon, once } = require("../../view/tests/base.js");
const { checkPhone, namesIn } = require("../../view/tests/drawn.js");
const { questions } = require("../../view/tests/stored.js");

const STATE = "document.getElementById('state').textContent";
// What the page says where the program or the server fails: nothing that is awaited then comes.
const FAILURE = "(document.getElementById('state') || {}).textContent || ''";

// Waits until an expression of the page holds. An error where the page says before it that there is no play, or where
// nothing comes: then no more is asked of this browser.
async function until(browser, what, expression, patience = 300000) {
  for (const end = Date.now() + patience; ; await new Promise((resolve) => setTimeout(resolve, 30))) {
    if (await browser.value(expression) === true) {
      return;
    }
    const state = String(await browser.value(FAILURE));
    if (state.startsWith("There is no play") || Date.now() > end) {
      throw new Error(what + ": it does not come; the page says: " + state);
    }
  }
}

const PLAYED = STATE + " === 'Played.'";
const REFUSED = STATE + ".startsWith('The program refuses')";
const AREA = "document.getElementById('editor')";
const PROBLEMS = "[...document.querySelectorAll('#problems li')].map((item) => item.textContent)";
const WRONG = "[...document.querySelectorAll('#numbers .wrong')].map((line) => Number(line.textContent))";
const MARKED = "[...document.querySelectorAll('#marks mark')].map((mark) => mark.textContent)";
const CHOICES = "[...document.querySelectorAll('#choices:not([hidden]) li')]"
  + ".map((item) => item.firstChild.textContent)";
const COUNTS = `(() => {
  window.onbeforeprint();
  const count = (selector) => document.querySelectorAll(selector).length;
  const counts = [count("#diagram .row"), count("#diagram [data-kind=refusal]"), count("#history .row")];
  window.onafterprint();
  return counts;
})()`;

// From the opening of the page to the first drawn play. How long it takes is told, and no fault: the machine may be
// busy.
async function checkFirst(context, browser, address) {
  const start = Date.now();
  await browser.open(address);
  await until(browser, "the first play", PLAYED);
  const took = Date.now() - start;
  await compare(context, "the first play: its marks", (await browser.value(COUNTS))[0] > 10, true);
  return took;
}

// Each question is chosen, played and drawn: the marks are as many as its counts say, where it has these.
async function checkQuestions(context, browser) {
  for (const { name, counts } of questions()) {
    await browser.value(`(() => {
      const [list, state] = [document.getElementById("question"), document.getElementById("state")];
      state.textContent = "";
      list.value = "${name}";
      list.onchange({ target: list });
    })()`);
    await until(browser, name, PLAYED);
    const drawn = await browser.value(COUNTS);
    await compare(context, name + ": its marks, refusals and entries", counts === null ? drawn[0] > 10 : drawn,
      counts || true);
    await compare(context, name + ": the link", await browser.value("location.hash"), "#gallery/" + name);
    await compare(context, name + ": no problem", await browser.value(PROBLEMS), []);
  }
  await compare(context, "the questions: complaints", await browser.complaints(), []);
}

// Selects the first place of a text in the editor, as one does by the mouse.
function select(browser, text) {
  return browser.value(`(() => {
    const at = ${AREA}.value.indexOf(${JSON.stringify(text)});
    ${AREA}.focus();
    ${AREA}.setSelectionRange(at, at + ${text.length});
    return at;
  })()`);
}

async function type(browser, keys) {
  for (const key of keys) {
    await browser.press(key);
  }
}

const SMALL = `{"format": 1,
 "servers": [{"origin": "http://b.test",
              "rules": [{"status": 200, "headers": [["Access-Control-Allow-Origin", "*"]], "body": "hi"}]}],
 "documents": [
  {"url": "http://a.test/",
   "script": [{"fetch": {"url": "http://b.test/"}}]}]}
`;

async function setText(browser, text) {
  await browser.value(`(() => {
    document.getElementById("state").textContent = "";
    ${AREA}.focus();
    ${AREA}.select();
    document.execCommand("insertText", false, ${JSON.stringify(text)});
  })()`);
}

// By hand: the play of SMALL has one request and one result; without the header of line 3 it is refused at 12
// CorsCheck.
async function checkEditing(context, browser) {
  await setText(browser, SMALL);
  await until(browser, "an own scenario", PLAYED);
  await compare(context, "an own scenario: its marks", await browser.value(COUNTS), [6, 0, 1]);
  await select(browser, '[["Access-Control-Allow-Origin", "*"]]');
  await browser.value("document.getElementById('state').textContent = ''");
  await type(browser, ["[", "]"]);
  await until(browser, "an edited scenario", PLAYED);
  await compare(context, "an edited scenario: its marks", await browser.value(COUNTS), [6, 1, 1]);
  await compare(context, "an edited scenario: its refusal", await browser.value(
    "document.querySelector('#diagram [data-kind=refusal] button').title"), "12 CorsCheck");
}

// A play that goes on for longer than anyone waits: the page gives it up for the small one that is wanted next.
const LONG = JSON.stringify({ format: 1,
  servers: [{ origin: "http://a.test", rules: [{ status: 200, body: "a".repeat(190000) }] }],
  documents: Array(64).fill({ url: "http://a.test/", script: [
    { repeat: 1000, do: [{ fetch: { url: "/", integrity: "sha512-" + "A".repeat(86) + "==" } }] }] }) });

async function checkOvertaking(context, browser) {
  await setText(browser, LONG);
  await until(browser, "a long play", isLinkOf(LONG));
  await setText(browser, SMALL);
  await until(browser, "a small play behind a long one", PLAYED);
  await compare(context, "a small play behind a long one: its marks", await browser.value(COUNTS), [6, 0, 1]);
}

async function checkRefusedPlace(context, browser) {
  await setText(browser, SMALL.replace('"http://b.test/"}', '"http://b.test/", "mode": "CORS"}'));
  await until(browser, "a refused scenario", REFUSED);
  await compare(context, "a refused scenario: its line", await browser.value(WRONG), [6]);
  await compare(context, "a refused scenario: what is marked", await browser.value(MARKED), ['"CORS"']);
  await compare(context, "a refused scenario: what is said", await browser.value(PROBLEMS), ["line 6: refused at "
    + '/documents/0/script/0/fetch/mode: one of these belongs here: "cors", "no-cors", "same-origin", "navigate"']);
  await compare(context, "a refused scenario: the drawing is of before", await browser.value(
    "document.getElementById('diagram').classList.contains('stale')"), true);
  await setText(browser, SMALL.replace('"rules"', '"rulez"'));
  await until(browser, "a misspelt key", REFUSED + " && " + WRONG + ".includes(3)");
  await compare(context, "a misspelt key: what is said", (await browser.value(PROBLEMS))[0],
    "line 3: refused at /servers/0: there is no key rulez here");
  await setText(browser, SMALL.replace('"status": 200,', '"status": 200'));
  await until(browser, "no JSON", REFUSED + " && " + WRONG + ".includes(3)");
  await compare(context, "no JSON: its line", await browser.value(WRONG), [3]);
  await compare(context, "no JSON: what is said", await browser.value(PROBLEMS),
    ["line 3: refused at json: a comma belongs here"]);
  await setText(browser, SMALL.replace('"format": 1', '"format": 1.0'));
  await until(browser, "what JSON Schema takes, and the program not", REFUSED + " && " + WRONG + ".includes(1)");
  await compare(context, "what JSON Schema takes, and the program not", await browser.value(MARKED), ["1.0"]);
}

async function checkCompletion(context, browser) {
  await setText(browser, SMALL);
  const at = await select(browser, '"http://b.test/"}}') + '"http://b.test/"'.length;
  await browser.value(AREA + ".setSelectionRange(" + at + ", " + at + ")");
  await type(browser, [",", " ", '"', "m", "o"]);
  await compareSoon(context, browser, "a key that begins with mo", CHOICES, ["mode"]);
  await browser.press("Enter");
  await compareSoon(context, browser, "the key with its value", AREA + ".value.split('\\n')[5]",
    '   "script": [{"fetch": {"url": "http://b.test/", "mode": "cors"}}]}]}');
  await select(browser, '"cors"');
  await type(browser, ['"']);
  await browser.press(" ", true);
  await compareSoon(context, browser, "the modes", CHOICES, ["cors", "no-cors", "same-origin", "navigate"]);
  await compare(context, "the active one, as it is told", await browser.value(
    "document.getElementById(" + AREA + ".getAttribute('aria-activedescendant')).textContent.slice(0, 4)"), "cors");
  await browser.press("ArrowDown");
  await browser.value("document.getElementById('state').textContent = ''");
  await browser.press("Enter");
  await compareSoon(context, browser, "the second mode", AREA + ".value.split('\\n')[5]",
    '   "script": [{"fetch": {"url": "http://b.test/", "mode": "no-cors"}}]}]}');
  await until(browser, "the second mode", PLAYED);
  await compare(context, "its play", await browser.value(
    "document.querySelector('#diagram [data-kind=result] button').title"), "opaque 0, no body");
  await browser.value(AREA + ".focus()");
  await type(browser, ["Escape", "Tab"]);
  await compareSoon(context, browser, "Tab leaves the editor", "document.activeElement !== " + AREA, true);
}

// Whether the link is of that text, and not of the text before: it is compressed beside the play.
function isLinkOf(text) {
  return "location.hash.startsWith('#z=') && textOfFragment(location.hash, []).then((text) => text === "
    + JSON.stringify(text) + ")";
}

// The link of an edited scenario leads to the same scenario, in a page that is opened anew.
async function checkLink(context, browser, address) {
  const text = SMALL.replace("hi", "\u00e4\u20ac\ud83d\ude00");
  await setText(browser, text);
  await until(browser, "a scenario to link to", PLAYED);
  await until(browser, "its link", isLinkOf(text));
  const link = await browser.value("location.href");
  await browser.open(address + "#gallery/json-post");
  await until(browser, "a link to a question", PLAYED);
  await browser.open(link);
  await until(browser, "a link", PLAYED);
  await compare(context, "a link: its scenario", await browser.value(AREA + ".value"), text);
  await compare(context, "a link: complaints", await browser.complaints(), []);
  await browser.open(address + "#z=AAAA");
  await until(browser, "a link that is none", STATE + ".startsWith('The link')");
  await compare(context, "a link that is none", await browser.value(STATE),
    "The link holds no scenario that can be read.");
}

// ---- what bin/why says, and the answers

const NOTES = "[...document.querySelectorAll('#diagram .note')].map((note) => note.textContent)";

// By hand: Access-Control-Allow-Origin is `*`, and the fetch has credentials.
async function checkAdvice(context, browser, address) {
  await browser.open(address + "#gallery/star-with-credentials");
  await until(browser, "the advice", PLAYED);
  const notes = await browser.value(NOTES);
  const isSaid = (text) => notes.some((note) => note.startsWith(text));
  await compare(context, "why, in the diagram", isSaid("why: Access-Control-Allow-Origin is `*`"), true);
  await compare(context, "what to change, in the diagram", isSaid("change: "), true);
  await browser.value("document.querySelector('#diagram [data-kind=request] .label').click()");
  const details = await browser.value("document.getElementById('details').textContent");
  await compare(context, "a click on a request: its answer",
    details.includes("The answer:HTTP/1.1 200 Scripted\nAccess-Control-Allow-Origin: "), true);
}

// Without the header the play is no question's: the server says what it lacks, and nothing where there is none.
async function checkOwnAdvice(context, browser) {
  await setText(browser, SMALL.replace('["Access-Control-Allow-Origin", "*"]', ""));
  await until(browser, "advice", PLAYED);
  await compare(context, "an own scenario: what to change",
    (await browser.value(NOTES)).some((note) => note.startsWith("change: ")), true);
}

// The page plays on where its server has ended.
async function checkEnded(context, browser, playground) {
  await playground.start();
  await browser.open(playground.address);
  await until(browser, "a play", PLAYED);
  await playground.close();
  await setText(browser, SMALL);
  await until(browser, "a play without advice", PLAYED);
  await compare(context, "no server: what is said", await browser.value("document.getElementById('said').textContent"),
    "note: nothing is said of this play: bin/playground does not answer");
}

// ---- the documents

const TITLE = "(document.querySelector('#reader h1, #reader h2') || {}).textContent";

// A rule that a refusal names is read in the page, and a link in it leads to another document there.
async function checkDocuments(context, browser, address) {
  await browser.open(address + "#gallery/star-with-credentials");
  await until(browser, "a refusal", "document.querySelector('#diagram a[href*=\"rules/\"]') !== null");
  const click = (selector) => browser.value("document.querySelector(" + JSON.stringify(selector) + ").click()");
  await click("#diagram a[href*='rules/cors.md']");
  await until(browser, "a rule", TITLE + " !== undefined");
  await compare(context, "a rule: its title", await browser.value(TITLE + ".includes('CORS')"), true);
  await compare(context, "a rule: it is shown", await browser.value("document.getElementById('reader').open"), true);
  await click("#reader article a[href$='.md'], #reader article a[href*='.md#']");
  await until(browser, "another document", "!document.querySelector('#reader nav button + button').disabled");
  await click("#reader nav button");
  await compare(context, "a document: it is closed", await browser.value("document.getElementById('reader').open"),
    false);
}

async function checkPhones(context, browser, address) {
  const page = address + "#gallery/put-json-cookie";
  await checkPhone(context, browser, page, PLAYED);
  for (const name of ["gallery/README.md", "docs/BROWSERS.md", "docs/rules/printed-text.md", "docs/scenario.md"]) {
    await context.test(name, (own) => checkPhone(own, browser, page, PLAYED, () => openDocument(browser, name)));
  }
}

// As a link to it does.
async function openDocument(browser, name) {
  await browser.value(`(() => {
    const link = Object.assign(document.createElement("a"), { href: "#${name}" });
    document.body.append(link);
    link.click();
    link.remove();
  })()`);
  await until(browser, name, TITLE + " !== undefined");
}

// ---- the page as a screen reader is told it

async function checkTree(context, browser, address) {
  await browser.open(address + "#gallery/star-with-credentials");
  await until(browser, "the tree", PLAYED);
  const marks = await browser.value(
    "[...document.querySelectorAll('#diagram .label')].map((one) => one.getAttribute('aria-label'))");
  const parts = ["Scenario", "Sequence", "Chosen mark", "Text of the play", "History of the shared book"];
  const untold = (tree) => marks.filter((name) => !namesIn(tree, "button").includes(name));
  // A browser tells them one after another.
  const all = await once(() => browser.tree(), (tree) => untold(tree).length === 0
    && isDeepStrictEqual(namesIn(tree, "region"), parts) && namesIn(tree, "textbox").includes("Scenario"));
  const buttons = namesIn(all, "button");
  await compare(context, "the tree: each mark has its name", untold(all), []);
  await compare(context, "the tree: marks", marks.length > 10, true);
  await compare(context, "the tree: the parts", namesIn(all, "region"), parts);
  await compare(context, "the tree: the editor", namesIn(all, "textbox").includes("Scenario"), true);
  await compare(context, "the tree: nothing to press is without a name", buttons.filter((name) => name === ""), []);
}

// ---- a page of another origin

// It tries what such a page can, and says what came of it.
const ELSEWHERE = `<!doctype html><title>elsewhere</title><iframe id="frame"></iframe><script>
const address = decodeURIComponent(location.hash.slice(1));
const tried = async (ask) => { try { return await (await ask()).text(); } catch (error) { return "none"; } };
const loads = (name) => new Promise((done) => {
  const one = document.createElement(name);
  one.onload = () => done("loaded");
  one.onerror = () => done("none");
  one.src = address;
  document.body.append(one);
});
(async () => {
  const asked = { method: "POST", body: '{"scenario":"{}","play":""}' };
  const told = [await tried(() => fetch(address)), await tried(() => fetch(address, { mode: "no-cors" })),
    await tried(() => fetch(address + "told", asked)),
    await tried(() => fetch(address + "told", { ...asked, mode: "no-cors" })),
    await tried(() => fetch(address + "told", { ...asked, headers: { "Content-Type": "application/json" } })),
    await loads("img"), await loads("script")];
  const frame = document.getElementById("frame");
  frame.src = address;
  await new Promise((done) => { frame.onload = done; setTimeout(done, 20000); });
  let inside = "none";
  try { inside = frame.contentDocument === null ? "none" : String(frame.contentDocument.body.childElementCount); }
  catch (error) { inside = "none"; }
  window.told = [...told, inside];
})();
</script>`;

async function checkElsewhere(context, browser, address) {
  const server = http.createServer((request, response) => {
    response.setHeader("Content-Type", "text/html");
    response.end(request.url === "/" ? ELSEWHERE : "");
  });
  await new Promise((resolve) => server.listen(0, "127.0.0.1", resolve));
  const page = "http://127.0.0.1:" + server.address().port + "/#" + encodeURIComponent(address);
  await browser.open(page);
  await until(browser, "a page of another origin", "window.told !== undefined");
  await compare(context, "a page of another origin gets nothing", await browser.value("window.told"),
    Array(8).fill("none"));
  server.closeAllConnections();
  server.close();
}

// ---- all that is done in the page, wherever it comes from

// A play of the checks may take so many seconds, as the machine may be busy.
const PATIENT = ["--seconds", "300"];

// Gives how long it took to draw the first play, in milliseconds.
async function checkUse(context, browser, address) {
  const took = await checkFirst(context, browser, address);
  await context.test("the questions", (own) => checkQuestions(own, browser));
  await context.test("editing", (own) => checkEditing(own, browser));
  await context.test("overtaking", (own) => checkOvertaking(own, browser));
  await context.test("a refused place", (own) => checkRefusedPlace(own, browser));
  await context.test("completion", (own) => checkCompletion(own, browser));
  await context.test("a link", (own) => checkLink(own, browser, address));
  await context.test("advice", (own) => checkAdvice(own, browser, address));
  await context.test("documents", (own) => checkDocuments(own, browser, address));
  await context.test("phones", (own) => checkPhones(own, browser, address));
  await context.test("the tree", (own) => checkTree(own, browser, address));
  return took;
}

module.exports = { PATIENT, checkElsewhere, checkEnded, checkOwnAdvice, checkUse, until };
