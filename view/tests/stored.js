"use strict";

// The scenarios that checks play: the questions of gallery/, the cases beside this repository, where they are there,
// and those of `fetchplay gen`.

const fs = require("fs");
const path = require("path");
const { readPlay } = require("../play.js");
const { stepsOf } = require("../steps.js");

const ROOT = path.join(__dirname, "..", "..");
const CASES = path.join(ROOT, "..", "shared", "cases");
const PLAYED = ["csp", "full", "hsts", "origins", "preflight"]; // folders of cases that a program plays

function galleryNames() {
  return fs.readdirSync(path.join(ROOT, "gallery"), { withFileTypes: true }).filter((one) => one.isDirectory())
    .map(({ name }) => name).filter((name) => fs.existsSync(path.join(ROOT, "gallery", name, "scenario.json")));
}

// Each with the numbers of its marks, its refusals and its entries, by the stored play. Each run
// of several documents may be another play, so nothing is counted there.
function questions() {
  return galleryNames().map((name) => {
    const text = fs.readFileSync(path.join(ROOT, "gallery", name, "play.txt"), "latin1");
    const play = readPlay(text);
    const { steps } = stepsOf(play);
    const several = text.match(/^document /gm).length > 1;
    return { name, counts: several ? null : [steps.length, steps.filter(({ kind }) => kind === "refusal").length,
      play.history.length] };
  });
}

// Files: each scenario, and what the program prints of it.
function galleryFiles() {
  return galleryNames().map((name) => ["scenario.json", "play.txt"]
    .map((file) => path.join(ROOT, "gallery", name, file)));
}

function caseFiles() {
  return !fs.existsSync(CASES) ? [] : PLAYED.flatMap((folder) => fs.readdirSync(path.join(CASES, folder))
    .filter((name) => name.endsWith(".json")).map((name) => path.join(CASES, folder, name))
    .map((name) => [name, name.replace(/json$/, "out")]));
}

// The scenario that `fetchplay gen` plays, of so many documents.
function generatedText(count) {
  const allows = ["Access-Control-Allow-Origin", "*"];
  const rules = [{ method: "OPTIONS", status: 200, headers: [allows, ["Access-Control-Allow-Methods", "PUT"]] },
    { status: 200, headers: [allows] }];
  const script = [{ repeat: 200, do: [{ fetch: { url: "http://api.test/x", method: "PUT" } }, { wait: 1 }] }];
  const documents = Array.from({ length: count }, (_, at) => ({ url: "http://d" + at + ".test/", script }));
  return JSON.stringify({ format: 1, servers: [{ origin: "http://api.test", rules }], documents });
}

// Whether the documents come one after another in the history of a play, as where there are no threads.
function isInTurn(text) {
  const lines = text.slice(text.indexOf("\nhistory\n") + 9).split("\n").slice(0, -2);
  const documents = lines.map((line) => Number(line.split(" ")[1]));
  return documents.every((one, at) => at === 0 || documents[at - 1] <= one);
}

module.exports = { caseFiles, galleryFiles, generatedText, isInTurn, questions };
