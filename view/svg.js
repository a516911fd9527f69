"use strict";

// The diagram as one SVG: a text, so that it can be saved, with all that is drawn in it and nothing beside it.

const forms = typeof module === "undefined" ? { LOOKS, Plan, WIDE } : require("./shapes.js");

const HEAD_OF_LANES = 44;
const MOST_LETTERS = 240; // of a label or a note
const STYLE = "text { font: 13px system-ui, sans-serif; fill: currentColor; } .name { font-weight: 600; } "
  + ".shaft { stroke: currentColor; stroke-width: 2; fill: none; } .head { fill: currentColor; } "
  + ".cross { stroke: currentColor; stroke-width: 3; fill: none; }";
const MARKUP = { "&": "&amp;", "<": "&lt;", ">": "&gt;", '"': "&quot;" };

// What XML does not know becomes a question mark.
function escapedText(text) {
  return text.replace(/[^\t\n\r\u0020-\ud7ff\ue000-\ufffd\u{10000}-\u{10ffff}]/gu, "?")
    .replace(/[&<>"]/g, (sign) => MARKUP[sign]);
}

function element(name, attributes, inner = "") {
  const words = Object.entries(attributes).map(([key, value]) => " " + key + '="' + escapedText(String(value)) + '"');
  return "<" + name + words.join("") + (inner === "" ? "/>" : ">" + inner + "</" + name + ">");
}

function textAt(x, y, text, more = {}) {
  const short = text.length > MOST_LETTERS ? text.slice(0, MOST_LETTERS) + " \u2026" : text;
  return element("text", { x, y, ...more }, escapedText(short));
}

function lanesOfPicture(plan, height, colors) {
  const names = plan.lanes.flatMap((lane, column) => {
    const at = { "text-anchor": "middle" };
    const x = (column + 0.5) * plan.layout.lane;
    return [textAt(x, 18, lane.name, { ...at, class: "name" }), textAt(x, 34, lane.detail, at)];
  });
  const lines = element("path", { d: plan.lanePath(height), stroke: colors.rule, fill: "none" });
  return element("g", { color: colors.ink }, names.join(""))
    + element("g", { transform: "translate(0 " + HEAD_OF_LANES + ")" }, lines);
}

// A step at its height, in its colour.
function stepOfPicture(plan, step, choice, top, colors) {
  const kind = choice.kindOf(step);
  const look = forms.LOOKS[step.kind];
  const left = plan.leftOf(step) + 4;
  const parts = plan.shapesOf(step).map(({ name, ...attributes }) => element(name, attributes));
  let at = plan.ownHeightOf(step);
  const notes = plan.notesOf(step).map((note) => {
    at += note.height;
    return textAt(left, at - note.height + 12, note.text);
  });
  const label = textAt(left, 20, look.word + " " + choice.labelOf(step));
  return element("g", { color: colors[forms.LOOKS[kind].color], transform: "translate(0 " + top + ")" },
    [...parts, label, ...notes].join(""));
}

// `colors` has those of the page by their names; `steps` are those that are drawn.
function svgOf(steps, lanes, choice, colors) {
  const plan = new forms.Plan(forms.WIDE, lanes, choice.columns(lanes));
  let height = HEAD_OF_LANES;
  const drawn = steps.map((step) => {
    height += plan.heightOf(step);
    return stepOfPicture(plan, step, choice, height - plan.heightOf(step), colors);
  });
  const letters = steps.flatMap((step) => [choice.labelOf(step), ...plan.notesOf(step).map(({ text }) => text)]
    .map((text) => plan.leftOf(step) + 7.5 * (Math.min(text.length, MOST_LETTERS) + 12)));
  const width = Math.ceil(letters.reduce((most, one) => Math.max(most, one), plan.width));
  const ground = element("rect", { width: "100%", height: "100%", fill: colors.page });
  const size = { width, height, viewBox: "0 0 " + width + " " + height };
  return element("svg", { xmlns: "http://www.w3.org/2000/svg", ...size },
    element("style", {}, STYLE) + ground + lanesOfPicture(plan, height - HEAD_OF_LANES, colors) + drawn.join("")) + "\n";
}

if (typeof module !== "undefined") {
  module.exports = { svgOf };
}
