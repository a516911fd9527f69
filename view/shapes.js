"use strict";

// The geometry of the diagram, without a document: where the lanes are, how high a step is, and of which lines its arrow
// or its mark is made. The page draws them, and so does the picture that is saved.

const advising = typeof module === "undefined" ? { adviceOf } : require("./told.js");

const WIDE = { lane: 170, room: 320, isNarrow: false };
const ROW = 48;
const MARK_ROW = 32;
const ARROW_AT = 36;
const MARK_AT = 16;
const NOTE = 18;
const BELOW_NOTE = 4;
const LONGEST = 2000;

// For each kind of step the word that begins its label, the colour, and how its line is dashed.
const LOOKS = {
  begin: { word: "begin", color: "ink" },
  end: { word: "end", color: "soft" },
  fetch: { word: "script", color: "ink" },
  load: { word: "element", color: "ink" },
  wait: { word: "clock", color: "soft" },
  call: { word: "book", color: "book", dash: "2 3" },
  request: { word: "request", color: "request" },
  preflight: { word: "preflight", color: "preflight", dash: "7 4" },
  redirect: { word: "redirect", color: "redirect", dash: "10 3 2 3" },
  violation: { word: "violation", color: "violation" },
  result: { word: "result", color: "result" },
  refusal: { word: "refused", color: "refusal" },
};

// On a narrow screen the lanes share its width, and each label stands above its arrow from the left side on.
function narrowLayout(width, lanes) {
  return { lane: Math.floor(width / lanes), room: 0, isNarrow: true };
}

function shortened(text) {
  const more = text.length - LONGEST;
  return more > 0 ? text.slice(0, LONGEST) + " \u2026 (" + more + " characters more)" : text;
}

// A plan of the drawing: its layout, for each lane the column in which it stands, and how high a note is in a width. That
// is one line where nothing breaks it.
class Plan {
  constructor(layout, lanes, columns, heightOfNote = () => NOTE) {
    this.layout = layout;
    this.lanes = lanes.filter((lane, index) => columns[index] >= 0);
    this.columns = columns;
    this.heightOfNote = heightOfNote;
    this.width = this.lanes.length * layout.lane + layout.room;
  }

  middleOf(lane) {
    return this.columns[lane] * this.layout.lane + this.layout.lane / 2;
  }

  isMark(step) {
    return step.from === step.to;
  }

  leftOf(step) {
    if (this.layout.isNarrow) {
      return 0;
    }
    return Math.min(this.middleOf(step.from), this.middleOf(step.to)) + (this.isMark(step) ? 18 : 8);
  }

  // How high the arrow or the mark is with its label.
  ownHeightOf(step) {
    return this.isMark(step) && !this.layout.isNarrow ? MARK_ROW : ROW;
  }

  // How wide a note may be.
  roomOf(step) {
    return this.width - this.leftOf(step);
  }

  // The texts below it: each with its height.
  notesOf(step) {
    const meaning = step.refusal === undefined ? []
      : [{ text: step.refusal.sentence, link: " the rule", refusal: step.refusal }];
    const advice = advising.adviceOf(step.said).map((text) => ({ text: shortened(text), link: "" }));
    return [...meaning, ...advice].map((note) => {
      return { ...note, height: this.heightOfNote(note.text + note.link, this.roomOf(step)) + BELOW_NOTE };
    });
  }

  heightOf(step) {
    return this.notesOf(step).reduce((height, note) => height + note.height, this.ownHeightOf(step));
  }

  lanePath(height) {
    return this.lanes.map((lane, column) => "M " + (column + 0.5) * this.layout.lane + " 0 V " + height).join(" ");
  }

  shapesOf(step) {
    return this.isMark(step) ? [this.markOf(step)] : this.arrowOf(step);
  }

  arrowOf(step) {
    const [from, to] = [this.middleOf(step.from), this.middleOf(step.to)];
    const back = from < to ? -1 : 1;
    const dash = LOOKS[step.kind].dash;
    const line = { name: "path", class: "shaft", d: "M " + from + " " + ARROW_AT + " H " + (to + 2 * back),
      ...(dash === undefined ? {} : { "stroke-dasharray": dash }) };
    return [line, step.kind === "refusal" ? cross(to + 12 * back, ARROW_AT)
      : { name: "path", class: "head", d: "M " + to + " " + ARROW_AT + " l " + 9 * back + " -5 v 10 Z" }];
  }

  markOf(step) {
    const [at, height] = [this.middleOf(step.from), this.layout.isNarrow ? ARROW_AT : MARK_AT];
    if (step.kind === "refusal") {
      return cross(at, height);
    }
    if (step.kind === "violation") {
      return { name: "path", class: "head", d: "M " + at + " " + (height - 8) + " l 8 14 h -16 Z" };
    }
    if (step.kind === "begin" || step.kind === "end") {
      return { name: "path", class: "shaft", d: "M " + (at - 16) + " " + height + " h 32" };
    }
    return { name: "circle", class: "head", cx: at, cy: height, r: step.kind === "wait" ? 4 : 6 };
  }
}

function cross(at, height) {
  const corners = [at - 6, at + 6].map((side) => "M " + side + " " + (height - 6));
  return { name: "path", class: "cross", d: corners[0] + " l 12 12 " + corners[1] + " l -12 12" };
}

if (typeof module !== "undefined") {
  module.exports = { LOOKS, Plan, WIDE, narrowLayout, shortened };
}
