"use strict";

// Which steps are drawn: without calls of the book where they are hidden, of a folded fetch its first mark alone, and by
// the filter those fetches and loads of which a mark has its text.

// The fetch or load that a step is of, by a name; a document's begin and end stand for themselves.
function groupOf(step) {
  return step.document + " " + (step.fetch === null ? step.kind : step.fetch);
}

function isStart(step) {
  return step.kind === "fetch" || step.kind === "load";
}

// What the filter looks at: the label and the lines of a step, and what is said of it.
function textOfStep(step, lines) {
  return [step.label, ...lines.slice(step.line - 1, step.last), ...step.said].join("\n").toLowerCase();
}

function groupsWith(steps, lines, wanted) {
  return new Set(steps.filter((step) => textOfStep(step, lines).includes(wanted)).map(groupOf));
}

class Choice {
  constructor() {
    this.hasCalls = true;
    this.filter = "";
    this.folded = new Set();
  }

  // The numbers of the steps that are drawn.
  shown(steps, lines) {
    const wanted = this.filter.trim().toLowerCase();
    const groups = wanted === "" ? null : groupsWith(steps, lines, wanted);
    return steps.map((step, index) => index).filter((index) => {
      const step = steps[index];
      return (this.hasCalls || step.kind !== "call") && (groups === null || groups.has(groupOf(step)))
        && (!this.isFolded(step) || isStart(step));
    });
  }

  // For each lane its column, or -1 where it is left out with the calls of the book.
  columns(lanes) {
    const shown = lanes.filter((lane) => this.hasCalls || lane.kind !== "book");
    return lanes.map((lane) => shown.indexOf(lane));
  }

  isFolded(step) {
    return step.fetch !== null && this.folded.has(groupOf(step));
  }

  fold(step, isFolded) {
    if (isFolded) {
      this.folded.add(groupOf(step));
    } else {
      this.folded.delete(groupOf(step));
    }
  }

  isAllFolded(steps) {
    return steps.some(isStart) && steps.filter(isStart).every((step) => this.isFolded(step));
  }

  foldAll(steps, isFolded) {
    steps.filter(isStart).forEach((step) => this.fold(step, isFolded));
  }

  // What a mark says: that of a folded fetch what came of it, too.
  labelOf(step) {
    return isStart(step) && this.isFolded(step) ? step.folded : step.label;
  }

  kindOf(step) {
    return isStart(step) && this.isFolded(step) && step.outcome === "refusal" ? step.outcome : step.kind;
  }
}

if (typeof module !== "undefined") {
  module.exports = { Choice, groupOf, isStart };
}
