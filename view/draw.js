"use strict";

// Draws a play: the diagram, the text and the history, each a list of rows, and the mark that is chosen. What comes of
// the play becomes text alone: nothing here reads markup. `docs` is the address of docs/, for links to rules.

const SVG = "http://www.w3.org/2000/svg";
const LINE = 20;
const MOST_LINES = 400;
const NARROW = 600; // pixels: a page that is no wider has the narrow layout
const COLORS = ["page", "ink", "soft", "rule", "book", "request", "preflight", "redirect", "violation", "result",
  "refusal"];

// ---- the rows of the diagram

function shape({ name, ...attributes }) {
  const made = document.createElementNS(SVG, name);
  Object.entries(attributes).forEach(([key, value]) => made.setAttribute(key, String(value)));
  return made;
}

function drawing(step, plan) {
  const height = plan.heightOf(step);
  const svg = shape({ name: "svg", width: plan.width - plan.layout.room, height, "aria-hidden": "true",
    focusable: "false" });
  const lanes = { name: "path", class: "lane", d: plan.lanePath(height) };
  svg.append(...[lanes, ...plan.shapesOf(step)].map(shape));
  return svg;
}

function ruleLink(refusal, docs) {
  const link = make("a", "rule", "the rule");
  link.href = docs + refusal.rule;
  link.setAttribute("aria-label", "the rule of " + refusal.number + " " + refusal.name);
  return link;
}

function labelButton(step, text, spoken) {
  const button = make("button", "label");
  button.type = "button";
  button.append(make("b", "", LOOKS[step.kind].word), " " + shortened(text));
  button.setAttribute("aria-label", shortened(spoken));
  button.title = shortened(text);
  return button;
}

// Measures how high a note is where the page breaks its lines.
class Ruler {
  constructor(place) {
    this.place = place;
    this.probe = make("p", "ruler");
    this.known = new Map();
  }

  height(text, width) {
    const name = width + " " + text;
    if (!this.known.has(name)) {
      this.place.append(this.probe);
      this.probe.style.width = width + "px";
      this.probe.textContent = text;
      this.known.set(name, this.probe.offsetHeight);
      this.probe.remove();
    }
    return this.known.get(name);
  }
}

// What stands below the label, from a height on.
function notesBelow(step, plan, docs) {
  let top = plan.ownHeightOf(step);
  return plan.notesOf(step).map(({ text, link, refusal, height }) => {
    const note = make("p", "note", text + link.slice(0, 1));
    note.style.top = top + "px";
    note.style.left = plan.leftOf(step) + "px";
    note.style.width = plan.roomOf(step) + "px";
    top += height;
    if (refusal !== undefined) {
      note.append(ruleLink(refusal, docs));
    }
    return note;
  });
}

// Folds or unfolds a fetch or a load.
function foldButton(name, isFolded, toggle) {
  const button = make("button", "fold", isFolded ? "+" : "\u2212");
  button.type = "button";
  button.setAttribute("aria-expanded", String(!isFolded));
  button.setAttribute("aria-label", (isFolded ? "unfold " : "fold ") + name);
  button.onclick = (event) => {
    event.stopPropagation();
    toggle();
  };
  return button;
}

function fillLanes(plan) {
  const list = document.querySelector("#diagram .lanes");
  list.replaceChildren(...plan.lanes.map((lane) => {
    const item = make("li", lane.kind);
    item.append(make("b", "", lane.name), make("span", "", " " + lane.detail));
    item.title = lane.name + ", " + lane.detail;
    return item;
  }));
  const root = document.documentElement.style;
  root.setProperty("--lane", plan.layout.lane + "px");
  root.setProperty("--lanes", plan.lanes.length * plan.layout.lane + "px");
  root.setProperty("--room", plan.layout.room + "px");
}

// ---- the rows of the text and of the history

function fillLine(row, number, text) {
  const button = make("button", number === null ? "line own" : "line");
  button.type = "button";
  button.append(make("span", "number", number === null ? "" : String(number)), make("code", "", shortened(text)));
  row.append(button);
}

// How many letters of the text fit into a line of a narrow page, beside its number.
function lettersOf(section) {
  const probe = make("span", "probe", "0".repeat(100));
  section.append(probe);
  const letter = probe.getBoundingClientRect().width / 100;
  probe.remove();
  return Math.max(10, Math.floor((section.querySelector(".scroll").clientWidth - 24) / letter) - 6);
}

function widen(section, texts, isNarrow) {
  const longest = texts.reduce((most, text) => Math.max(most, Math.min(text.length, LONGEST + 40)), 0);
  section.querySelector(".rows").style.minWidth = isNarrow ? "" : longest + 9 + "ch";
}

// ---- the chosen mark

function lineOfPre(title, lines) {
  return [make("p", "place", title), make("pre", "", lines.map(shortened).join("\n"))];
}

// One line that is said: its first word tells what it says. A rule is a page of docs/.
function saidLine(text, docs) {
  const [, word, rest] = /^([a-z ]{1,20}: )?([^]*)$/.exec(shortened(text));
  const line = make("p", "said");
  line.append(make("b", "", word || ""), ...(word === "rule: " ? ruleParts(rest, docs) : [rest]));
  return line;
}

function ruleParts(text, docs) {
  const page = /^docs\/([\w./#-]+)/.exec(text);
  if (page === null) {
    return [text];
  }
  const link = make("a", "", page[0]);
  link.href = docs + page[1];
  return [link, text.slice(page[0].length)];
}

function detailsOf(step, lanes, lines, docs) {
  const parts = [make("p", "spoken", shortened(spokenStep(step, lanes)))];
  if (step.refusal !== undefined) {
    const link = make("p", "");
    link.append(ruleLink(step.refusal, docs));
    parts.push(link);
  }
  parts.push(...saidLines(step.said).map((line) => saidLine(line, docs)));
  const last = Math.min(step.last, step.line + MOST_LINES - 1);
  const place = step.line === step.last ? "Line " + step.line : "Lines " + step.line + " to " + step.last;
  const turn = step.turn === undefined ? "" : ", turn " + step.turn + " of the history";
  parts.push(...lineOfPre(place + turn + ":", lines.slice(step.line - 1, last)));
  const answer = answerLines(step.said);
  return answer.length === 0 ? parts : [...parts, ...lineOfPre("The answer:", answer)];
}

// ---- the page

class Page {
  constructor(text, docs, choice) {
    const { play, said } = readTold(text);
    this.docs = docs;
    this.choice = choice;
    this.said = said;
    this.play = play;
    this.lines = play.split("\n");
    if (this.lines[this.lines.length - 1] === "") {
      this.lines.pop();
    }
    this.written = rowsOfText(this.lines, said);
    this.rowOfLine = new Map(this.written.map(({ number }, row) => [number, row]));
    this.drawText();
  }

  // ---- the layout

  isNarrow() {
    return window.matchMedia("(max-width: " + NARROW + "px)").matches;
  }

  // Whether a page of another width needs another drawing.
  resized() {
    const width = this.isNarrow() ? document.documentElement.clientWidth : 0;
    if (width !== this.observed) {
      this.observed = width;
      this.drawText();
      if (this.steps !== undefined) {
        this.drawHistory();
        this.drawSteps();
        if (this.chosen !== undefined) {
          this.choose(this.chosen);
        }
      }
    }
  }

  rowsOf(name, entries, choose) {
    const section = document.getElementById(name);
    const isNarrow = this.isNarrow();
    const letters = isNarrow ? lettersOf(section) : 0;
    widen(section, entries.map(({ text }) => text), isNarrow);
    const broken = (text) => (isNarrow ? Math.max(1, Math.ceil(shortened(text).length / letters)) : 1);
    return new Rows({ section, heights: entries.map(({ text }) => LINE * broken(text)), choose,
      fill: (row, index) => fillLine(row, entries[index].number, entries[index].text) });
  }

  drawText() {
    stopRows(this.text);
    this.observed = this.isNarrow() ? document.documentElement.clientWidth : 0;
    this.text = this.rowsOf("text", this.written, (index) => this.chooseLine(this.written[index].behind));
  }

  drawHistory() {
    stopRows(this.history);
    const entries = this.entries.map(({ line }) => ({ number: line, text: this.lines[line - 1] }));
    this.history = this.rowsOf("history", entries, (index) => this.chooseLine(entries[index].number));
  }

  // ---- the diagram

  draw() {
    const play = readPlay(this.play);
    Object.assign(this, stepsOf(play, this.said));
    this.entries = play.history;
    this.drawSteps();
    this.drawHistory();
    this.tell(play);
  }

  planNow() {
    const columns = this.choice.columns(this.lanes);
    const count = columns.filter((column) => column >= 0).length;
    const scroll = document.querySelector("#diagram .scroll");
    const layout = this.isNarrow() ? narrowLayout(scroll.clientWidth, count) : WIDE;
    const ruler = new Ruler(scroll);
    return new Plan(layout, this.lanes, columns, (text, width) => ruler.height(text, width));
  }

  // Draws the steps that are chosen to be drawn.
  drawSteps() {
    stopRows(this.diagram);
    this.shown = this.choice.shown(this.steps, this.lines);
    this.rowOfStep = new Map(this.shown.map((step, row) => [step, row]));
    const plan = this.planNow();
    fillLanes(plan);
    this.diagram = new Rows({ section: document.getElementById("diagram"),
      heights: this.shown.map((index) => plan.heightOf(this.steps[index])),
      fill: (row, index) => this.fillStep(row, this.shown[index], plan),
      choose: (row) => this.choose(this.shown[row]) });
    const hidden = this.steps.length - this.shown.length;
    document.getElementById("drawn").textContent = hidden === 0 ? "" : this.shown.length + " of " + this.steps.length
      + " marks are drawn.";
    document.getElementById("fold").textContent = this.choice.isAllFolded(this.steps) ? "Unfold all" : "Fold all";
  }

  fillStep(row, index, plan) {
    const step = this.steps[index];
    const look = LOOKS[this.choice.kindOf(step)];
    row.dataset.kind = step.kind;
    row.style.setProperty("--kind", "var(--" + look.color + ")");
    row.classList.toggle("enforced", step.enforced === true);
    const text = this.choice.labelOf(step);
    const spoken = spokenStep({ ...step, label: text }, this.lanes);
    const head = make("div", "head-of-row");
    head.style.marginLeft = plan.leftOf(step) + "px";
    head.append(labelButton(step, text, spoken));
    if (isStart(step)) {
      const name = step.label + " of " + this.lanes[step.document].name;
      head.append(foldButton(name, this.choice.isFolded(step), () => this.toggle(index)));
    }
    row.append(drawing(step, plan), head, ...notesBelow(step, plan, this.docs));
  }

  toggle(index) {
    this.choice.fold(this.steps[index], !this.choice.isFolded(this.steps[index]));
    this.redraw();
    const row = this.rowOfStep.get(index);
    this.diagram.focus(row);
    this.diagram.shown.get(row).querySelector(".fold").focus({ preventScroll: true });
  }

  // After another choice: what was chosen is chosen still, and what was in sight stays about there.
  redraw() {
    const { scrollTop } = this.diagram.scroll;
    this.drawSteps();
    this.diagram.scroll.scrollTop = scrollTop;
    if (this.chosen !== undefined && this.rowOfStep.has(this.chosen)) {
      this.diagram.activate(this.rowOfStep.get(this.chosen));
      this.diagram.mark([this.rowOfStep.get(this.chosen)]);
    }
  }

  // What is said of the whole play: the lines before it, and those of no mark.
  tell(play) {
    const count = (...kinds) => this.steps.filter((step) => kinds.includes(step.kind)).length;
    document.getElementById("summary").textContent = "Documents: " + play.documents.length + ". Requests: "
      + count("request", "preflight") + ", preflights among them: " + count("preflight") + ". Calls of the book: "
      + play.history.length + ". Refusals: " + count("refusal") + ".";
    const said = saidLines(this.left).map((line) => saidLine(line, this.docs));
    document.getElementById("said").replaceChildren(...said);
  }

  // ---- what is chosen

  choose(index) {
    const step = this.steps[index];
    this.chosen = index;
    const lines = Array.from({ length: step.last - step.line + 1 }, (nothing, more) => step.line + more);
    const entry = step.entryLine === undefined ? [] : [step.entryLine];
    this.diagram.mark(this.rowOfStep.has(index) ? [this.rowOfStep.get(index)] : []);
    this.text.mark([...lines, ...entry].map((line) => this.rowOfLine.get(line)));
    this.text.reveal(this.rowOfLine.get(step.line));
    const turns = entry.map((line) => line - this.entries[0].line);
    this.history.mark(turns);
    turns.forEach((row) => this.history.reveal(row));
    document.getElementById("details").replaceChildren(...detailsOf(step, this.lanes, this.lines, this.docs));
  }

  // A line of the text or of the history marks its arrow.
  chooseLine(number) {
    const index = this.byLine === undefined ? undefined : this.byLine[number];
    if (index !== undefined) {
      this.unfold(index);
      if (this.rowOfStep.has(index)) {
        this.diagram.activate(this.rowOfStep.get(index));
        this.diagram.reveal(this.rowOfStep.get(index));
      }
      this.choose(index);
    }
  }

  // A mark that is looked for shows also in a fetch that is folded.
  unfold(index) {
    if (!isStart(this.steps[index]) && this.choice.isFolded(this.steps[index])) {
      this.choice.fold(this.steps[index], false);
      this.redraw();
    }
  }

  // The next refusal after the active mark, or the one before it. What the filter leaves out is passed over.
  seekRefusal(way) {
    const active = this.shown[this.diagram.active];
    const groups = new Set(this.shown.map((index) => groupOf(this.steps[index])));
    let index = active === undefined ? 0 : active + way;
    while (index >= 0 && index < this.steps.length
      && !(this.steps[index].kind === "refusal" && groups.has(groupOf(this.steps[index])))) {
      index += way;
    }
    if (index >= 0 && index < this.steps.length) {
      this.unfold(index);
      this.diagram.focus(this.rowOfStep.get(index));
    }
  }

  // ---- paper, and a picture

  print(all) {
    const width = this.lanes === undefined || this.isNarrow() ? 0 : this.planNow().width;
    document.getElementById("diagram").style.zoom = all && width > 1000 ? String(1000 / width) : "";
    this.parts().forEach((rows) => rows.print(all));
  }

  picture() {
    const style = getComputedStyle(document.documentElement);
    const colors = Object.fromEntries(COLORS.map((name) => [name, style.getPropertyValue("--" + name).trim()]));
    return svgOf(this.shown.map((index) => this.steps[index]), this.lanes, this.choice, colors);
  }

  parts() {
    return [this.diagram, this.text, this.history].filter((rows) => rows !== undefined);
  }

  refuse(error) {
    const alert = make("p", "no-play", "This is no play: " + error.message + ".");
    alert.setAttribute("role", "alert");
    document.getElementById("summary").replaceChildren(alert);
    const last = Math.min(error.line, this.lines.length);
    this.text.mark([this.rowOfLine.get(error.line)].filter((row) => row !== undefined));
    if (last > 0) {
      this.text.reveal(this.rowOfLine.get(last));
    }
  }
}

function stopRows(rows) {
  if (rows !== undefined) {
    rows.stop();
  }
}

// What was drawn before goes; what is chosen to be drawn stays.
let shownPage = null;
const shownChoice = new Choice();

function clearPage() {
  if (shownPage !== null) {
    shownPage.parts().forEach((rows) => rows.stop());
  }
  document.querySelectorAll(".lanes, .rows, #summary, #said, #drawn").forEach((list) => list.replaceChildren());
  document.getElementById("details").replaceChildren(make("p", "", "None yet."));
}

// Whether a key is for what is written, and not for the page.
function isTyped(event) {
  return event.target.closest("textarea, input, select") !== null || event.ctrlKey || event.metaKey || event.altKey;
}

function drawPlay(text, docs) {
  clearPage();
  const page = new Page(text, docs, shownChoice);
  shownPage = page;
  try {
    page.draw();
  } catch (error) {
    if (!(error instanceof PlayError)) {
      throw error;
    }
    page.refuse(error);
  }
  window.onbeforeprint = () => page.print(true);
  window.onafterprint = () => page.print(false);
  window.onresize = () => page.resized();
  document.onkeydown = (event) => {
    const way = { n: 1, p: -1 }[event.key];
    if (way !== undefined && page.diagram !== undefined && !isTyped(event)) {
      page.seekRefusal(way);
    }
  };
  listenToControls(page);
}
