"use strict";

// The editor: a text area with the numbers of its lines, what is wrong in it marked, and what may stand at the cursor. The
// marks lie behind the text area, in the same letters.

const MARKED_LONGEST = 200000; // characters: of a longer text only the numbers are shown
const PAUSE = 250; // milliseconds

// `problemsOf(text)` says what is wrong in a text, as it is typed; `changed()` is called as soon as one pauses.
class Editor {
  constructor({ schemas, problemsOf, changed }) {
    this.area = document.getElementById("editor");
    this.marks = document.getElementById("marks");
    this.numbers = document.getElementById("numbers");
    this.schemas = schemas;
    this.problemsOf = problemsOf;
    this.changed = changed;
    this.problems = [];
    this.choices = new Choices(document.getElementById("choices"), this.area, (choice) => this.put(choice));
    this.area.oninput = (event) => this.typed(event);
    this.area.onkeydown = (event) => this.key(event);
    this.area.onblur = () => this.choices.hide();
    this.area.onclick = () => this.choices.hide();
    this.area.onscroll = () => this.follow();
  }

  text() {
    return this.area.value;
  }

  // Another text, of a question or a link.
  setText(text) {
    this.area.value = text;
    this.area.setSelectionRange(0, 0);
    this.area.scrollTo(0, 0);
    this.mark();
    this.changed();
  }

  typed(event) {
    this.mark();
    clearTimeout(this.later);
    this.later = setTimeout(() => this.changed(), PAUSE);
    if (event.inputType === "insertText" && /^["\w-]$/.test(event.data || "")) {
      this.complete((found) => found.named);
    } else if (this.choices.isOpen()) {
      this.complete((found) => found.named);
    }
  }

  key(event) {
    if (this.choices.key(event)) {
      return;
    }
    if (event.key === " " && event.ctrlKey) {
      event.preventDefault();
      this.complete(() => true);
    } else if (event.key.startsWith("Arrow") || event.key === "Home" || event.key === "End") {
      this.choices.hide();
    }
  }

  // ---- what may stand at the cursor

  complete(isWanted) {
    const at = this.area.selectionStart;
    const found = completionsAt(this.schemas, this.text(), at);
    const done = found.choices.length === 1
      && found.choices[0].text === this.text().slice(found.range.start, found.range.end);
    if (found.choices.length === 0 || done || !isWanted(found)) {
      this.choices.hide();
      return;
    }
    this.range = found.range;
    this.choices.show(found.choices, this.placeOf(found.range.start));
  }

  // Puts a choice in place of what was begun; the cursor goes to the first text, list or object in it without content.
  put(choice) {
    this.area.setSelectionRange(this.range.start, this.range.end);
    // So that it can be undone.
    if (!document.execCommand("insertText", false, choice.text)) {
      this.area.setRangeText(choice.text, this.range.start, this.range.end, "end");
    }
    const empty = choice.text.search(/""|\[\]|\{\}/);
    const at = this.range.start + (empty < 0 ? choice.text.length : empty + 1);
    this.area.setSelectionRange(at, at);
    this.complete((found) => found.named && choice.text[empty] === '"');
  }

  lineHeight() {
    return parseFloat(getComputedStyle(this.area).lineHeight);
  }

  // Where a place of the text is seen, below its line.
  placeOf(at) {
    const before = this.text().slice(0, at).split("\n");
    const style = getComputedStyle(this.area);
    const probe = make("span", "", before[before.length - 1]);
    this.marks.append(probe);
    const left = parseFloat(style.paddingLeft) + probe.getBoundingClientRect().width - this.area.scrollLeft;
    probe.remove();
    const top = parseFloat(style.paddingTop) + before.length * this.lineHeight() - this.area.scrollTop;
    return { left, top };
  }

  // ---- what is wrong

  // Marks what is wrong in the text as it is now. It is told below when one pauses.
  mark() {
    this.setMarks(this.text().length > MARKED_LONGEST ? [] : this.problemsOf(this.text()));
  }

  setMarks(problems) {
    this.problems = problems.map((problem) => ({ ...problem, line: this.lineOf(problem.start) }));
    this.look();
  }

  // Each problem has `start`, `end` and a `sentence`, and may be `refused` by the program.
  setProblems(problems) {
    this.setMarks(problems);
    this.area.setAttribute("aria-invalid", String(problems.length > 0));
    document.getElementById("problems").replaceChildren(...this.problems.map((problem) => this.told(problem)));
    return this.problems;
  }

  told({ line, start, sentence, refused }) {
    const item = make("li", refused ? "refused" : "");
    const button = make("button", "", "line " + line + ": " + sentence);
    button.type = "button";
    button.onclick = () => this.goTo(start);
    item.append(button);
    return item;
  }

  lineOf(at) {
    return this.text().slice(0, at).split("\n").length;
  }

  goTo(at) {
    this.area.focus();
    this.area.setSelectionRange(at, at);
    const { left, top } = this.placeOf(at);
    if (top < this.lineHeight() || top > this.area.clientHeight) {
      this.area.scrollTop += top - this.area.clientHeight / 3;
    }
    if (left < 0 || left > this.area.clientWidth) {
      this.area.scrollLeft += left - this.area.clientWidth / 2;
    }
  }

  // ---- what is drawn behind the text and beside it

  look() {
    this.numbers.replaceChildren(...this.numbered());
    this.marks.replaceChildren(...(this.text().length > MARKED_LONGEST ? [] : this.marked()));
    this.follow();
  }

  // The numbers of the lines, in pieces: those of lines that are wrong stand alone.
  numbered() {
    const lines = this.text().split("\n").length;
    const wrong = [...new Set(this.problems.map(({ line }) => line))].sort((one, other) => one - other);
    const upTo = (first, last) => Array.from({ length: last - first }, (nothing, index) => first + index + "\n").join("");
    const pieces = wrong.flatMap((line, index) => [upTo(index === 0 ? 1 : wrong[index - 1] + 1, line),
      make("b", "wrong", String(line)), "\n"]);
    return [...pieces, upTo(wrong.length === 0 ? 1 : wrong[wrong.length - 1] + 1, lines + 1)];
  }

  // The text, in pieces: those that are wrong are marked.
  marked() {
    const text = this.text();
    const pieces = [];
    let at = 0;
    [...this.problems].sort((one, other) => one.start - other.start).forEach(({ start, end, refused }) => {
      if (start >= at) {
        pieces.push(text.slice(at, start), make("mark", refused ? "refused" : "", text.slice(start, end) || " "));
        at = Math.max(start, end);
      }
    });
    return [...pieces, text.slice(at) + "\n"];
  }

  follow() {
    this.marks.style.transform = "translate(" + -this.area.scrollLeft + "px, " + -this.area.scrollTop + "px)";
    this.numbers.style.transform = "translateY(" + -this.area.scrollTop + "px)";
  }
}
