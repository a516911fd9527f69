"use strict";

// A list of rows of which only those in sight are in the document, where there are many. Each row has a button, and one
// of them is in the order of Tab: the arrow keys move it. Short lists are drawn whole, and so is what is printed.

const DRAWN_WHOLE = 400;
const BEYOND_SIGHT = 12;

function make(name, className, text) {
  const element = document.createElement(name);
  if (className !== "") {
    element.className = className;
  }
  if (text !== undefined) {
    element.textContent = text;
  }
  return element;
}

// `section` has the list, and `heights` a number for each row; `fill(row, index)` gives a row its content, with a
// button; `choose(index)` is called for a row that is clicked.
class Rows {
  constructor({ section, heights, fill, choose }) {
    this.scroll = section.querySelector(".scroll");
    this.list = section.querySelector(".rows");
    this.fill = fill;
    this.shown = new Map();
    this.marked = new Set();
    this.active = 0;
    this.whole = heights.length <= DRAWN_WHOLE;
    this.offsets = [0];
    heights.forEach((height) => this.offsets.push(this.offsets[this.offsets.length - 1] + height));
    this.count = heights.length;
    this.list.replaceChildren();
    this.list.style.height = this.offsets[this.count] + "px";
    this.listen(choose);
    this.draw();
  }

  listen(choose) {
    this.list.onclick = (event) => {
      const row = event.target.closest("li");
      if (row !== null && event.target.closest("a") === null) {
        this.activate(Number(row.dataset.index));
        choose(this.active);
      }
    };
    this.list.onkeydown = (event) => this.key(event);
    this.scroll.onscroll = () => window.requestAnimationFrame(() => this.draw());
    this.observer = new ResizeObserver(() => this.draw());
    this.observer.observe(this.scroll);
  }

  // Nothing is drawn any more: other rows take the place.
  stop() {
    this.observer.disconnect();
    this.scroll.onscroll = null;
    this.draw = () => {};
  }

  key(event) {
    const page = Math.max(1, Math.floor(this.scroll.clientHeight / 48) - 1);
    const moves = { ArrowDown: 1, ArrowUp: -1, PageDown: page, PageUp: -page, Home: -this.count, End: this.count };
    if (moves[event.key] !== undefined && !event.ctrlKey && !event.altKey && !event.metaKey) {
      event.preventDefault();
      this.focus(this.active + moves[event.key]);
    }
  }

  // Moves to a row, or to the first or the last where there is none of this number.
  focus(index) {
    if (this.count > 0) {
      this.activate(Math.max(0, Math.min(this.count - 1, index)));
      this.reveal(this.active);
      this.shown.get(this.active).querySelector("button").focus({ preventScroll: true });
    }
  }

  activate(index) {
    const before = this.shown.get(this.active);
    this.active = index;
    this.draw();
    [before, this.shown.get(index)].filter((row) => row !== undefined).forEach((row) => this.dress(row));
  }

  // The last row that begins at this height or above it.
  rowAt(height) {
    let [low, high] = [0, this.count - 1];
    while (low < high) {
      const middle = Math.ceil((low + high) / 2);
      [low, high] = this.offsets[middle] <= height ? [middle, high] : [low, middle - 1];
    }
    return low;
  }

  // The rows that are to be drawn: those in sight and the active one, which may have the focus; in order.
  wanted() {
    const top = this.scroll.scrollTop - this.list.offsetTop;
    const first = this.whole ? 0 : Math.max(0, this.rowAt(top) - BEYOND_SIGHT);
    const last = this.whole ? this.count - 1
      : Math.min(this.count - 1, this.rowAt(top + this.scroll.clientHeight) + BEYOND_SIGHT);
    const all = Array.from({ length: Math.max(0, last - first + 1) }, (nothing, index) => first + index);
    const active = this.active < this.count ? [this.active] : [];
    return [...active.filter((index) => index < first), ...all, ...active.filter((index) => index > last)];
  }

  draw() {
    const wanted = this.wanted();
    const kept = new Set(wanted);
    [...this.shown.keys()].filter((index) => !kept.has(index)).forEach((index) => {
      this.shown.get(index).remove();
      this.shown.delete(index);
    });
    let before = null;
    wanted.forEach((index) => {
      before = this.shown.get(index) || this.place(index, before);
    });
  }

  place(index, before) {
    const row = make("li", "row");
    row.dataset.index = String(index);
    row.setAttribute("aria-setsize", String(this.count));
    row.setAttribute("aria-posinset", String(index + 1));
    row.style.top = this.offsets[index] + "px";
    row.style.height = this.offsets[index + 1] - this.offsets[index] + "px";
    this.fill(row, index);
    this.dress(row);
    this.list.insertBefore(row, before === null ? this.list.firstChild : before.nextSibling);
    this.shown.set(index, row);
    return row;
  }

  // What of a row changes: whether it is in the order of Tab, and whether it is marked.
  dress(row) {
    const index = Number(row.dataset.index);
    row.querySelectorAll("button, a").forEach((part) => {
      part.tabIndex = index === this.active ? 0 : -1;
    });
    const marked = this.marked.has(index);
    row.classList.toggle("marked", marked);
    row.querySelector("button").setAttribute("aria-current", String(marked));
  }

  mark(indices) {
    this.marked = new Set(indices);
    this.shown.forEach((row) => this.dress(row));
  }

  // Scrolls a row into sight, where it is not.
  reveal(index) {
    const top = this.offsets[index] + this.list.offsetTop;
    const bottom = this.offsets[index + 1] + this.list.offsetTop;
    const covered = this.list.offsetTop;
    if (top < this.scroll.scrollTop + covered || bottom > this.scroll.scrollTop + this.scroll.clientHeight) {
      this.scroll.scrollTop = Math.max(0, top - covered - this.scroll.clientHeight / 3);
    }
    this.draw();
    this.revealSideways(index);
  }

  // A diagram of many lanes is wide.
  revealSideways(index) {
    const left = this.shown.get(index).querySelector("button").getBoundingClientRect().left;
    const view = this.scroll.getBoundingClientRect().left;
    if (left < view || left > view + this.scroll.clientWidth * 0.7) {
      this.scroll.scrollLeft += left - view - this.scroll.clientWidth / 3;
    }
  }

  // All rows, for paper; and those in sight again.
  print(all) {
    this.whole = all || this.count <= DRAWN_WHOLE;
    this.draw();
  }
}
