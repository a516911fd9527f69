"use strict";

// The list of what may stand at the cursor. The focus stays in the editor, which tells a screen reader the active choice.

class Choices {
  constructor(list, area, take) {
    this.list = list;
    this.area = area;
    this.take = take;
    this.all = [];
    this.active = 0;
    list.onmousedown = (event) => {
      event.preventDefault();
      const item = event.target.closest("li");
      if (item !== null) {
        this.takeAt(Number(item.dataset.index));
      }
    };
  }

  isOpen() {
    return !this.list.hidden;
  }

  show(choices, place) {
    this.all = choices;
    this.list.replaceChildren(...choices.map((choice, index) => {
      const item = make("li", "");
      item.id = "choice-" + index;
      item.dataset.index = String(index);
      item.setAttribute("role", "option");
      item.append(make("b", "", choice.label), make("span", "", choice.detail));
      return item;
    }));
    this.list.hidden = choices.length === 0;
    const most = this.area.clientWidth - this.list.offsetWidth;
    this.list.style.left = Math.max(0, Math.min(place.left, most)) + "px";
    this.list.style.top = place.top + "px";
    this.activate(0);
  }

  hide() {
    this.list.hidden = true;
    this.area.removeAttribute("aria-activedescendant");
  }

  activate(index) {
    this.active = (index + this.all.length) % Math.max(1, this.all.length);
    [...this.list.children].forEach((item, other) => item.setAttribute("aria-selected", String(other === this.active)));
    const item = this.list.children[this.active];
    if (item !== undefined) {
      this.area.setAttribute("aria-activedescendant", item.id);
      this.reveal(item);
    }
  }

  // Scrolls in the list alone.
  reveal(item) {
    const [top, bottom] = [item.offsetTop, item.offsetTop + item.offsetHeight];
    this.list.scrollTop = Math.min(top, Math.max(this.list.scrollTop, bottom - this.list.clientHeight));
  }

  takeAt(index) {
    const choice = this.all[index];
    this.hide();
    this.take(choice);
  }

  // Whether the key was for the list.
  key(event) {
    const uses = { ArrowDown: () => this.activate(this.active + 1), ArrowUp: () => this.activate(this.active - 1),
      Enter: () => this.takeAt(this.active), Tab: () => this.takeAt(this.active), Escape: () => this.hide() };
    if (!this.isOpen() || uses[event.key] === undefined || event.ctrlKey || event.altKey || event.metaKey
      || event.shiftKey) {
      return false;
    }
    event.preventDefault();
    uses[event.key]();
    return true;
  }
}
