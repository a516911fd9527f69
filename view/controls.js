"use strict";

// The switches above the diagram: whether the calls of the book are drawn, which fetches are folded, the filter, and
// the button that saves the diagram.

const PAUSE_OF_FILTER = 150; // milliseconds

// Saves a text as a file of the reader.
function save(name, kind, text) {
  const link = make("a", "");
  link.href = URL.createObjectURL(new Blob([text], { type: kind }));
  link.download = name;
  link.click();
  setTimeout(() => URL.revokeObjectURL(link.href), 10000);
}

// `page` is the one that is drawn now: without a diagram there is nothing to choose.
function listenToControls(page) {
  const controls = ["calls", "fold", "filter", "picture"].map((name) => document.getElementById(name));
  const [calls, fold, filter, picture] = controls;
  controls.forEach((control) => {
    control.disabled = page.diagram === undefined;
  });
  calls.onchange = () => {
    page.choice.hasCalls = calls.checked;
    page.redraw();
  };
  fold.onclick = () => {
    page.choice.foldAll(page.steps, !page.choice.isAllFolded(page.steps));
    page.redraw();
  };
  filter.oninput = () => {
    page.choice.filter = filter.value;
    clearTimeout(filter.later);
    filter.later = setTimeout(() => page === shownPage && page.redraw(), PAUSE_OF_FILTER);
  };
  picture.onclick = () => save("play.svg", "image/svg+xml", page.picture());
}
