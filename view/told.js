"use strict";

// Takes from the text of a play what bin/why says between its lines: `<` begins a line of an answer, and `#` one that
// is said. No line of a play begins so. What is left is the play alone, which is read as strictly as ever.

const OWN_LINE = /^[<#]( |$)/;

// The `play`, and by the number of a line of it the lines that follow that line; those before the first one have 0.
function readTold(text) {
  const play = [];
  const said = new Map();
  text.split("\n").forEach((line) => {
    if (!OWN_LINE.test(line)) {
      play.push(line);
    } else if (said.has(play.length)) {
      said.get(play.length).push(line);
    } else {
      said.set(play.length, [line]);
    }
  });
  return { play: play.join("\n"), said };
}

// The rows of the text as they are shown: each line of the play with its number, and what is said behind it without.
function rowsOfText(lines, said) {
  const own = (number) => (said.get(number) || []).map((text) => ({ number: null, text, behind: number }));
  const row = (text, number) => [{ number, text, behind: number }, ...own(number)];
  return [...own(0), ...lines.flatMap((text, index) => row(text, index + 1))];
}

// ---- what is said of one step

function answerLines(said) {
  return said.filter((line) => line.startsWith("<")).map((line) => line.slice(2));
}

function saidLines(said) {
  return said.filter((line) => line.startsWith("#")).map((line) => line.slice(2));
}

// The status of an answer; null where none is known.
function statusOf(said) {
  const found = /^HTTP\/1\.[0-9] ([0-9]{3})/.exec(answerLines(said)[0] || "");
  return found === null ? null : Number(found[1]);
}

// The lines that the diagram has below a mark: why it came so, what to change, and whatever else is said. The rule is
// linked to beside them, and the header stands in the answer.
function adviceOf(said) {
  return saidLines(said).filter((line) => !/^(header|rule): /.test(line));
}

if (typeof module !== "undefined") {
  module.exports = { adviceOf, answerLines, readTold, rowsOfText, saidLines, statusOf };
}
