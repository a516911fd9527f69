"use strict";

// What has changed between two observations of one scenario by one engine: a difference that is new, or one that is gone.
// Who knows an engine's differences minds these alone.

const { differenceText } = require("./show.js");

// What makes two differences the same one: the values may be other ones, as of a boundary or a date.
const keyOf = (place, { what, name, request, rule }) => [place, what, name || "", request || "",
  rule === null ? "" : rule.name].join(" ");

const textOf = (place, difference) => place + " " + differenceText(difference)
  + (difference.rule === null ? "" : " (" + difference.rule.name + ")");

const isSteady = ({ rule }) => rule === null || !rule.sometimes;

// Each difference that an engine does not show in some runs alone, with its key and its text.
function steady(commands) {
  return commands.flatMap(({ place, differences }) => differences.filter(isSteady)
    .map((difference) => ({ key: keyOf(place, difference), text: textOf(place, difference) })));
}

// Those of one list that the other lacks, each as often as it is there.
function without(list, other) {
  const rest = other.map(({ key }) => key);
  return list.filter(({ key }) => {
    const at = rest.indexOf(key);
    if (at >= 0) {
      rest.splice(at, 1);
    }
    return at < 0;
  });
}

// The changes as lines; both sides are commands as explained.js gives them.
function changesOf(before, now) {
  const [old, fresh] = [steady(before), steady(now)];
  return [...without(fresh, old).map(({ text }) => "new: " + text), ...without(old, fresh).map(({ text }) => "gone: " + text)];
}

module.exports = { changesOf };
