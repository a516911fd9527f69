"use strict";

// The places of a scenario, as the program tells them: the keys and the numbers of items from the root to a value, each
// after a slash.

const tree = typeof module === "undefined" ? { memberOf } : require("./schema.js");

// The part of the text that a place is about: of a key that is missing the object that lacks it. Null where there is no
// such place.
function rangeOfPlace(root, place) {
  let node = root;
  for (const word of place.split("/").filter((part) => part !== "")) {
    if (node === null) {
      return null;
    }
    if (node.kind === "object") {
      const member = tree.memberOf(node, word);
      if (member === undefined) {
        return { start: node.start, end: node.start + 1 };
      }
      node = member.value === null ? member.key : member.value;
    } else {
      node = node.kind === "list" && node.items[Number(word)] ? node.items[Number(word)] : null;
    }
  }
  return node === null ? null : { start: node.start, end: shownEnd(node) };
}

// The first sign of an object or a list is enough to be marked.
function shownEnd(node) {
  return node.kind === "object" || node.kind === "list" ? node.start + 1 : node.end;
}

// The keys and numbers from the root to what is around a place in the text, and the role of what stands there: a `key` of
// the object `node`, or a `value`, or `none` of them. `part` is the key or the value that has begun there, or null.
function contextAt(root, at) {
  const path = [];
  let [node, inside] = [root, true];
  while (inside) {
    inside = false;
    if (node === null || node.end < at && node !== root) {
      break;
    }
    if (node.kind === "object" && isInside(node, at)) {
      const member = node.members.find((one) => one.start <= at && at <= one.end);
      if (member === undefined || at <= keyEnd(member)) {
        const key = member === undefined ? null : member.key;
        return { path, node, role: "key", part: key, colon: member !== undefined && member.colon };
      }
      if (!member.colon) {
        return { path, role: "none", part: null };
      }
      path.push(member.key === null ? "" : member.key.value);
      [node, inside] = [member.value, true];
    } else if (node.kind === "list" && isInside(node, at)) {
      const index = node.items.findIndex((one) => one !== null && one.start <= at && at <= one.end);
      const before = node.items.filter((one) => one !== null && one.end < at).length;
      path.push(index < 0 ? before : index);
      [node, inside] = [index < 0 ? null : node.items[index], true];
    }
  }
  return { path, role: "value", part: node };
}

function keyEnd(member) {
  return member.key === null ? member.start : member.key.end;
}

function isInside(node, at) {
  return node.start < at && at <= node.end && !(at === node.end && node.closed);
}

if (typeof module !== "undefined") {
  module.exports = { contextAt, rangeOfPlace, shownEnd };
}
