"use strict";

// What is covered, as a page that stands by itself.

const STYLE = "body{font:15px/1.4 sans-serif;max-width:60em;margin:2em auto;padding:0 1em;color:#222;background:#fff}"
  + "table{border-collapse:collapse;width:100%}td,th{text-align:left;padding:.2em .5em;border-bottom:1px solid #ccc;vertical-align:top}"
  + ".missing{background:#fff0e0}";

const escaped = (text) => String(text).replace(/&/g, "&amp;").replace(/</g, "&lt;").replace(/"/g, "&quot;");

function rowOf({ name, group, what, by, shown }) {
  const own = name.slice(group.length + 1);
  const told = by.length > 0 ? by[0] + (by.length > 1 ? " and " + (by.length - 1) + " more" : "")
    : "missing" + (shown === null ? "" : "; shown by " + shown);
  return "<tr" + (by.length === 0 ? " class=missing" : "") + "><td>" + [own, what, told].map(escaped).join("<td>") + "\n";
}

function sectionOf(group, points) {
  const reached = points.filter(({ by }) => by.length > 0).length;
  return "<h2>" + escaped(group) + ": " + reached + " of " + points.length + "</h2>\n<table><tr><th>point<th>what it is<th>reached by\n"
    + points.map(rowOf).join("") + "</table>\n";
}

function pageOf(points, scenarios) {
  const groups = [...new Set(points.map(({ group }) => group))];
  const reached = points.filter(({ by }) => by.length > 0).length;
  return "<!doctype html>\n<html lang=en>\n<meta charset=utf-8>\n<title>What these plays cover</title>\n<style>" + STYLE
    + "</style>\n<h1>" + scenarios + " scenarios reach " + reached + " of " + points.length + " points</h1>\n"
    + groups.map((group) => sectionOf(group, points.filter((point) => point.group === group))).join("");
}

module.exports = { pageOf };
