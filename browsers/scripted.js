"use strict";

// What the servers of a scenario answer (docs/scenario.md, "What the servers answer"): the rule that fits a request, and its
// bytes.

// The first rule of the first server of this origin that fits; null where there is no such server.
function ruleFor(scenario, origin, method, target) {
  const server = (scenario.servers || []).find((one) => one.origin === origin);
  if (server === undefined) {
    return null;
  }
  const fits = (rule) => (rule.method === undefined || rule.method === method)
    && (rule.path === undefined || rule.path === target);
  return server.rules.find(fits) || { status: 404 };
}

// The text of an answer, with these header lines added.
function textOf(rule, added = "") {
  if (rule.raw !== undefined) {
    return rule.raw;
  }
  const lines = (rule.headers || []).map(([name, value]) => name + ": " + value + "\r\n").join("");
  return "HTTP/1.1 " + rule.status + " Scripted\r\n" + lines + added + "\r\n" + (rule.body || "");
}

module.exports = { ruleFor, textOf };
