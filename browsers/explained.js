"use strict";

// Gives each difference the rule that explains it, or null. A rule is asked with what it may look at: the scenario, the
// command, both sides of it, and the commands before it.

const { ruleFor } = require("./rules.js");
const { ruleOfTime } = require("./clock.js");
const { documentAt } = require("./scenario.js");

function contextOf(scenario, browser, commands, index) {
  const { place, engine, browser: theirs } = commands[index];
  const command = engine === undefined ? {} : engine.command;
  return { scenario, document: documentAt(scenario, place), browser, command, asked: command.fetch || command.load || {},
    ours: engine, theirs, before: commands.slice(0, index) };
}

// One of the compared commands, each difference with its rule. What one side alone came to has no rule.
function explainedAt(scenario, browser, commands, index, version) {
  const context = contextOf(scenario, browser, commands, index);
  const isOfBoth = context.ours !== undefined && context.theirs !== undefined;
  const ruleOf = (difference) => ruleFor(difference, context, version) || ruleOfTime(difference, context);
  const differences = commands[index].differences
    .map((difference) => ({ ...difference, rule: isOfBoth ? ruleOf(difference) : null }));
  return { ...commands[index], differences };
}

function explained(scenario, { browser, version }, commands) {
  return commands.map((_, index) => explainedAt(scenario, browser, commands, index, version));
}

function unexplained(commands) {
  return commands.flatMap((compared) => compared.differences.filter((difference) => difference.rule === null)
    .map((difference) => ({ place: compared.place, ...difference })));
}

module.exports = { explained, explainedAt, contextOf, unexplained };
