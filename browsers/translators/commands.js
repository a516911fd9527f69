"use strict";

// What translators share: they walk through a scenario's script, and say of each command what was seen. Results decide
// which commands come, so each is told at once.

const { commandsOf, filledCommand, lastOf, NOTHING } = require("../scenario.js");

// The URL of a command as requests have it: absolute, without fragment and user name; null where it is no URL.
function urlOf(command, document) {
  try {
    const url = new URL((command.fetch || command.load).url, document.url);
    [url.hash, url.username, url.password] = ["", "", ""];
    return url;
  } catch {
    return null;
  }
}

// An observation of the script of a scenario's one document; `seen(command, url)` gives what was seen of a command.
function observedCommands(scenario, seen) {
  const [document] = scenario.documents;
  const state = { last: NOTHING };
  const commands = [];
  for (const { place, command } of commandsOf(document.script, state)) {
    if (command.wait === undefined) {
      const asked = filledCommand(command, state.last);
      const told = seen(asked, urlOf(asked, document));
      commands.push({ place, ...told });
      state.last = told.result === undefined ? NOTHING : lastOf(told.result);
    }
  }
  return commands;
}

module.exports = { observedCommands };
