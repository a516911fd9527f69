"use strict";

// Plays many scenarios, and what is not as expected once more, alone, in a fresh browser, and with more patience: what
// a slow machine makes does not come again.

const { playIn, playMany } = require("./played.js");
const { Progress } = require("./progress.js");

// `isExpected` is asked of each play with its key; `told` is given the play that counts, and `failed` an error of the browser
// that came twice. Gives how many were played again, and how many of them were as expected then.
async function playCertain(program, { jobs, name }, scenarios, { isExpected, told, failed }) {
  const progress = new Progress(name, scenarios.length);
  const again = new Map();
  const step = () => progress.step(again.size === 0 ? "" : again.size + " to be played again");
  await playMany(program, jobs, scenarios, (key, played) => {
    if (isExpected(key, played)) {
      told(key, played);
    } else {
      again.set(key, played);
    }
    step();
  }, (key, error) => {
    again.set(key, error);
    step();
  });
  let mended = 0;
  for (const [key, scenario] of scenarios.filter(([one]) => again.has(one))) {
    try {
      const played = await playIn(program, scenario, { isPatient: true });
      mended += isExpected(key, played) ? 1 : 0;
      told(key, played);
    } catch (error) {
      failed(key, error);
    }
  }
  return { again: again.size, mended };
}

module.exports = { playCertain };
