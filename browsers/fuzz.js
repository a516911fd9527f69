"use strict";

// browsers/fuzz: random scenarios, played by the engine and in a browser; what no rule explains is printed.

const fs = require("fs");
const path = require("path");
const { made, AREAS } = require("./grammar.js");
const { readScenario } = require("./scenario.js");
const { printedPlay, readCommands } = require("./engine.js");
const { comparePlays } = require("./compare.js");
const { explained, unexplained } = require("./explained.js");
const { Player, find } = require("./played.js");
const { playCertain } = require("./certain.js");
const { shrunk } = require("./shrink.js");
const { differenceText, NAMES } = require("./show.js");

const USAGE = `usage: browsers/fuzz [--firefox] [--jobs N] [--keep FOLDER] [--whole] AREA FIRST COUNT
       browsers/fuzz --print AREA NUMBER

Makes COUNT random scenarios of an area, from the number FIRST on, plays each by the engine and in Chromium (or Firefox), N at
a time (2), and plays once more, alone, what no rule explains. What is still unexplained is printed; the scenario is made
smaller until nothing can be left out (with --whole it is not), and kept in FOLDER. --print prints a scenario. The areas:
${Object.keys(AREAS).join(", ")}.
`;

function readWords(words) {
  const given = { browser: "chromium", jobs: 2, keep: null, print: false, whole: false, rest: [] };
  const rest = [...words];
  while (rest.length > 0) {
    const word = rest.shift();
    if (word === "--firefox") {
      given.browser = "firefox";
    } else if (word === "--jobs") {
      given.jobs = Number(rest.shift());
    } else if (word === "--keep") {
      given.keep = rest.shift();
    } else if (word === "--print" || word === "--whole") {
      given[word.slice(2)] = true;
    } else {
      given.rest.push(word);
    }
  }
  [given.area, given.first, given.count] = [given.rest[0], Number(given.rest[1]), Number(given.rest[2])];
  const sound = given.area in AREAS && Number.isInteger(given.first) && given.jobs > 0
    && (given.print ? given.rest.length === 2 : given.rest.length === 3 && given.count > 0);
  return sound ? given : null;
}

const textOf = (given, number) => JSON.stringify(made(given.area, number), null, 1) + "\n";

// Each scenario with the engine's play of it.
function preparedOf(given) {
  return Array.from({ length: given.count }, (_, index) => {
    const number = given.first + index;
    const text = textOf(given, number);
    const scenario = readScenario(text);
    return { number, text, scenario, engine: readCommands(printedPlay(Buffer.from(text)), scenario.documents[0]) };
  });
}

const judged = ({ scenario, engine }, played) => explained(scenario, played, comparePlays(scenario, engine, played));

// The command line that plays one again.
const seedOf = (given, number) => "browsers/fuzz" + (given.browser === "firefox" ? " --firefox " : " ") + given.area + " "
  + number + " 1";

const kindOf = ({ what, name }) => what + " " + (name || "");

// The scenario made smaller, as long as a difference of the same kind is unexplained.
async function smallest(program, scenario, left) {
  const kinds = left.map(kindOf);
  const player = new Player(program);
  await player.start();
  try {
    return await shrunk(scenario, async (smaller) => {
      try {
        const text = JSON.stringify(smaller);
        const prepared = { scenario: readScenario(text), engine: readCommands(printedPlay(Buffer.from(text)),
          smaller.documents[0]) };
        return unexplained(judged(prepared, await player.play(smaller, true))).some((one) => kinds.includes(kindOf(one)));
      } catch {
        return false;
      }
    });
  } finally {
    await player.close();
  }
}

function keep(folder, name, scenario) {
  fs.mkdirSync(folder, { recursive: true });
  fs.writeFileSync(path.join(folder, name + ".json"), JSON.stringify(scenario, null, 1) + "\n");
}

// The differences of one that no rule explains are told, and it is made smaller and kept.
async function tell(given, program, { number, scenario }, left) {
  left.forEach((one) => console.log(given.area + " " + number + " " + one.place + " " + differenceText(one)));
  console.log("  again: " + seedOf(given, number));
  const small = given.whole ? scenario : await smallest(program, scenario, left);
  if (given.keep === null) {
    console.log("  " + JSON.stringify(small));
    return;
  }
  keep(given.keep, given.area + "-" + number, scenario);
  keep(given.keep, given.area + "-" + number + "-small", small);
}

async function playAll(given, program) {
  const sums = { commands: 0, explained: 0, unexplained: 0 };
  const found = [];
  const again = await playCertain(program, { jobs: given.jobs, name: "browsers/fuzz" },
    preparedOf(given).map((prepared) => [prepared, prepared.scenario]), {
      isExpected: (prepared, played) => unexplained(judged(prepared, played)).length === 0,
      told: (prepared, played) => {
        const commands = judged(prepared, played);
        const left = unexplained(commands);
        found.push(...(left.length === 0 ? [] : [[prepared, left]]));
        sums.commands += commands.length;
        sums.unexplained += left.length;
        sums.explained += commands.flatMap((compared) => compared.differences).length - left.length;
      },
      failed: (prepared, error) => {
        console.log(given.area + " " + prepared.number + " " + error.message);
        sums.unexplained += 1;
      } });
  for (const [prepared, left] of found) {
    await tell(given, program, prepared, left);
  }
  return { ...sums, ...again };
}

async function main(words) {
  const given = readWords(words);
  if (given === null) {
    process.stderr.write(USAGE);
    return 2;
  }
  if (given.print) {
    process.stdout.write(textOf(given, given.first));
    return 0;
  }
  const program = find(given.browser);
  if (program === null) {
    console.error("browsers/fuzz: there is no " + NAMES[given.browser]);
    return 3;
  }
  const sums = await playAll(given, program);
  console.log("browsers/fuzz: " + NAMES[program.browser] + " " + program.version + ": " + given.count + " scenarios of "
    + given.area + ", " + sums.commands + " commands: " + sums.explained + " differences explained, " + sums.unexplained
    + " unexplained" + (sums.again > 0 ? "; " + sums.again + " played again, of which " + sums.mended + " as expected" : ""));
  return sums.unexplained === 0 ? 0 : 1;
}

module.exports = { main };
