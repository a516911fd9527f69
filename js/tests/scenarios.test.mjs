// `fetch` of a page against random scenarios of browsers/fuzz, through servers of node:http: it does what the play
// of it says; and what Chromium does, where that is there, but for differences that the rules of browsers/ explain.
// SCENARIOS=N plays N, and not 200.
import test from "node:test";
import { playCertain } from "../../browsers/certain.js";
import { comparePlays } from "../../browsers/compare.js";
import { readCommands } from "../../browsers/engine.js";
import { explained, unexplained } from "../../browsers/explained.js";
import { made as scenarioOf } from "../../browsers/grammar.js";
import { find, starts } from "../../browsers/played.js";
import { differenceText } from "../../browsers/show.js";
import { compare } from "../../view/tests/base.js";
import { inPackage } from "./built.mjs";
import { playedByPage } from "./page_player.mjs";

const AREAS = ["redirects", "preflights", "policies", "headers", "referrers"]; // those that fetch
const COUNT = Number(process.env.SCENARIOS || 200);

const made = { ...await inPackage("index.js"), ...await inPackage("names.js"), ...await inPackage("node.js") };

// A Page loads nothing.
function withoutLoads(scenario) {
  const [document] = scenario.documents;
  const script = document.script.filter(({ load }) => load === undefined);
  return { ...scenario, documents: [{ ...document, script }] };
}

function scenarios() {
  const found = [];
  for (let number = 0; found.length < COUNT; number += 1) {
    const all = AREAS.map((area) => ({ name: area + " " + number, scenario: withoutLoads(scenarioOf(area, number)) }));
    found.push(...all.filter(({ scenario }) => scenario.documents[0].script.length > 0));
  }
  return found.slice(0, COUNT);
}

const errorOf = ({ number, name, header }) => [number, name, header].filter(Boolean).join(" ");

// What the page did otherwise than the play says.
function strayings(scenario, engine, commands) {
  return comparePlays(scenario, engine, { browser: "page", commands }).flatMap(({ place, differences, ...sides }) => {
    const [wanted, got] = [sides.engine, sides.browser].map((side) => (side === undefined ? "" : errorOf(side.result)));
    const texts = differences.map(differenceText);
    texts.push(...(wanted === got ? [] : ["error: here " + wanted + "; there " + got]));
    return texts.map((text) => place + ", by its play here, by the page there: " + text);
  });
}

// The commands of the page, with what its play tells of the book beside them: rules of browsers/ look at it.
async function prepared(context, { name, scenario }) {
  const engine = readCommands(made.play(scenario), scenario.documents[0]);
  const commands = await playedByPage(made, scenario);
  await compare(context, name, strayings(scenario, engine, commands), []);
  return { name, scenario, commands: engine.map((command, at) => ({ ...command, ...commands[at] })) };
}

function judged({ scenario, commands }, played) {
  return explained(scenario, played, comparePlays(scenario, commands, played));
}

// What Chromium does otherwise than the page, by each scenario's name, and how many of the differences rules explain.
async function besideChromium(program, all) {
  const [found, explainedOnes] = [new Map(), []];
  await playCertain(program, { jobs: 2, name: "js/check" }, all.map((one) => [one, one.scenario]), {
    isExpected: (one, played) => unexplained(judged(one, played)).length === 0,
    told: (one, played) => {
      const compared = judged(one, played);
      explainedOnes.push(...compared.flatMap(({ differences }) => differences).filter(({ rule }) => rule !== null));
      found.set(one.name, unexplained(compared).map((difference) => difference.place
        + ", by the page here, in Chromium there: " + differenceText(difference)));
    },
    failed: (one, error) => found.set(one.name, [error.message]),
  });
  return { found, count: explainedOnes.length };
}

test("random scenarios", async (context) => {
  const all = [];
  await context.test("as their plays say", async (own) => {
    for (const one of scenarios()) {
      await own.test(one.name, async (its) => {
        all.push(await prepared(its, one));
      });
    }
  });
  const fetches = all.flatMap(({ commands }) => commands).length;
  context.diagnostic(fetches + " fetches of pages, in " + all.length + " scenarios, are as their plays say");
  const program = find("chromium");
  const skip = program === null ? "there is none" : (await starts(program) ? false : "it does not start");
  await context.test("beside those of Chromium", { skip }, async (own) => {
    const { found, count } = await besideChromium(program, all);
    for (const [name, differences] of found) {
      await compare(own, name, differences, []);
    }
    context.diagnostic("they are as Chromium " + program.version + " makes them but for " + count
      + " differences that rules explain");
  });
});
