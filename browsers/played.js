"use strict";

// Plays a scenario in a browser, and gives what was seen, command by command: the requests that arrived, the violations
// and the result that the page told, and the network layer's reasons. That is what corpus/ stores.

const { Authority } = require("./certificate.js");
const { Servers } = require("./servers.js");
const { placeIn, policiesOf, spokenHeaders, commandsOf, filledCommand, lastOf, NOTHING } = require("./scenario.js");
const chromium = require("./chromium.js");
const firefox = require("./firefox.js");

const BROWSERS = { chromium, firefox };
const PATIENT = 20; // times as long

// ---- what the page told, in the engine's words

// Which of the document's policies an event means, by its text; browsers write the texts anew, so the closest one counts.
function policyOf(event, policies) {
  const words = (text) => new Set(text.toLowerCase().split(/[\s;]+/).filter((word) => word !== ""));
  const told = words(event.policy);
  const closeness = (policy) => {
    const own = words(policy.text);
    const shared = [...own].filter((word) => told.has(word)).length;
    return policy.text === event.policy ? 2 : shared / Math.max(own.size, told.size, 1);
  };
  const enforced = event.disposition === "enforce";
  const candidates = policies.map((policy, number) => ({ number, policy, close: closeness(policy) }))
    .filter((one) => one.policy.enforced === enforced);
  candidates.sort((one, other) => other.close - one.close || one.number - other.number);
  return candidates.length === 0 ? null : candidates[0].number;
}

function violationsOf(events, policies) {
  return events.filter((event) => !event.url.endsWith("/favicon.ico")).map((event) => ({ policy: policyOf(event, policies),
    enforced: event.disposition === "enforce", directive: event.directive, url: event.url }));
}

function isPreflight(arrival) {
  return arrival.method === "OPTIONS"
    && arrival.headers.some((header) => header.name.toLowerCase() === "access-control-request-method");
}

// The line that the servers added themselves, behind those of the scenario, is taken away again.
function withoutAdded(headers, arrivals) {
  const last = arrivals.filter((arrival) => !isPreflight(arrival)).pop();
  const isAdded = ([name, value]) => name.toLowerCase() === "cache-control" && value === "no-store";
  const isJoined = ([name, value]) => name.toLowerCase() === "cache-control" && value.endsWith(", no-store");
  return last === undefined || !last.uncached ? headers : headers.filter((header) => !isAdded(header))
    .map((header) => (isJoined(header) ? [header[0], header[1].slice(0, -", no-store".length)] : header));
}

// An undecodable image, sound or font is no failure of the network; a script or a style tells its own event.
function resultOfLoad(kind, seen) {
  const loaded = kind === "script" || kind === "style" ? seen.told.event === "load" : seen.finished;
  return { result: loaded ? "loaded" : "failed" };
}

function resultOf(command, seen, arrivals) {
  if (command.load !== undefined) {
    return resultOfLoad(command.load.kind, seen);
  }
  return seen.told.headers === undefined ? seen.told
    : { ...seen.told, headers: withoutAdded(seen.told.headers, arrivals) };
}

// A page's header values have a byte in each character, a scenario's are UTF-8.
const asBytes = (text) => Buffer.from(text, "utf8").toString("latin1");

function withByteValues(command) {
  const { headers } = command.fetch || {};
  return headers === undefined ? command
    : { fetch: { ...command.fetch, headers: headers.map(([name, value]) => [name, asBytes(value)]) } };
}

// ---- the play

async function seed(session, scenario) {
  const now = scenario.now || 0;
  for (const known of scenario.hsts || []) {
    if (known.until > now) {
      await session.makeKnown(known, known.until - now, scenario.documents[0].url);
    }
  }
  const taken = new Set();
  for (const [origin, text] of scenario.cookies || []) {
    for (const pair of taken.has(origin) ? [] : text.split(/;\s*/)) {
      const cut = pair.indexOf("=");
      await session.setCookie(origin, cut < 0 ? "" : pair.slice(0, cut), pair.slice(cut + 1));
    }
    taken.add(origin);
  }
}

const slept = (seconds) => new Promise((resolve) => setTimeout(resolve, seconds * 1000));

async function playCommand(session, servers, policies, command, number) {
  const first = servers.arrivals.length;
  const seen = await session.perform(withByteValues(command), number);
  const arrivals = servers.arrivals.slice(first).filter((arrival) => arrival.own === null);
  const requests = arrivals.map(({ origin, method, target, headers, body, at }) => ({ origin, method, target, body, at,
      headers: headers.map((header) => [header.name, header.value]) }));
  return { requests, violations: violationsOf(seen.violations, policies), result: resultOf(command, seen, arrivals),
    reasons: seen.reasons };
}

async function playScript(session, servers, document) {
  const policies = policiesOf(document);
  const state = { last: NOTHING };
  const commands = [];
  for (const { place, command } of commandsOf(document.script, state)) {
    if (command.wait !== undefined) {
      await slept(command.wait);
    } else {
      const asked = filledCommand(command, state.last);
      const played = await playCommand(session, servers, policies, asked, commands.length);
      commands.push({ place, command: asked, ...played });
      state.last = lastOf(played.result);
    }
  }
  return commands;
}

// A browser that plays scenarios, each in a profile of its own. A patient one waits longer for the last events of a
// command.
class Player {
  constructor(program, isPatient = false) {
    this.program = program;
    this.isPatient = isPatient;
    this.authority = new Authority();
    this.servers = new Servers(this.authority);
  }

  async start() {
    await this.servers.listen();
    this.browser = BROWSERS[this.program.browser].start(this.program, this.servers, this.authority);
    this.browser.settle *= this.isPatient ? PATIENT : 1;
    this.stop = () => {
      this.browser.kill();
      this.browser.forget();
    };
    process.once("exit", this.stop);
  }

  // Plays in the browser's own profile, or in one apart, so that many can be played one after another. Several documents
  // are tabs: each is opened when the script of the one before has ended, and stays open.
  async play(scenario, apart = false) {
    this.servers.become(scenario);
    const sessions = [await this.browser.session(apart)];
    try {
      await seed(sessions[0], scenario);
      this.servers.arrivals = [];
      const commands = [];
      for (const [number, document] of scenario.documents.entries()) {
        if (number > 0) {
          sessions.push(await sessions[0].beside());
        }
        const played = await this.playDocument(sessions[number], document);
        commands.push(...played.map((one) => ({ ...one, place: placeIn(scenario, number, one.place) })));
      }
      return { browser: this.program.browser, version: this.program.version, commands };
    } finally {
      for (const session of sessions.reverse()) {
        await session.close();
      }
    }
  }

  async playDocument(session, document) {
    await session.open(this.servers.expect(document.url, spokenHeaders(document)));
    return playScript(session, this.servers, document);
  }

  async close() {
    await this.browser.close();
    process.removeListener("exit", this.stop);
    await this.servers.close();
  }
}

// The play in a browser that is started for it; `kept` is given what the servers received.
async function playIn(program, scenario, { kept = () => {}, isPatient = false } = {}) {
  const player = new Player(program, isPatient);
  try {
    await player.start();
    return await player.play(scenario);
  } finally {
    await player.close();
    kept(player.servers.arrivals);
  }
}

// A scenario that one browser did not play to its end, behind others, is played once more by a browser of its own.
async function playAgain(program, key, scenario, played, failed) {
  try {
    await played(key, await playIn(program, scenario));
  } catch (error) {
    failed(key, error);
  }
}

// Plays scenarios in one browser until none is left. After a failure comes a fresh browser.
async function playRest(program, rest, played, failed) {
  while (rest.length > 0) {
    const player = new Player(program);
    let playing = null; // a scenario with its key
    let isLeft = false;
    try {
      await player.start();
      while (rest.length > 0) {
        playing = rest.shift();
        await played(playing[0], await player.play(playing[1], true));
      }
    } catch (error) {
      isLeft = playing !== null;
      if (!isLeft) {
        failed(undefined, error);
      }
    } finally {
      await player.close();
    }
    if (isLeft) {
      await playAgain(program, ...playing, played, failed);
    }
  }
}

// Plays many by a few browsers side by side: `played` is given each play with its key, `failed` a browser's error.
async function playMany(program, jobs, scenarios, played, failed) {
  const rest = [...scenarios];
  await Promise.all(Array.from({ length: jobs }, () => playRest(program, rest, played, failed)));
}

function find(browser) {
  return BROWSERS[browser].find();
}

// Whether a browser that is there starts, and opens a page.
async function starts(program) {
  const player = new Player(program);
  try {
    await player.start();
    await (await player.browser.session(false)).close();
    return true;
  } catch {
    return false;
  } finally {
    await player.close();
  }
}

module.exports = { Player, playIn, playMany, find, starts };
