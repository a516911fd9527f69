"use strict";

// A scenario as it can be played in a browser: read, and refused with its place where no browser can play it. That it is
// a scenario at all is the engine's to say; it is asked first.

const LONGEST_WAIT = 15; // seconds, of all waits together
const MOST_DOCUMENTS = 3;

class Unplayable extends Error {
  constructor(place, sentence) {
    super("cannot be played in a browser: " + place + ": " + sentence);
    this.name = "Unplayable";
  }
}

function refuse(place, sentence) {
  throw new Unplayable(place, sentence);
}

// What an upload listener goes with: XMLHttpRequest has no other settings.
function checkUpload(asked, place) {
  const settings = ["redirect", "referrer", "referrer_policy", "integrity"].filter((name) => asked[name]);
  if (settings.length > 0) {
    refuse(place + "/" + settings[0], "XMLHttpRequest, which alone has an upload listener, has no such setting");
  }
  if (asked.mode !== undefined && asked.mode !== "cors") {
    refuse(place + "/mode", "XMLHttpRequest, which alone has an upload listener, is always in mode cors");
  }
  if (asked.credentials === "omit") {
    refuse(place + "/credentials", "XMLHttpRequest, which alone has an upload listener, cannot omit credentials");
  }
}

// A page loads fonts by FontFace, which has no crossorigin: a font is asked for as by `anonymous`. Neither fonts nor sounds
// and videos have a referrer policy of their own.
function checkLoad(asked, place) {
  if (["font", "audio", "video"].includes(asked.kind) && asked.referrer_policy) {
    refuse(place + "/referrer_policy", "no element that loads this has a referrer policy");
  }
  if (asked.kind === "font" && asked.crossorigin === "use-credentials") {
    refuse(place + "/crossorigin", "a font is never asked for with credentials");
  }
}

// The seconds that a list of commands waits at most.
function secondsOf(commands, place) {
  return commands.map((command, index) => {
    const here = place + "/" + index;
    if (command.fetch && command.fetch.upload) {
      checkUpload(command.fetch, here + "/fetch");
    }
    if (command.load) {
      checkLoad(command.load, here + "/load");
    }
    if (command.repeat !== undefined) {
      return command.repeat * secondsOf(command.do, here + "/do");
    }
    if (command.if !== undefined) {
      return Math.max(secondsOf(command.then, here + "/then"), secondsOf(command.else || [], here + "/else"));
    }
    return command.wait || 0;
  }).reduce((sum, one) => sum + one, 0);
}

function checkServers(servers) {
  servers.forEach((server, index) => server.rules.forEach((rule, number) => {
    if (rule.raw !== undefined && !rule.raw.startsWith("HTTP/")) {
      refuse("/servers/" + index + "/rules/" + number + "/raw", "these bytes are no HTTP answer");
    }
  }));
}

// Documents are played one after another. In the engine each has a clock of its own, so only the last may wait.
function checkDocument(document, place, isLast) {
  if (document.top !== undefined) {
    refuse(place + "/top", "a document within another page is not played");
  }
  const sandboxed = policiesOf(document).find((policy) => policy.enforced && /(^|;)\s*sandbox\b/i.test(policy.text));
  if (sandboxed !== undefined) {
    refuse(place + "/headers", "the policy's sandbox gives the document another origin, which the engine has not");
  }
  const seconds = secondsOf(document.script, place + "/script");
  if (seconds > LONGEST_WAIT) {
    refuse(place + "/script", "it waits longer than " + LONGEST_WAIT + " seconds, and waits are slept");
  }
  if (seconds > 0 && !isLast) {
    refuse(place + "/script", "it waits, and the documents behind it have clocks of their own");
  }
}

// A document of http at a known host would itself be opened over https.
function checkKnown(scenario, document) {
  const { protocol, hostname } = new URL(document.url);
  const known = (scenario.hsts || []).findIndex((one) => one.until > (scenario.now || 0)
    && (one.host === hostname || (one.subdomains && hostname.endsWith("." + one.host))));
  if (protocol === "http:" && known >= 0) {
    refuse("/hsts/" + known + "/host", "the host of the document is known, so that a browser opens it over https");
  }
}

// The scenario in this text. What was observed by others may have what no browser can play here.
function readScenario(text, isObserved = false) {
  const scenario = JSON.parse(text);
  const { documents } = scenario;
  if (documents.length < 1 || documents.length > MOST_DOCUMENTS) {
    refuse("/documents", "there must be one to " + MOST_DOCUMENTS + " documents, and there are " + documents.length);
  }
  if (isObserved) {
    return scenario;
  }
  documents.forEach((document, number) => {
    checkKnown(scenario, document);
    checkDocument(document, "/documents/" + number, number === documents.length - 1);
  });
  checkServers(scenario.servers || []);
  return scenario;
}

// ---- the place of a command: `/0` in the script, and with several documents `1/0`, behind the number of its own

function placeIn(scenario, number, place) {
  return scenario.documents.length === 1 ? place : number + place;
}

function documentAt(scenario, place) {
  return scenario.documents[Number(place.split("/")[0])];
}

const POLICY_HEADERS = { "content-security-policy": true, "content-security-policy-report-only": false };

// The document's policies in the order of their numbers.
function policiesOf(document) {
  const policies = [];
  (document.headers || []).filter(([name]) => name.toLowerCase() in POLICY_HEADERS).forEach(([name, value]) => {
    value.split(",").map((text) => text.trim()).filter((text) => text.replace(/[;\s]/g, "") !== "").forEach((text) => {
      policies.push({ text, enforced: POLICY_HEADERS[name.toLowerCase()] });
    });
  });
  return policies;
}

// The headers of a document that say something; others are not sent with the page.
function spokenHeaders(document) {
  return (document.headers || []).filter(([name]) => name.toLowerCase() in POLICY_HEADERS
    || name.toLowerCase() === "referrer-policy");
}

// ---- the script

const NOTHING = { type: "none", status: 0, url: "", headers: [], body: null };

// A page's header values have a byte in each character, a scenario's are UTF-8.
const asText = (bytes) => Buffer.from(bytes, "latin1").toString("utf8");

// The last result as conditions and templates see it; what was not seen is empty.
function lastOf(result) {
  if (result.result === "response") {
    const { type, status = 0, url = "", headers = [], body = { end: "none" } } = result;
    return { type: type || "cors", status, url, headers: headers.map(([name, value]) => [name, asText(value)]),
      body: body.end === "whole" ? Buffer.from(body.hex, "hex").toString("utf8") : null };
  }
  return { ...NOTHING, type: result.result };
}

function holds([word, wanted], last) {
  switch (word) {
    case "ok": return last.status >= 200 && last.status <= 299;
    case "error": return ["error", "type-error", "failed"].includes(last.type);
    case "type": return last.type === wanted;
    case "status": return last.status === wanted;
    default: return last.body === wanted;
  }
}

// The fetches, loads and waits that a script comes to, each with its place. `state.last` is the last result, and set by
// who plays them.
function* commandsOf(commands, state, place = "") {
  for (const [index, command] of commands.entries()) {
    const here = place + "/" + index;
    if (command.repeat !== undefined) {
      for (let time = 1; time <= command.repeat; time += 1) {
        yield* commandsOf(command.do, state, here + "/do*" + time);
      }
    } else if (command.if !== undefined) {
      const branch = holds(command.if, state.last) ? "then" : "else";
      yield* commandsOf(command[branch] || [], state, here + "/" + branch);
    } else {
      yield { place: here, command };
    }
  }
}

function valueOfTemplate(word, last) {
  if (word.startsWith("header:")) {
    const name = word.slice("header:".length).toLowerCase();
    return last.headers.filter((header) => header[0].toLowerCase() === name).map((header) => header[1]).join(", ");
  }
  return word === "body" ? last.body || "" : String(last[word] === null ? "" : last[word]);
}

function filled(text, last) {
  return text === undefined ? undefined : text.replace(/\$\{([^}]*)\}/g, (_, word) => valueOfTemplate(word, last));
}

// A fetch or a load with its templates replaced. An element with an empty URL asks for nothing, so a load of one is made by
// another text of the same URL.
function filledCommand(command, last) {
  if (command.load !== undefined) {
    return { load: { ...command.load, url: filled(command.load.url, last) || "#" } };
  }
  const asked = command.fetch;
  const headers = asked.headers === undefined ? undefined
    : asked.headers.map(([name, value]) => [name, filled(value, last)]);
  return { fetch: { ...asked, url: filled(asked.url, last), headers, body: filled(asked.body, last) } };
}

module.exports = { readScenario, placeIn, documentAt, policiesOf, spokenHeaders, commandsOf, filledCommand, lastOf, NOTHING, Unplayable };
