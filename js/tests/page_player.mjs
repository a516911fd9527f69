// Plays scenarios of one document by `fetch` of a Page, each origin a server of node:http.
import { once } from "node:events";
import http from "node:http";
import { NOTHING, commandsOf, filledCommand, lastOf, policiesOf } from "../../browsers/scenario.js";
import { ruleFor, textOf } from "../../browsers/scripted.js";
import { readRequest } from "../../browsers/servers.js";

// What node:http adds to an answer by itself.
const ADDED = ["connection", "content-length", "date", "keep-alive", "transfer-encoding"];

// A scenario's header values are UTF-8; those of JavaScript have a byte in each character.
const asBytes = (text) => Buffer.from(text, "utf8").toString("latin1");

function pairsOf(flat) {
  return flat.flatMap((name, at) => (at % 2 === 0 ? [[name, flat[at + 1]]] : []));
}

async function bodyOf(request) {
  const pieces = [];
  for await (const piece of request) {
    pieces.push(piece);
  }
  return Buffer.concat(pieces);
}

class Servers {
  constructor(scenario) {
    this.scenario = scenario;
    this.arrivals = [];
    this.opened = [];
  }

  // Where each origin of the scenario leads; others lead to a server that says nothing.
  async places() {
    const origins = (this.scenario.servers || []).map(({ origin }) => origin);
    const places = [...origins, "*"].map(async (origin) => [origin, await this.open(origin)]);
    return Object.fromEntries(await Promise.all(places));
  }

  async open(origin) {
    const server = http.createServer((request, response) => this.take(origin, request, response));
    // A method that node:http does not know, as `patch`.
    server.on("clientError", ({ rawPacket }, socket) => this.takeUnknown(origin, rawPacket, socket));
    this.opened.push(server.listen(0, "127.0.0.1"));
    await once(server, "listening");
    return server;
  }

  async take(origin, request, response) {
    const { method, url, rawHeaders } = request;
    const rule = this.keep(origin, { method, target: url, headers: pairsOf(rawHeaders), body: await bodyOf(request) });
    if (rule === null || rule.raw !== undefined) {
      response.socket.end(rule === null ? "" : rule.raw);
      return;
    }
    const headers = (rule.headers || []).flatMap(([name, value]) => [name, asBytes(value)]);
    response.writeHead(rule.status, "Scripted", headers).end(rule.body || "");
  }

  takeUnknown(origin, bytes, socket) {
    const { headers, ...request } = readRequest(bytes);
    const rule = this.keep(origin, { ...request, headers: headers.map(({ name, value }) => [name, value]) });
    socket.end(rule === null ? "" : textOf(rule));
  }

  keep(origin, { method, target, headers, body }) {
    this.arrivals.push({ origin, method, target, headers, body: body.toString("hex") });
    return ruleFor(this.scenario, origin, method, target);
  }

  close() {
    this.opened.forEach((server) => {
      server.closeAllConnections();
      server.close();
    });
  }
}

// ---- the page

function referrerPolicyOf(headers, known) {
  const values = headers.filter(([name]) => name.toLowerCase() === "referrer-policy").map(([, value]) => value);
  const words = values.join(",").split(",").map((word) => word.trim());
  return words.filter((word) => Object.hasOwn(known, word)).pop() || "";
}

// A Page numbers the policies that are enforced before the others.
function numbersOf(policies) {
  const numbers = (wanted) => policies.flatMap(({ enforced }, at) => (enforced === wanted ? [at] : []));
  return [...numbers(true), ...numbers(false)];
}

function bookOf(Book, { hsts = [], now = 0 }) {
  const book = new Book();
  hsts.filter(({ until }) => until > now).forEach(({ host, subdomains, until }) => {
    book.note(host, "max-age=" + (until - now) + (subdomains ? "; includeSubDomains" : ""), now);
  });
  return book;
}

function initOf(asked) {
  const { method, mode, credentials, redirect, body, integrity } = asked;
  return { method, mode, credentials, redirect, body, integrity, referrerPolicy: asked.referrer_policy,
    headers: (asked.headers || []).map(([name, value]) => [name, asBytes(value)]),
    ...(asked.referrer === "none" ? { referrer: "" } : {}) };
}

async function bodySeen(response) {
  if (response.body === null) {
    return { end: "none" };
  }
  try {
    return { end: "whole", hex: Buffer.from(await response.arrayBuffer()).toString("hex") };
  } catch {
    return { end: "cut" };
  }
}

async function responseSeen(response) {
  const { type, status, url } = response;
  const headers = [...response.headers].filter(([name]) => !ADDED.includes(name));
  return { result: "response", type, status, url, headers, body: await bodySeen(response) };
}

function errorSeen(error) {
  if (error.cause === undefined) {
    throw error;
  }
  const { faultNumber, number = faultNumber, name, header = null } = error.cause;
  return { result: "error", fault: faultNumber !== undefined, number, name, header };
}

// Plays a scenario by a Page of the package `made`, which has what its modules node.js, index.js and names.js export.
// Waits pass at once, on a clock of the page's own.
class Player {
  constructor(made, scenario) {
    const [document] = scenario.documents;
    Object.assign(this, { made, scenario, document, servers: new Servers(scenario), now: scenario.now || 0 });
    this.numbers = numbersOf(policiesOf(document));
  }

  async play() {
    try {
      this.page = await this.opened();
      return await this.commands();
    } finally {
      this.servers.close();
    }
  }

  async opened() {
    const { Page, Policies, Book, REFERRER_POLICIES } = this.made;
    const { headers = [], url } = this.document;
    return new Page(url, { policies: Policies.ofHeaders(headers), cookies: this.scenario.cookies || [],
      referrerPolicy: referrerPolicyOf(headers, REFERRER_POLICIES), book: bookOf(Book, this.scenario),
      now: () => this.now, connectTo: await this.servers.places() });
  }

  async commands() {
    const state = { last: NOTHING };
    const commands = [];
    for (const { place, command } of commandsOf(this.document.script, state)) {
      if (command.wait !== undefined) {
        this.now += command.wait;
      } else {
        const result = await this.result(filledCommand(command, state.last).fetch);
        commands.push({ place, requests: this.servers.arrivals.splice(0), violations: this.violations(), result });
        state.last = lastOf(result);
      }
    }
    return commands;
  }

  async result(asked) {
    try {
      return await responseSeen(await this.page.fetch(asked.url, initOf(asked)));
    } catch (error) {
      return errorSeen(error);
    }
  }

  violations() {
    return this.page.violations.splice(0).map((one) => ({ ...one, policy: this.numbers[one.policy] }));
  }
}

// What the page did, command by command, in the shape of browsers/engine.js.
export function playedByPage(made, scenario) {
  return new Player(made, scenario).play();
}
