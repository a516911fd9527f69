"use strict";

// What playground/check asks a playground without a browser: its page, what it says of plays, requests of others, and
// peers that are slow.

const fs = require("fs");
const net = require("net");
const path = require("path");
const { spawn } = require("child_process");
const { compare, pause } = require("../../view/tests/base.js");

const PATIENCE = 600000; // milliseconds
const ENDING = 60000; // milliseconds until a playground that is to end is killed
const SLOWEST = 120000;
const SLOW_PEERS = 33; // one more than the server has places

// A playground that listens at a free port; `words` are more words of bin/playground.
class Playground {
  constructor(root, words = []) {
    this.root = root;
    const program = path.join(root, "bin", "playground");
    this.process = spawn(program, ["0", ...words], { stdio: ["ignore", "pipe", "inherit"] });
    this.gone = new Promise((resolve) => this.process.on("exit", resolve));
  }

  async start() {
    const line = await new Promise((resolve, reject) => {
      setTimeout(() => reject(new Error("bin/playground does not start")), PATIENCE).unref();
      this.gone.then(() => reject(new Error("bin/playground ended")));
      this.process.stdout.once("data", (bytes) => resolve(bytes.toString("latin1")));
    });
    this.address = line.split(" ")[0];
    this.host = this.address.slice("http://".length, -1);
    this.port = Number(this.host.split(":")[1]);
  }

  // Sends a request, as it is written here, and gives the status, the headers and the body of the answer to it. The
  // status is NaN where there is none.
  ask(method, target, headers, body = "") {
    const lines = Object.entries({ Host: this.host, ...headers }).filter(([, value]) => value !== null);
    const head = [method + " " + target + " HTTP/1.1", ...lines.map(([name, value]) => name + ": " + value)];
    const socket = net.connect(this.port, "127.0.0.1");
    socket.on("error", () => {});
    socket.write(head.join("\r\n") + "\r\n\r\n" + body);
    return new Promise((resolve) => {
      let text = "";
      socket.setEncoding("latin1");
      socket.on("data", (piece) => {
        text += piece;
      });
      socket.on("close", () => {
        const [answer, ...parts] = text.split("\r\n\r\n");
        resolve({ status: Number(answer.split(" ")[1]), head: answer, body: parts.join("\r\n\r\n") });
      });
    });
  }

  // What is said of a play, asked as the page asks it, unless `headers` say otherwise.
  told(question, headers = {}) {
    const own = { Origin: "http://" + this.host, "Content-Length": Buffer.byteLength(question) };
    return this.ask("POST", "/told", { ...own, ...headers }, question);
  }

  async close() {
    const late = setTimeout(() => this.process.kill("SIGKILL"), ENDING);
    this.process.kill("SIGINT");
    await this.gone;
    clearTimeout(late);
  }
}

// ---- what it answers

const PLAY = "fetchplay 1\nhistory\ndone\n";
const EMPTY = JSON.stringify({ scenario: '{"format":1,"documents":[]}', play: PLAY });

async function checkOwn(context, playground) {
  const page = await playground.ask("GET", "/", { "Sec-Fetch-Site": "none" });
  await compare(context, "the page", [page.status, ...[/no-store/, /frame-ancestors 'none'/, /same-origin/]
    .map((form) => form.test(page.head))], [200, true, true, true]);
  const { status, body } = await playground.told(EMPTY);
  await compare(context, "a play of which there is nothing to say", [status, body], [200, PLAY]);
  const folder = path.join(playground.root, "gallery", "star-with-credentials");
  const read = (name) => fs.readFileSync(path.join(folder, name), "latin1");
  const told = await playground.told(JSON.stringify({ scenario: read("scenario.json"), play: read("play.txt") }));
  const parts = ["\n# why: ", "\n# change: ", "\n< HTTP/1.1 200 "];
  await compare(context, "a play: what is said of it", parts.filter((part) => !told.body.includes(part)), []);
}

// Nothing is said of what is no play, nor of a long one.
async function checkUnsaid(context, playground) {
  const unsaid = [
    ["what is no play", { scenario: "{}", play: "none\n" }],
    ["what is no scenario", { scenario: "{\ud800", play: PLAY }],
    ["a deep scenario", { scenario: "[".repeat(100000), play: PLAY }],
    ["a long play", { scenario: "{}", play: PLAY + "a".repeat(262144) }],
  ];
  for (const [name, question] of unsaid) {
    const { status, body } = await playground.told(JSON.stringify(question));
    await compare(context, name, [status, body.startsWith("# note: nothing is said of this play: "),
      body.endsWith(question.play)], [200, true, true]);
  }
  const refused = ["", "{", "[]", '{"scenario": "{}"}', "[".repeat(100000), "\xff", EMPTY.slice(0, -1)];
  for (const question of refused) {
    await compare(context, "what is no question", (await playground.told(question)).status, 400);
  }
}

// ---- who gets an answer

async function checkOthers(context, playground) {
  const [rebound, elsewhere] = ["evil.test:" + playground.port, "http://evil.test"];
  const refused = [
    ["a name that leads here, the page", () => playground.ask("GET", "/", { Host: rebound }), 421],
    ["a name that leads here, a question", () => playground.told(EMPTY, { Host: rebound,
      Origin: "http://" + rebound }), 421],
    ["localhost", () => playground.ask("GET", "/", { Host: "localhost:" + playground.port }), 421],
    ["another port", () => playground.ask("GET", "/", { Host: "127.0.0.1" }), 421],
    ["no Host", () => playground.ask("GET", "/", { Host: null }), 421],
    ["two Hosts", () => playground.ask("GET", "/", { host: playground.host }), 421],
    ["another origin, a question", () => playground.told(EMPTY, { Origin: elsewhere }), 403],
    ["another origin, the page", () => playground.ask("GET", "/", { Origin: elsewhere }), 403],
    ["the origin null", () => playground.told(EMPTY, { Origin: "null" }), 403],
    ["two origins", () => playground.told(EMPTY, { origin: elsewhere }), 403],
    ["no Origin", () => playground.told(EMPTY, { Origin: null }), 403],
    ["a preflight", () => playground.ask("OPTIONS", "/told", { Origin: elsewhere,
      "Access-Control-Request-Method": "POST", "Access-Control-Request-Headers": "content-type" }), 501],
    ["another method", () => playground.ask("PUT", "/", {}), 501],
    ["a file", () => playground.ask("GET", "/VERSION", {}), 404],
    ["a file above", () => playground.ask("GET", "/../VERSION", {}), 404],
    ["another question", () => playground.ask("POST", "/play", { Origin: "http://" + playground.host,
      "Content-Length": 0 }), 404],
    ["no length", () => playground.told("", { "Content-Length": null }), 411],
    ["a length that is none", () => playground.told("", { "Content-Length": "-1" }), 411],
    ["a body in chunks", () => playground.told("", { "Transfer-Encoding": "chunked" }), 411],
    ["a long question", () => playground.told("", { "Content-Length": 4194305 }), 413],
  ];
  for (const [name, ask, status] of refused) {
    const answer = await ask();
    await compare(context, name, answer.status, status);
    await compare(context, name + ": who may read it", /access-control/i.test(answer.head), false);
  }
}

// ---- slow peers


// A peer that sends a byte of its request each half second, and never ends it.
class SlowPeer {
  constructor(port) {
    this.began = Date.now();
    this.socket = net.connect(port, "127.0.0.1");
    this.socket.on("error", () => {});
    this.socket.resume();
    this.gone = new Promise((resolve) => this.socket.on("close", () => resolve(Date.now() - this.began)));
    this.socket.write("GET / HTTP/1.1\r\nX-Slow: ");
    this.drip = setInterval(() => this.socket.write("a"), 500);
  }

  close() {
    clearInterval(this.drip);
    this.socket.destroy();
  }
}

async function checkSlowPeers(context, playground) {
  const slow = Array.from({ length: SLOW_PEERS }, () => new SlowPeer(playground.port));
  await pause(500);
  const last = slow[SLOW_PEERS - 1].gone;
  const first = await Promise.race([playground.ask("GET", "/", {}), last]);
  await compare(context, SLOW_PEERS + " slow peers: another one is answered before the last of them is cut off",
    first.status, 200);
  const took = await Promise.race([last, new Promise((resolve) => setTimeout(resolve, SLOWEST).unref())]);
  await compare(context, "a slow peer has ten seconds in all, and not for each byte", took > 8000 && took < SLOWEST,
    true);
  slow.forEach((peer) => peer.close());
}

module.exports = { Playground, checkOthers, checkOwn, checkSlowPeers, checkUnsaid };
