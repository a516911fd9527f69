// Servers of node:http for the fetches of pages, which note what they are asked.
import assert from "node:assert/strict";
import { once } from "node:events";
import http from "node:http";
import { inPackage } from "./built.mjs";

const { Page } = await inPackage("node.js");
export const APP = "https://app.example/shop/";
export const API = "https://api.example";
export const STAR = { "Access-Control-Allow-Origin": "*" };

// A server that notes each request, with its body, and answers by `answer(request, response)`.
class Server {
  constructor(answer, made = http.createServer()) {
    this.seen = [];
    this.made = made.on("request", (request, response) => this.take(request, response, answer));
  }

  async take(request, response, answer) {
    const pieces = [];
    for await (const piece of request) {
      pieces.push(piece);
    }
    const { method, url, headers } = request;
    this.seen.push({ method, url, headers, body: Buffer.concat(pieces).toString() });
    answer(request, response);
  }

  async start() {
    this.made.listen(0, "127.0.0.1");
    await once(this.made, "listening");
    return this;
  }

  lines() {
    return this.seen.map(({ method, url }) => method + " " + url);
  }
}

const opened = [];

export function closeAll() {
  opened.splice(0).forEach((server) => {
    server.closeAllConnections();
    server.close();
  });
}

export async function serve(answer, made) {
  const server = await new Server(answer, made).start();
  opened.push(server.made);
  return server;
}

export const says = (status, headers = {}, body = "") => (request, response) => (
  response.writeHead(status, headers).end(body));

export async function pageTo(answer, init = {}) {
  const server = await serve(answer);
  return { server, page: new Page(APP, { connectTo: { "*": server.made }, ...init }) };
}

// What a fetch is refused for; `said` stands in why.
export async function refused(promise, name, said = "") {
  const error = await promise.then(() => assert.fail("it is not refused"), (one) => one);
  assert.ok(error instanceof TypeError, String(error && error.stack));
  assert.equal(error.cause.name, name);
  assert.ok(error.cause.why.includes(said), error.cause.why);
  assert.ok(error.message.includes(error.cause.why));
  return error.cause;
}
