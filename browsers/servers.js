"use strict";

// The servers of a scenario as one real listener on the loopback. The first byte of a connection tells SOCKS 5 (how
// Firefox is led here), TLS and plain HTTP apart; Host, scheme, method and target choose the rule that answers. Each
// request that arrives is kept as its bytes say, and each connection is closed behind its answer.

const net = require("net");
const tls = require("tls");
const { ruleFor, textOf } = require("./scripted.js");

const SOCKS = 0x05;
const HANDSHAKE = 0x16;
const HEAD_END = Buffer.from("\r\n\r\n");
const REPORTS = ["application/csp-report", "application/reports+json"];
// The answers must not be kept by a browser's cache, of which the engine has none.
const UNCACHED = "Cache-Control: no-store\r\n";

function valueOf(headers, name) {
  const found = headers.find((header) => header.name.toLowerCase() === name);
  return found === undefined ? null : found.value;
}

// The head of a request: its first line and its header lines, each byte a character.
function readHead(text) {
  const [first, ...lines] = text.split("\r\n");
  const [method, target] = first.split(" ");
  const headers = lines.map((line) => {
    const colon = line.indexOf(":");
    return { name: line.slice(0, colon), value: line.slice(colon + 1).trim() };
  });
  return { method, target, headers };
}

// The bytes of a whole chunked body, or null where more must come.
function unchunked(bytes) {
  const parts = [];
  for (let at = 0; ;) {
    const end = bytes.indexOf("\r\n", at);
    const size = end < 0 ? NaN : parseInt(bytes.subarray(at, end).toString("latin1"), 16);
    if (Number.isNaN(size) || bytes.length < end + 2 + size + 2) {
      return null;
    }
    if (size === 0) {
      return Buffer.concat(parts);
    }
    parts.push(bytes.subarray(end + 2, end + 2 + size));
    at = end + 2 + size + 2;
  }
}

// A whole request from the bytes so far, or null where more must come.
function readRequest(bytes) {
  const end = bytes.indexOf(HEAD_END);
  if (end < 0) {
    return null;
  }
  const request = readHead(bytes.subarray(0, end).toString("latin1"));
  const rest = bytes.subarray(end + 4);
  if (valueOf(request.headers, "transfer-encoding") !== null) {
    const body = unchunked(rest);
    return body === null ? null : { ...request, body };
  }
  const length = Number(valueOf(request.headers, "content-length") || 0);
  return rest.length < length ? null : { ...request, body: rest.subarray(0, length) };
}

function originOf(request, scheme) {
  try {
    return new URL(scheme + "://" + valueOf(request.headers, "host")).origin;
  } catch {
    return scheme + "://?";
  }
}

// Whether this answer gets a line more, which keeps it out of a browser's cache. Raw bytes are sent as they are.
function isUncached(rule) {
  const says = ([name, value]) => name.toLowerCase() === "cache-control" && /\bno-store\b/i.test(value);
  return rule.raw === undefined && !(rule.headers || []).some(says);
}

function bytesOf(rule) {
  return Buffer.from(textOf(rule, isUncached(rule) ? UNCACHED : ""), "utf8");
}

// A page whose document stays open, so that what is appended to it later is read by the browser's parser. No other has
// its title: a tab may come from a page of the same URL.
class Page {
  constructor(url, headers, number) {
    this.url = new URL(url);
    this.headers = headers;
    this.title = "page " + number + " of a scenario";
    this.socket = null;
  }

  isAskedBy(origin, request) {
    return this.socket === null && request.method === "GET" && origin === this.url.origin
      && request.target === this.url.pathname + this.url.search;
  }

  open(socket) {
    this.socket = socket;
    const lines = this.headers.map(([name, value]) => name + ": " + value + "\r\n").join("");
    socket.write("HTTP/1.1 200 OK\r\n" + lines + "Content-Type: text/html; charset=utf-8\r\nCache-Control: no-store\r\n"
      + "Transfer-Encoding: chunked\r\nConnection: close\r\n\r\n");
    this.append("<!doctype html><title>" + this.title + "</title><body>\n" + " ".repeat(2000) + "\n");
  }

  append(text) {
    const bytes = Buffer.from(text, "utf8");
    this.socket.write(Buffer.concat([Buffer.from(bytes.length.toString(16) + "\r\n"), bytes, Buffer.from("\r\n")]));
  }
}

class Servers {
  constructor(authority) {
    this.authority = authority;
    this.sockets = new Set();
    this.expected = 0; // pages, of all scenarios
    this.secure = tls.createServer({ ALPNProtocols: ["http/1.1"],
      SNICallback: (name, done) => done(null, tls.createSecureContext(authority.contextOf([name]))) });
    this.secure.on("secureConnection", (socket) => this.serve(socket, "https"));
    this.secure.on("tlsClientError", () => {});
    this.listener = net.createServer((socket) => this.accept(socket));
    this.become({});
  }

  // Answers by this scenario from now on.
  become(scenario) {
    this.scenario = scenario;
    this.text = JSON.stringify(scenario);
    this.pages = [];
    this.arrivals = [];
    // A connection to an address names no host: the certificate that it gets has all addresses of the scenario.
    const addresses = this.text.match(/\b[0-9]{1,3}(\.[0-9]{1,3}){3}\b/g) || [];
    this.secure.setSecureContext(this.authority.contextOf(["127.0.0.1", "::1", "localhost", ...new Set(addresses)]));
    this.sockets.forEach((socket) => socket.destroy());
  }

  listen() {
    return new Promise((resolve, reject) => {
      this.listener.on("error", reject);
      this.listener.listen(0, "127.0.0.1", () => {
        this.port = this.listener.address().port;
        resolve();
      });
    });
  }

  accept(socket) {
    this.sockets.add(socket);
    socket.on("close", () => this.sockets.delete(socket));
    socket.on("error", () => {});
    socket.once("data", (bytes) => {
      if (bytes[0] === SOCKS) {
        this.leadIn(socket);
      } else {
        this.hand(socket, bytes);
      }
    });
  }

  // SOCKS 5 (RFC 1928) without a login: every host and port is this listener.
  leadIn(socket) {
    socket.write(Buffer.from([SOCKS, 0]));
    socket.once("data", () => {
      socket.write(Buffer.from([SOCKS, 0, 0, 1, 0, 0, 0, 0, 0, 0]));
      socket.once("data", (bytes) => this.hand(socket, bytes));
    });
  }

  // Gives the connection, with these first bytes put back, to TLS or to plain HTTP.
  hand(socket, bytes) {
    socket.pause();
    socket.unshift(bytes);
    if (bytes[0] === HANDSHAKE) {
      this.secure.emit("connection", socket);
    } else {
      this.serve(socket, "http");
    }
    process.nextTick(() => socket.resume());
  }

  serve(socket, scheme) {
    let bytes = Buffer.alloc(0);
    let answered = false;
    socket.on("error", () => {});
    socket.on("data", (piece) => {
      bytes = Buffer.concat([bytes, piece]);
      const request = answered ? null : readRequest(bytes);
      if (request !== null) {
        answered = true;
        this.answer(socket, scheme, request);
      }
    });
  }

  answer(socket, scheme, request) {
    const origin = originOf(request, scheme);
    const page = this.pages.find((one) => one.isAskedBy(origin, request));
    if (page !== undefined) {
      page.open(socket);
      return;
    }
    const own = this.ownOf(origin, request);
    const rule = own === null ? ruleFor(this.scenario, origin, request.method, request.target) : { status: 404 };
    this.keep(origin, request, rule, own);
    socket.end(rule === null ? Buffer.alloc(0) : bytesOf(rule));
  }

  // What browsers send by themselves is no request of the script, and no rule answers it: the icon of a page, reports of its
  // policies, and questions to their makers' hosts, which no scenario names.
  ownOf(origin, request) {
    const type = (valueOf(request.headers, "content-type") || "").split(";")[0];
    if (request.target === "/favicon.ico" && !this.text.includes(request.target)) {
      return "icon";
    }
    const host = origin.replace(/^https?:\/\//, "").replace(/:[0-9]*$/, "");
    const foreign = /\.(com|net|org)$/.test(host) && !this.text.includes(host);
    return REPORTS.includes(type) ? "report" : foreign ? "maker" : null;
  }

  keep(origin, request, rule, own) {
    this.arrivals.push({ origin, method: request.method, target: request.target, headers: request.headers,
      body: request.body.toString("hex"), at: Math.round(performance.now()), own, uncached: rule !== null && isUncached(rule) });
  }

  expect(url, headers) {
    this.expected += 1;
    const page = new Page(url, headers, this.expected);
    this.pages.push(page);
    return page;
  }

  close() {
    this.sockets.forEach((socket) => socket.destroy());
    return new Promise((resolve) => this.listener.close(resolve));
  }
}

module.exports = { Servers, readRequest };
