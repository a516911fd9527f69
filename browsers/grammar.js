"use strict";

// Random scenarios by area, each from its number alone: the same number gives the same scenario. What comes often in
// pages comes often here, and in between what tests the edges.

const engineNames = require("../schema/names.json");

const PAGE = "https://shop.test";
const ORIGINS = [PAGE, "https://api.test", "https://cdn.test", "https://img.shop.test", "https://api.test:8443"];
const PLAIN = ["http://shop.test", "http://api.test", "http://api.test:8080"];
const POLICIES = Object.keys(engineNames.referrer_policies).filter((name) => name !== "");
const CREDENTIALS = Object.keys(engineNames.credentials);
const KINDS = Object.keys(engineNames.loads);

// A small generator (mulberry32), good enough to choose by.
class Chance {
  constructor(seed) {
    this.state = seed >>> 0;
  }

  next() {
    this.state = (this.state + 0x6d2b79f5) >>> 0;
    let mixed = this.state;
    mixed = Math.imul(mixed ^ (mixed >>> 15), mixed | 1);
    mixed ^= mixed + Math.imul(mixed ^ (mixed >>> 7), mixed | 61);
    return ((mixed ^ (mixed >>> 14)) >>> 0) / 4294967296;
  }

  below(count) {
    return Math.floor(this.next() * count);
  }

  of(list) {
    return list[this.below(list.length)];
  }

  in(parts, whole) {
    return this.below(whole) < parts;
  }

  many(least, most, make) {
    return Array.from({ length: least + this.below(most - least + 1) }, (_, index) => make(index));
  }
}

function scenario(document, servers, more = {}) {
  const list = [...servers].map(([origin, rules]) => ({ origin, rules }));
  return { format: 1, ...more, servers: list, documents: [document] };
}

function setting(chance, name, values, parts, whole) {
  return chance.in(parts, whole) ? { [name]: chance.of(values) } : {};
}

// The CORS headers of an answer: mostly such that it can be read.
function sharing(chance) {
  if (chance.in(1, 8)) {
    return [];
  }
  const origin = chance.of(["*", PAGE, PAGE, PAGE, "null", "https://other.test"]);
  return [["Access-Control-Allow-Origin", origin],
    ...(chance.in(2, 3) ? [["Access-Control-Allow-Credentials", chance.of(["true", "true", "true", "True"])]] : [])];
}

// ---- redirects: chains through several origins

function redirect(chance, index, count, plain) {
  const origin = chance.of(plain ? [...ORIGINS, ...PLAIN] : ORIGINS);
  const next = chance.in(1, 12) ? 0 : index + 1 + chance.below(2);
  const location = chance.in(1, 3) ? "/" + Math.min(next, count) : origin + "/" + Math.min(next, count);
  const policy = chance.in(1, 6) ? [["Referrer-Policy", chance.of(POLICIES)]] : [];
  return { path: "/" + index, status: chance.of([301, 302, 303, 307, 308]),
    headers: [["Location", location], ...sharing(chance), ...policy] };
}

function redirects(chance) {
  const count = 2 + chance.below(4);
  const servers = new Map(ORIGINS.map((origin) => {
    const rules = Array.from({ length: count }, (_, index) => redirect(chance, index, count, false));
    const preflight = { method: "OPTIONS", status: 204, headers: [
      ["Access-Control-Allow-Origin", chance.of(["*", PAGE, "null"])],
      ["Access-Control-Allow-Methods", "PUT, DELETE"],
      ["Access-Control-Allow-Headers", "x-a, authorization, content-type"]] };
    return [origin, [preflight, ...rules, { status: 200, headers: sharing(chance), body: "end" }]];
  }));
  const script = chance.many(2, 4, () => ({ fetch: { url: chance.of(ORIGINS.slice(0, 3)) + "/0",
    ...setting(chance, "method", ["POST", "PUT", "HEAD", "DELETE"], 1, 2),
    ...setting(chance, "mode", ["no-cors", "same-origin"], 1, 8),
    ...setting(chance, "credentials", CREDENTIALS, 1, 3),
    ...setting(chance, "redirect", ["error", "manual"], 1, 8),
    ...setting(chance, "headers", [[["X-A", "1"]], [["Authorization", "t"]], [["Content-Type", "text/plain"]]], 1, 3),
    ...setting(chance, "referrer_policy", POLICIES, 1, 5) } }));
  script.forEach(({ fetch }) => {
    if (["PUT", "DELETE"].includes(fetch.method) && fetch.mode === "no-cors") {
      delete fetch.mode;
    }
    if (["POST", "PUT"].includes(fetch.method) && chance.in(1, 2)) {
      fetch.body = "a=1";
    }
  });
  return scenario({ url: PAGE + "/page?q", script }, servers, { cookies: [[PAGE, "s=1"], ["https://api.test", "a=2"]] });
}

// ---- preflights, again and again

const METHODS = ["PUT", "DELETE", "PATCH", "GET", "POST", "patch"];
const NAMES = ["X-A", "X-B", "Authorization", "Content-Type"];
const VALUES = { "Content-Type": "application/json" };

function preflightAnswer(chance, path) {
  const lists = [];
  if (chance.in(5, 6)) {
    lists.push(["Access-Control-Allow-Methods",
      chance.of(["PUT", "PUT, DELETE", "PUT,DELETE,PATCH", "*", "put", "PATCH, *", ""])]);
  }
  if (chance.in(5, 6)) {
    lists.push(["Access-Control-Allow-Headers", chance.of(["x-a", "X-A, x-b", "*", "authorization, *",
      "x-a, x-b, authorization, content-type", "content-type", ""])]);
  }
  const age = chance.in(1, 2) ? [["Access-Control-Max-Age", chance.of(["0", "1", "600", "600"])]] : [];
  return { method: "OPTIONS", path, status: chance.of([200, 204, 204, 204, 204, 404]),
    headers: [...sharing(chance), ...lists, ...age] };
}

function preflights(chance) {
  const paths = ["/1", "/2"];
  const rules = [...paths.map((path) => preflightAnswer(chance, path)),
    ...(chance.in(1, 3) ? [{ method: chance.of(METHODS), status: 500 }] : []),
    { status: 200, headers: sharing(chance), body: "ok" }];
  const script = chance.many(3, 6, () => {
    const names = NAMES.filter(() => chance.in(1, 4));
    return { fetch: { url: "https://api.test" + chance.of(paths), method: chance.of(METHODS),
      ...setting(chance, "credentials", CREDENTIALS, 1, 3),
      ...(names.length > 0 ? { headers: names.map((name) => [name, VALUES[name] || "1"]) } : {}) } };
  });
  if (chance.in(1, 6)) {
    script.splice(2, 0, { wait: 2 });
  }
  return scenario({ url: PAGE + "/", script }, new Map([["https://api.test", rules]]));
}

// ---- words of policies

const WORDS = ["'self'", "'none'", "*", "https:", "http:", "https://api.test", "api.test", "http://api.test",
  "*.shop.test", "https://*.test", "https://api.test:8443", "https://api.test:*", "https://api.test/a",
  "https://api.test/a/", "cdn.test/a/b", "HTTPS://CDN.TEST", "'unsafe-inline'", "foo", "shop.test:443", "data:"];
const DIRECTIVES = ["default-src", "connect-src", "img-src", "script-src", "script-src-elem", "style-src", "font-src",
  "media-src", "manifest-src", "object-src"];

function policy(chance) {
  return chance.many(1, 3, () => {
    const words = chance.many(0, 3, () => chance.of(WORDS));
    return [chance.of(DIRECTIVES), ...words].join(" ");
  }).join("; ");
}

function target(chance) {
  const path = chance.of(["/", "/a", "/a/", "/a/b", "/A", "/a?q", "/0"]);
  return chance.of([...ORIGINS, "http://api.test", "https://www.api.test"]) + path;
}

function answersOfEach(chance) {
  const rules = () => [...(chance.in(1, 2) ? [{ path: "/0", status: 302, headers: [["Location", target(chance)],
    ["Access-Control-Allow-Origin", "*"]] }] : []),
    { status: 200, headers: [["Access-Control-Allow-Origin", "*"]], body: "ok" }];
  return new Map([...ORIGINS, "http://api.test", "https://www.api.test"].map((origin) => [origin, rules()]));
}

function policies(chance) {
  const headers = chance.many(1, 2, () => [chance.in(2, 3) ? "Content-Security-Policy"
    : "Content-Security-Policy-Report-Only", policy(chance)]);
  const script = chance.many(3, 5, () => {
    const kind = chance.of(["image", "font", "audio"]);
    return chance.in(1, 2) ? { fetch: { url: target(chance), ...setting(chance, "mode", ["no-cors"], 1, 4) } }
      : { load: { kind, url: target(chance) } };
  });
  return scenario({ url: PAGE + "/", headers, script }, answersOfEach(chance));
}

// ---- values of headers, of requests and answers

const TEXTS = ["1", "", " 1 ", "a,b", "text/plain", "text/plain;charset=utf-8", "bytes=0-9", "bytes=-1", "bytes=5-2",
  "de, en;q=0.5", "a\tb", "(x)", "*/*", "application/json", "a".repeat(128), "a".repeat(129), "x=\"y\"", "<a>", "true", "=="];
const HEADERS = ["Accept", "Accept-Language", "Content-Language", "Content-Type", "Range", "X-A", "Authorization", "X-B",
  "X-HTTP-Method-Override", "If-None-Match", "Via", "Cookie2", "Sec-X", "Proxy-A", "DNT"];
const ANSWERED = [["X-A", "1"], ["X-A", "2"], ["X-B", "b, c"], ["Content-Type", "text/html"], ["Cache-Control", "no-store"],
  ["Last-Modified", "then"], ["Content-Language", "de"], ["ETag", "\"e\""], ["Expires", "0"], ["Server", "s"],
  ["Access-Control-Expose-Headers", "x-a"], ["Access-Control-Expose-Headers", "*"],
  ["Access-Control-Expose-Headers", "X-B, etag"], ["Vary", "Origin"]];

const ALL_NAMES = "accept, accept-language, content-language, content-type, range, x-a, x-b, authorization, if-none-match, "
  + "x-http-method-override";

function headers(chance) {
  const answer = (path) => ({ path, status: chance.of([200, 200, 200, 404]), body: "ok",
    headers: [...sharing(chance), ...chance.many(0, 4, () => chance.of(ANSWERED))] });
  const preflight = { method: "OPTIONS", status: 204, headers: [["Access-Control-Allow-Origin", PAGE],
    ["Access-Control-Allow-Credentials", "true"], ["Access-Control-Allow-Headers", chance.of(["*", "x-a, range", ALL_NAMES])]] };
  const rules = () => [preflight, answer("/1"), answer("/2"), { status: 200, headers: sharing(chance) }];
  const script = chance.many(3, 5, () => ({ fetch: {
    url: chance.of(["", "https://api.test", "https://api.test"]) + chance.of(["/1", "/2", "/3"]),
    ...setting(chance, "method", ["POST", "HEAD"], 1, 4), ...setting(chance, "mode", ["no-cors"], 1, 6),
    ...setting(chance, "credentials", CREDENTIALS, 1, 4),
    headers: chance.many(1, 3, () => [chance.of(HEADERS), chance.of(TEXTS)]) } }));
  return scenario({ url: PAGE + "/", script }, new Map([[PAGE, rules()], ["https://api.test", rules()]]));
}

// ---- loads of all kinds

// The beginnings of real files, so that no browser takes an answer for something else.
const BODIES = { image: "GIF89a", audio: "OggS\u0000", script: "1", manifest: "{}" };
const TYPES = { image: ["image/gif", "image/gif", "text/plain"], audio: ["audio/ogg"], video: ["video/mp4"],
  style: ["text/css"], font: ["font/woff"],
  script: ["text/javascript", "application/javascript", "text/plain", "text/html", "application/json"],
  manifest: ["application/manifest+json"] };

function loadAnswer(chance, kind) {
  const headers = [["Content-Type", chance.of(TYPES[kind])], ...sharing(chance)];
  if (chance.in(1, 5)) {
    headers.push(["Cross-Origin-Resource-Policy", chance.of(["same-origin", "same-site", "cross-origin"])]);
  }
  if (chance.in(1, 5) && ["script", "style"].includes(kind)) {
    headers.push(["X-Content-Type-Options", "nosniff"]);
  }
  return { path: "/" + kind, status: 200, headers, body: BODIES[kind] || "" };
}

function loads(chance) {
  const origins = [...ORIGINS, "http://api.test"];
  const servers = new Map(origins.map((origin) => {
    const detours = KINDS.filter(() => chance.in(1, 3)).map((kind) => ({ path: "/to-" + kind, status: 302,
      headers: [["Location", chance.of(ORIGINS) + "/" + kind], ...sharing(chance)] }));
    return [origin, [...KINDS.map((kind) => loadAnswer(chance, kind)), ...detours]];
  }));
  const script = chance.many(3, 5, () => {
    const kind = chance.of(KINDS);
    return { load: { kind, url: chance.of(origins) + (chance.in(1, 5) ? "/to-" : "/") + kind,
      ...setting(chance, "crossorigin", kind === "font" ? ["anonymous"] : ["anonymous", "use-credentials"], 1, 3),
      ...(["image", "style", "script"].includes(kind) ? setting(chance, "referrer_policy", POLICIES, 1, 4) : {}),
      ...(chance.in(1, 3) ? { parser: false } : {}) } };
  });
  return scenario({ url: PAGE + "/page", script }, servers, { cookies: [["https://api.test", "a=2"], [PAGE, "s=1"]] });
}

// ---- referrers

const FIELDS = [...POLICIES, "bogus", "origin, bogus", "", "no-referrer, unsafe-url"];

function referrers(chance) {
  const page = chance.of([PAGE, "http://shop.test"]);
  const origins = page === PAGE ? ORIGINS : [...ORIGINS, ...PLAIN];
  const servers = new Map(origins.map((origin) => [origin, [
    { path: "/1", status: chance.of([302, 307]), headers: [["Location", chance.of(origins) + chance.of(["/1", "/2", "/2"])],
      ["Access-Control-Allow-Origin", "*"],
      ...(chance.in(1, 2) ? [["Referrer-Policy", chance.of(FIELDS)]] : [])] },
    { status: 200, headers: [["Access-Control-Allow-Origin", "*"], ["Content-Type", "text/css"]] }]]));
  const script = chance.many(3, 5, () => {
    const url = chance.of(origins) + chance.of(["/1", "/2?q#f"]);
    const policy = setting(chance, "referrer_policy", POLICIES, 1, 2);
    if (chance.in(1, 3)) {
      return { load: { kind: chance.of(["image", "style"]), url, ...policy } };
    }
    const mode = chance.of(["cors", "cors", "no-cors"]);
    return { fetch: { url, mode, ...policy, ...setting(chance, "method", ["POST"], 1, 3),
      ...setting(chance, "referrer", ["none"], 1, 5) } };
  });
  const header = chance.in(1, 2) ? [["Referrer-Policy", chance.of([...POLICIES, "bogus", "origin, bogus"])]] : [];
  return scenario({ url: page + "/dir/page?query", headers: header, script }, servers);
}

const AREAS = { redirects, preflights, policies, headers, loads, referrers };

// The scenario of this area with this number.
function made(area, number) {
  const seed = [...area].reduce((sum, letter) => sum * 31 + letter.charCodeAt(0), 7) + number * 2654435761;
  return AREAS[area](new Chance(seed));
}

module.exports = { made, AREAS, KINDS, TYPES };
