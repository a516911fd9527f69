// Random calls of the module, for js/check: each is written with what came of it, and tests.js.native does it again.
import { inPackage } from "./built.mjs";

const { CALLS } = await inPackage("calls.js");

// Where things of each kind are held, so that most calls find what they are for.
const SLOTS = { headers: [0, 1, 2, 3], filtered: [3], client: [4, 5], request: [6, 7], policies: [8], violations: [9],
  book: [10, 11], fetch: [12, 13, 14] };
const SLOT_COUNT = 16;
const ORIGINS = ["https://app.example", "https://api.example", "http://app.example", "https://app.example:8443", "null", "*",
  "https://a.b.example", "http://localhost:3000", "http://127.0.0.1"];
const URLS = [...ORIGINS.map((origin) => origin + "/cart?x=1#y"), "/relative", "//api.example/p", "https://user:pw@api.example/",
  "data:,x", "https://app.example:25/", "http://[::1]/", "https://[", "", "https://ex\u00e4mple/\u20ac", "HTTPS://App.Example:443/a"];
const NAMES = ["Access-Control-Allow-Origin", "Access-Control-Allow-Credentials", "Access-Control-Allow-Methods",
  "Access-Control-Allow-Headers", "Access-Control-Expose-Headers", "Access-Control-Max-Age", "Content-Type",
  "X-Content-Type-Options", "Content-Security-Policy", "Content-Security-Policy-Report-Only", "Set-Cookie", "Accept", "Range",
  "Cross-Origin-Resource-Policy", "Strict-Transport-Security", "X-A", "vary", "Cookie", "Sec-A", "bad name", ""];
const VALUES = ["*", "true", "https://app.example", "GET, PUT", "x-a, content-type", "X-A", "600", "application/json",
  "text/html; charset=utf-8", "text/css", "text/javascript", "nosniff", "same-origin", "same-site", "bytes=0-5",
  "default-src 'self'; img-src *", "connect-src https://api.example; upgrade-insecure-requests", "script-src 'nonce-abc'",
  "max-age=600; includeSubDomains", "max-age=0", "a\nb", "", " x "];
const METHODS = ["GET", "POST", "PUT", "put", "HEAD", "DELETE", "CONNECT", "trace", "patch", "a b", ""];
const HOSTS = ["app.example", "api.example", "eu.api.example", "localhost", "127.0.0.1", "App.Example", ""];
const ANSWERS = ["HTTP/1.1 200 OK\r\nContent-Length: 2\r\nAccess-Control-Allow-Origin: *\r\n\r\nhi", "HTTP/1.1 204 No Content\r\n"
  + "Access-Control-Allow-Origin: https://app.example\r\nAccess-Control-Allow-Methods: PUT\r\n"
  + "Access-Control-Allow-Headers: *\r\nAccess-Control-Max-Age: 60\r\n\r\n", "HTTP/1.1 302 Found\r\nLocation: "
  + "https://api.example/next\r\nAccess-Control-Allow-Origin: *\r\n\r\n", "HTTP/1.1 200 OK\r\nTransfer-Encoding: chunked\r\n\r\n",
  "3\r\nabc\r\n0\r\n\r\n", "hi", "", "HTTP/1.1 2", "no head\r\n\r\n"];
const METADATA = ["sha256-47DEQpj8HBSa+/TImW+5JCeuQeRkm5NMpJWZG3hSuFU=", "sha384-abc", "md5-x", ""];
const BOOKS = ["fiorrudda book 1\nhosts 0\nentries 0\n", "fiorrudda book 1\nhosts 1\n10 1 9:a.example\nentries 0\n",
  "fiorrudda book 2\n", "", "fiorrudda book 1\nhosts 1\n10 1 "];
const BY_NAME = { name: NAMES, value: VALUES, method: METHODS, host: HOSTS, field: VALUES, metadata: METADATA, bytes: ANSWERS,
  body: ["", "hi", "{}"], word: ["*", "'self'", "'none'", "https:", "https://*.example", "api.example/p", "x:y"], origin: ORIGINS,
  text: ["{}", "abc", ...METADATA, ...BOOKS], scenario: ['{"format":1,"documents":[]}', '{"format":1}', "{"],
  play: ["fetchplay 1\nhistory\ndone\n", "fetchplay 1\nhistory\n0 0 match a.test at 0: yes\ndone\n"] };

export class Drawer {
  constructor(seed) {
    this.state = BigInt(seed) * 2n + 1n;
  }

  below(limit) {
    this.state = (this.state * 6364136223846793005n + 1442695040888963407n) & 0xffffffffffffffffn;
    return Number((this.state >> 33n) % BigInt(limit));
  }

  of(list) {
    return list[this.below(list.length)];
  }

  // One that is meant, and now and then another text, one that was cut, or any bytes.
  text(name) {
    const kind = this.below(20);
    const meant = this.of(kind === 0 ? VALUES : BY_NAME[name] || URLS);
    const bytes = Buffer.from(meant);
    if (kind === 1) {
      bytes.fill(this.below(256), this.below(bytes.length + 1));
    }
    return kind === 2 ? bytes.subarray(0, this.below(bytes.length + 1)) : bytes;
  }

  // A slot that the call has not yet: no handle is given twice to one call.
  slot(name, taken) {
    const slots = this.below(25) === 0 || !SLOTS[name] ? Array.from({ length: SLOT_COUNT }, (_, at) => at) : SLOTS[name];
    const free = slots.filter((slot) => !taken.includes(slot));
    return free.length > 0 ? this.of(free) : this.slot("any", taken);
  }

  number(name, kind) {
    if (kind === "bool") {
      return this.below(2);
    }
    const most = { status: 1000, now: 2000, at: 4, redirects: 3, limit: 200, which: 18 }[name] || 10;
    return name === "now" && this.below(30) === 0 ? 2 ** 48 + this.below(2) : this.below(most);
  }
}

// The names of the parameters stand in the source of each function, in its order.
export function parametersOf(call) {
  return /\(([^)]*)\)/.exec(call.toString())[1].split(", ").slice(1);
}

// What is given to a call: of each parameter that is no room and no number that is told.
export function given(drawer, name, parameters) {
  const kinds = CALLS[name].split(" ").filter((kind) => kind !== "room" && !kind.endsWith("_out"));
  const taken = [];
  return kinds.map((kind, at) => {
    if (kind === "handle") {
      taken.push(drawer.slot(parameters[at], taken));
      return taken[taken.length - 1];
    }
    return kind === "text" ? drawer.text(parameters[at]) : drawer.number(parameters[at], kind);
  });
}

export { SLOT_COUNT };
