// What a script asks of `fetch`, as the engine takes it.

const NOWHERE = "http://localhost/"; // of a request whose body is read
const OF_REQUEST = ["url", "method", "mode", "credentials", "cache", "redirect", "integrity", "referrer",
  "referrerPolicy", "signal"];
const CACHES = ["default", "no-store", "reload", "no-cache", "force-cache", "only-if-cached"];

// A body that comes as it is sent: browsers send one over HTTP/2 alone.
function isStream(body) {
  return body instanceof ReadableStream || typeof body === "object" && body[Symbol.asyncIterator] !== undefined;
}

// The bytes of a body as `fetch` takes it, and the type that it brings.
async function readBody(body) {
  if (body === undefined || body === null) {
    return { bytes: null, type: null };
  }
  if (isStream(body)) {
    throw new TypeError("a stream is no body here: browsers send one over HTTP/2 alone, and this speaks HTTP/1.1");
  }
  const made = new Request(NOWHERE, { method: "POST", body, duplex: "half" });
  return { bytes: new Uint8Array(await made.arrayBuffer()), type: made.headers.get("content-type") };
}

async function initOf(input, init) {
  if (!(input instanceof Request)) {
    return { url: String(input), ...init };
  }
  const body = input.body === null ? null : new Uint8Array(await input.arrayBuffer());
  const own = Object.fromEntries(OF_REQUEST.map((name) => [name, input[name]]));
  return { ...own, headers: [...input.headers], body, ...init };
}

function pairsOf(headers = []) {
  return typeof headers[Symbol.iterator] === "function" ? [...headers].map(([name, value]) => [name, value])
    : Object.entries(headers);
}

// The URL that is told as the page's, or null where none is (Fetch, section 5.4). One of another origin, as
// `about:client`, stands for the page's own.
function referrerOf(referrer, page) {
  if (referrer === "") {
    return null;
  }
  const given = new URL(referrer === undefined ? page : referrer, page);
  return given.origin === new URL(page).origin ? given.href : page;
}

// The cache mode (Fetch, section 5.4).
function cacheOf(cache = "default", mode = "cors") {
  if (!CACHES.includes(cache)) {
    throw new TypeError(JSON.stringify(cache) + " is no cache mode");
  }
  if (cache === "only-if-cached" && mode !== "same-origin") {
    throw new TypeError("the cache mode only-if-cached needs the mode same-origin");
  }
  return cache;
}

// A URL against the page's; as it is given where it is none.
export function absolute(url, page) {
  return URL.canParse(url, page) ? new URL(url, page).href : url;
}

export async function askedOf(page, input, init) {
  const given = await initOf(input, init);
  const cache = cacheOf(given.cache, given.mode);
  const { bytes, type } = await readBody(given.body);
  const headers = pairsOf(given.headers).map(([name, value]) => [String(name), String(value)]);
  if (type !== null && !headers.some(([name]) => name.toLowerCase() === "content-type")) {
    headers.push(["Content-Type", type]);
  }
  const { url, method, mode, credentials, redirect, integrity, referrerPolicy, signal = null } = given;
  const referrer = referrerOf(given.referrer, page);
  const request = { method, mode, credentials, redirect, integrity, referrerPolicy, headers, body: bytes,
    referrer: referrer !== null };
  return { url, signal, cache, referrer, request };
}
