// What a browser adds to the head that the engine says is sent: by whom it is asked (Fetch Metadata, section 2), what
// its cache mode asks of other caches (Fetch, section 4.6), and the codings that bodies may come in.
import { isTrustworthy, sameOrigin, sameSite } from "./index.js";

const AS_IT_IS = "\r\nAccept-Encoding: identity\r\n";
const FRESH = [["Pragma", "no-cache"], ["Cache-Control", "no-cache"]];
const ASKS = { "no-cache": [["Cache-Control", "max-age=0"]], "no-store": FRESH, "reload": FRESH };
const CONDITIONS = ["if-modified-since", "if-none-match", "if-unmodified-since", "if-match", "if-range"];

function isSameSite(one, other) {
  return new URL(one).protocol === new URL(other).protocol && sameSite(one, other);
}

// Of a page and all origins that its request was led to: the worst.
function siteOf(page, origins) {
  const others = origins.filter((origin) => !sameOrigin(page, origin));
  if (others.length === 0) {
    return "same-origin";
  }
  return others.every((origin) => isSameSite(page, origin)) ? "same-site" : "cross-site";
}

function metadataOf(page, { request: { mode = "cors" } }, act, origins) {
  if (!isTrustworthy(act.origin)) {
    return [];
  }
  return [["Sec-Fetch-Site", siteOf(page, origins)], ["Sec-Fetch-Mode", act.preflight ? "cors" : mode],
    ["Sec-Fetch-Dest", "empty"]];
}

function cachingOf({ cache }, act) {
  const has = (name) => act.headers.some(([one]) => one.toLowerCase() === name.toLowerCase());
  const mode = cache === "default" && CONDITIONS.some(has) ? "no-store" : cache;
  return act.preflight ? [] : (ASKS[mode] || []).filter(([name]) => !has(name));
}

function codingsFor(act) {
  if (act.headers.some(([name]) => name.toLowerCase() === "range")) {
    return "identity";
  }
  return act.origin.startsWith("https:") ? "gzip, deflate, br" : "gzip, deflate";
}

// The bytes to send for an act of the engine. `origins` are those of the requests before that led to it, and its own.
export function withOwnHeaders(page, asked, act, origins) {
  const bytes = Buffer.from(act.bytes);
  const end = bytes.indexOf("\r\n\r\n") + 2;
  const head = bytes.toString("latin1", 0, end).replace(AS_IT_IS, "\r\nAccept-Encoding: " + codingsFor(act) + "\r\n");
  const own = [...metadataOf(page, asked, act, origins), ...cachingOf(asked, act)];
  const lines = own.map(([name, value]) => name + ": " + value + "\r\n");
  return Buffer.concat([Buffer.from(head + lines.join(""), "latin1"), bytes.subarray(end)]);
}
