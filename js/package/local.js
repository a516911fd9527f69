// `data:` and `blob:` URLs (Fetch, section 4.3), which Node's own `fetch` reads, behind what the engine says of them. Each
// is given as the URL Standard writes it.
import { matchesIntegrity } from "./index.js";
import { refusedBy } from "./refused.js";
import { why } from "./why.js";

const nodeFetch = globalThis.fetch; // a test may put a page's in its place

export function isData(url) {
  return url.startsWith("data:");
}

export function isLocal(url) {
  return isData(url) || url.startsWith("blob:");
}

// What policies forbid is told to `tell`; an enforced one among them is the error of this name.
function checkPolicies({ policies, client, request, tell }, of, name) {
  const found = policies.violations(client, request, { of });
  found.forEach(tell);
  const violation = found.filter(({ enforced }) => enforced).pop();
  if (violation !== undefined) {
    throw refusedBy(name, why({ name }, { violation }));
  }
}

async function readBy(url, { method = "GET" }) {
  const asked = method.toUpperCase();
  if (!isData(url) && asked !== "GET") {
    throw refusedBy("Scheme", "A blob: URL is asked by GET alone.");
  }
  try {
    return await nodeFetch(url, { method: asked === "HEAD" ? asked : "GET" });
  } catch {
    throw refusedBy("Scheme", isData(url) ? "The data: URL is none." : "The blob: URL stands for no Blob.");
  }
}

async function checkIntegrity(response, integrity) {
  const body = response.body === null ? null : new Uint8Array(await response.clone().arrayBuffer());
  if (body === null || !matchesIntegrity(integrity, body)) {
    throw refusedBy("Integrity", why({ name: "Integrity" }, {}));
  }
}

// Of a URL that is local, and what is asked, by a client that has policies.
export async function localResponse(url, { request }, client) {
  checkPolicies(client, "report-only", "CspRequest");
  checkPolicies(client, "enforced", "CspRequest");
  const response = await readBy(url, request);
  checkPolicies(client, "response", "CspResponse");
  if (request.integrity) {
    await checkIntegrity(response, request.integrity);
  }
  return response;
}
