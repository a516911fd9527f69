// Why a fetch came to a network error, in a sentence or two: what the server said, and what it would have to say.
import { valuesOf } from "./answers.js";
import { ERROR_TEXTS } from "./refusals.js";

// Why an answer fails the CORS check.
function corsRefused({ sent, head, includes }) {
  const origin = valuesOf(sent.headers, "origin")[0] || "null";
  const allowed = valuesOf(head.headers, "access-control-allow-origin");
  const what = sent.preflight ? "The answer to the preflight" : "The answer";
  const wanted = "Access-Control-Allow-Origin: " + origin;
  if (allowed.length === 0) {
    return what + " has no Access-Control-Allow-Origin. It would have to say `" + wanted + "`.";
  }
  if (allowed.length > 1) {
    return what + " has Access-Control-Allow-Origin " + allowed.length + " times, and it must be there once: `" + wanted + "`.";
  }
  if (allowed[0] === "*" && includes) {
    return what + " allows `*`, which allows no request with credentials. It would have to say `" + wanted
      + "` and `Access-Control-Allow-Credentials: true`.";
  }
  if (allowed[0] !== origin && allowed[0] !== "*") {
    return what + " allows the origin `" + allowed[0] + "`, and the request is of `" + origin + "`.";
  }
  return what + " allows the origin, but a request with credentials needs `Access-Control-Allow-Credentials: true` as well.";
}

function listed(head, name) {
  const values = valuesOf(head.headers, name.toLowerCase());
  return values.length === 0 ? "has no " + name : "says `" + name + ": " + values.join(", ") + "`";
}

// Of a request that a policy forbids. A violation names the first URL, and the answer that redirects the one that is
// refused.
function forbidden({ violation: { directive, url }, sent, head }) {
  const [location] = head === undefined ? [] : valuesOf(head.headers, "location");
  const said = "The page's policy forbids it: " + directive + " does not let ";
  if (location === undefined) {
    return said + url + " pass.";
  }
  const from = sent.origin + sent.target;
  const to = new URL(Buffer.from(location, "latin1").toString(), from);
  return said + to + " pass, to which " + from + " redirects. The violation names " + url + ".";
}

function linkFault({ sent, fault }) {
  if (fault !== undefined && fault.code === "NOT_CACHED") {
    return "The cache mode is only-if-cached, and nothing is cached here.";
  }
  return "The connection to " + sent.origin + " failed" + (fault ? ": " + fault.message : "")
    + ". `Page.connectTo` maps a name to a local server.";
}

const SENTENCES = {
  CorsCheck: corsRefused,
  PreflightCors: corsRefused,
  PreflightStatus: ({ head }) => "The answer to the preflight has the status " + head.status + ", and none of 200 to 299.",
  PreflightMethod: ({ sent, head }) => "The answer to the preflight " + listed(head, "Access-Control-Allow-Methods")
    + ", which does not allow " + (valuesOf(sent.headers, "access-control-request-method")[0] || "the method") + ".",
  PreflightHeader: ({ head, header }) => "The answer to the preflight " + listed(head, "Access-Control-Allow-Headers")
    + ", which does not allow `" + header + "`.",
  CspRequest: forbidden,
  LinkFault: linkFault,
};

// `known` has what the page saw: the last request and head, the last violation of an enforced policy, and the connection's
// fault, as far as there were some.
export function why(error, known) {
  const needs = { CspRequest: ["violation"], LinkFault: ["sent"] }[error.name] || ["sent", "head"];
  const sentence = SENTENCES[error.name];
  return sentence !== undefined && needs.every((need) => known[need]) ? sentence({ ...known, header: error.header })
    : ERROR_TEXTS[error.name][0];
}
