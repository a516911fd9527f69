"use strict";

// All points that a play can reach, each with what it is: the ways to results, errors, calls of the preflight cache and of
// the HSTS list, steps of fetches, directives, source forms, and referrer policies by their cases.

const names = require("../schema/names.json");

const point = (group, name, what) => ({ name: group + "/" + name, group, what });

// The lines of `bin/why --ways`, as points.
function waysIn(text) {
  return text.split("\n").map((line) => /^([a-z0-9/-]+) \(.*?\): (.*)$/.exec(line)).filter(Boolean)
    .map(([, name, what]) => point("way", name, what));
}

const ERRORS = Object.keys(names.network_errors).map((name) => point("error", name, "network error " + names.network_errors[name]));
const FAULTS = Object.keys(names.request_faults).map((name) => point("fault", name, "fault " + names.request_faults[name]
  + " of a request"));
const TYPES = names.response_types.map((name) => point("response", name, "a script sees a response of type " + name));
const LOADS = Object.keys(names.loads).flatMap((name) => [point("load", name + " loaded", "an element loads " + name),
  point("load", name + " failed", "an element's " + name + " fails")]);

const CACHE = {
  "asks and is not covered": "the preflight cache is asked, and covers the request not",
  "covers": "the preflight cache covers a request",
  "covers with credentials": "it covers a request with credentials",
  "learns": "a preflight's answer is learnt",
  "learns with credentials": "one of a request with credentials is learnt",
  "learns for the default age": "one without a usable Access-Control-Max-Age is learnt for 5 seconds",
  "learns for no time": "one with Access-Control-Max-Age: 0 is learnt",
  "learns for the longest age": "a longer age than 7200 seconds is cut",
  "learns a method": "a method is learnt", "learns a name": "a header name is learnt",
  "learns a star": "a * is learnt", "covers by a star": "a * that was learnt covers a request",
  "an entry has run out": "the age of an entry has passed, and a preflight is sent again",
  "a failure clears": "a failed request clears the entries of its URL",
  "an answer prolongs": "an answer prolongs an entry that lives",
  "covers for an opaque origin": "it is asked for the origin null",
  "other credentials do not cover": "an entry made without credentials covers no request with them",
  "another page does not cover": "an entry of one origin covers no request of another",
};

const HOSTS = {
  "is known": "a host is on the HSTS list", "is not known": "a host is asked for, and is not on the list",
  "is noted": "an answer puts a host on the list", "is taken off": "max-age=0 takes a host off the list",
  "is known by its parent": "includeSubDomains makes a host known", "has run out": "a known host is forgotten in time",
};

const STEPS = {
  "a preflight passes": "HTTP fetch: a preflight, and the request behind it",
  "a preflight for a method": "CORS-preflight fetch: for the method alone",
  "a preflight for a header": "CORS-preflight fetch: for a header name",
  "no preflight of a safelisted request": "main fetch: mode cors across origins without a preflight",
  "a redirect by 301": "HTTP-redirect fetch: 301", "a redirect by 302": "HTTP-redirect fetch: 302",
  "a redirect by 303": "HTTP-redirect fetch: 303", "a redirect by 307": "HTTP-redirect fetch: 307",
  "a redirect by 308": "HTTP-redirect fetch: 308",
  "a redirect makes POST a GET": "HTTP-redirect fetch: 301 or 302 of a POST",
  "a redirect makes another method a GET": "HTTP-redirect fetch: 303 of a method that is not GET or HEAD",
  "a redirect keeps a method and a body": "HTTP-redirect fetch: 307 or 308 of a request with a body",
  "a redirect across origins": "HTTP-redirect fetch: to another origin",
  "a redirect drops Authorization": "HTTP-redirect fetch: Authorization goes across origins",
  "a redirect taints the origin": "HTTP-redirect fetch: from another origin to a third one",
  "a redirect is preflighted": "HTTP-redirect fetch: a preflight behind a redirect",
  "a redirect changes the referrer policy": "HTTP-redirect fetch: Referrer-Policy of its answer",
  "an http URL is upgraded by a policy": "main fetch: upgrade-insecure-requests",
  "an http URL is upgraded as mixed content": "main fetch: image, audio or video of a secure page",
  "an http URL of a known host is upgraded": "main fetch: HSTS",
  "Origin is sent in mode cors": "HTTP-network-or-cache fetch: Origin",
  "Origin is sent outside mode cors": "append a request Origin header: method not GET or HEAD",
  "Origin is null": "append a request Origin header: null", "no Origin is sent": "append a request Origin header: none",
  "a Referer in full": "determine request's referrer: the whole URL",
  "a Referer of the origin": "determine request's referrer: the origin", "no Referer": "determine request's referrer: none",
  "cookies are sent": "HTTP-network-or-cache fetch: credentials", "cookies are left out": "HTTP-network-or-cache fetch: no credentials",
  "a body is sent": "HTTP-network-or-cache fetch: a body", "Content-Length 0": "HTTP-network-or-cache fetch: POST or PUT without a body",
  "a body is cut off": "HTTP-network fetch: the body ends early", "a null body status": "main fetch: the body becomes null",
  "an opaque answer hides all": "opaque filtered response", "headers are hidden": "CORS filtered response: not exposed",
  "headers are exposed by name": "CORS filtered response: Access-Control-Expose-Headers",
  "headers are exposed by a star": "CORS filtered response: *", "an upload listener asks": "use-CORS-preflight flag",
  "integrity fits": "main fetch: the bytes fit the integrity text", "a parser-inserted script": "HTML: parser metadata",
};

const KINDS = Object.values(names.effective_directives).filter((name, at, all) => all.indexOf(name) === at);
const DIRECTIVES = KINDS.flatMap((name) => ["enforced", "report-only"].flatMap((how) => [
  point("directive", name + " " + how + " passes", "a policy's " + name + ", " + how + ", lets a request pass"),
  point("directive", name + " " + how + " is violated", "a policy's " + name + ", " + how + ", is violated")]));

const FORMS = { "'none'": /^'none'$/i, "'self'": /^'self'$/i, "*": /^\*$/, "a scheme": /^[a-z][a-z0-9+.-]*:$/i,
  "a host": /^(?!https?:\/\/)[a-z0-9.-]+$/i, "a scheme and a host": /^https?:\/\/[a-z0-9.-]+$/i,
  "a wildcard host": /^([a-z]+:\/\/)?\*\.[a-z0-9.-]+/i, "a port": /^([a-z]+:\/\/)?[^/':]+:[0-9]+/i,
  "any port": /^([a-z]+:\/\/)?[^/']+:\*/i, "a path": /^([a-z]+:\/\/)?[^/']+\/.*[^/]$/i, "a folder": /^([a-z]+:\/\/)?[^/']+\/.*\/$/i,
  "a nonce": /^'nonce-/i, "a hash": /^'sha(256|384|512)-/i, "'strict-dynamic'": /^'strict-dynamic'$/i };
const SOURCES = Object.keys(FORMS).flatMap((form) => [point("source", form + " matches", form + " lets a request pass"),
  point("source", form + " refuses", form + " alone refuses a request")]).filter(({ name }) => !["source/'none' matches", "source/* refuses"].includes(name));

const CASES = { "the same origin": "to the page's own origin", "another origin": "to another origin, as secure",
  "http of the loopback": "from https to http of the loopback, where mixed content is let through" };
const REFERRERS = Object.keys(names.referrer_policies).filter((name) => name !== "")
  .flatMap((policy) => Object.keys(CASES).map((name) => point("referrer", policy + " to " + name, policy + " " + CASES[name])));

const listed = (group, table) => Object.keys(table).map((name) => point(group, name, table[name]));

// Every point but the ways.
const POINTS = [...ERRORS, ...FAULTS, ...TYPES, ...LOADS, ...listed("cache", CACHE), ...listed("known host", HOSTS),
  ...listed("step", STEPS), ...DIRECTIVES, ...SOURCES, ...REFERRERS];

module.exports = { POINTS, FORMS, waysIn };
