// Written by embed/header: do not edit. The numbers of the engine, and its calls: an `engine` lends what they are given.

export const CODE = {
  OK: 0, NO: 1, WRONG_HANDLE: 2, OUT_OF_MEMORY: 3, TOO_SHORT: 4, NO_SUCH_NUMBER: 5, NOT_A_URL: 6, NOT_HTTP: 7,
  NOT_A_HEADER: 8, TOO_LATE: 9, NOT_AWAITED: 10, NO_REQUEST: 11, NOT_A_HOST: 12,
};

export const ACT = {
  OVER: 0, ASK: 1, SEND: 2, READ_HEAD: 3, READ_BODY: 4, TELL: 5, GONE: 6,
};

export const CALL = {
  MATCH: 0, NOTE: 1, COVERS: 2, LEARN: 3, CLEAR: 4,
};

export const CHECK = {
  ENFORCED: 0, REPORT_ONLY: 1, RESPONSE: 2,
};

export const CHOOSE = {
  MODE: 0, CREDENTIALS: 1, REDIRECT: 2, REFERRER: 3, REFERRER_POLICY: 4, UPLOAD: 5, CROSSORIGIN: 6, PARSER: 7,
};

export const CREDENTIALS = {
  OMIT: 0, SAME_ORIGIN: 1, INCLUDE: 2,
};

export const CROSSORIGIN = {
  ABSENT: 0, ANONYMOUS: 1, USE_CREDENTIALS: 2,
};

export const END = {
  NULL: 0, WHOLE: 1, CUT: 2, FAULT: 3, TOO_BIG: 4,
};

export const ERROR = {
  SCHEME: 1, BAD_PORT: 2, MIXED: 3, CSP_REQUEST: 4, SAME_ORIGIN_MODE: 5, NO_CORS_REDIRECT_MODE: 6, PREFLIGHT_CORS: 7,
  PREFLIGHT_STATUS: 8, PREFLIGHT_LIST: 9, PREFLIGHT_METHOD: 10, PREFLIGHT_HEADER: 11, CORS_CHECK: 12, CORP: 13,
  REDIRECT_MODE: 14, BAD_LOCATION: 15, REDIRECT_SCHEME: 16, TOO_MANY_REDIRECTS: 17, REDIRECT_CREDENTIALS: 18,
  CSP_RESPONSE: 19, MIME: 20, NO_SNIFF: 21, INTEGRITY: 22, CODING: 23, LINK_FAULT: 24, BAD_HEAD: 25,
  HEAD_TOO_BIG: 26,
};

export const FAULT = {
  BAD_URL: 1, URL_CREDENTIALS: 2, BAD_METHOD: 3, FORBIDDEN_METHOD: 4, BODY_WITH_GET: 5, NO_CORS_METHOD: 6,
  BAD_HEADER: 7, NAVIGATE_MODE: 8, TOO_LONG: 9, LONG_URL: 10,
};

export const INPUT = {
  SENT: 0, TOLD: 1, ENDED: 2, FAILED: 3, YES: 4, NO: 5, DONE: 6,
};

export const LOAD = {
  IMAGE: 1, AUDIO: 2, VIDEO: 3, STYLE: 4, SCRIPT: 5, FONT: 6, MANIFEST: 7,
};

export const MODE = {
  SAME_ORIGIN: 0, NO_CORS: 1, CORS: 2, NAVIGATE: 3,
};

export const NUMBER = {
  CALL: 0, TIME: 1, AGE: 2, SUBDOMAINS: 3, INCLUDE: 4, PREFLIGHT: 5, POLICY: 6, ENFORCED: 7, OUTCOME: 8, STATUS: 9,
  ERROR: 10, END: 11, COUNT: 12, HEADERS: 13, NAMES: 14, METHODS: 15,
};

export const OUTCOME = {
  RESPONSE: 0, LOADED: 1, ERROR: 2,
};

export const REASON = {
  NO_BOOK: 0, OTHER_FORMAT: 1, BAD_LINE: 2, ORDER: 3, FULL: 4, TOO_LONG: 5,
};

export const REDIRECT = {
  FOLLOW: 0, ERROR: 1, MANUAL: 2,
};

export const REFERRER = {
  DEFAULT: 0, NO_REFERRER: 1, NO_REFERRER_WHEN_DOWNGRADE: 2, SAME_ORIGIN: 3, ORIGIN: 4, STRICT_ORIGIN: 5,
  ORIGIN_WHEN_CROSS_ORIGIN: 6, STRICT_ORIGIN_WHEN_CROSS_ORIGIN: 7, UNSAFE_URL: 8,
};

export const REQUEST = {
  BODY: 0, INTEGRITY: 1, NONCE: 2,
};

export const TAINTING = {
  BASIC: 0, CORS: 1, OPAQUE: 2,
};

export const TEXT = {
  ORIGIN: 0, URL: 1, METHOD: 2, BODY: 3, HEADER_NAME: 4, HEADER_VALUE: 5, HOST: 6, KEY: 7, NAME: 8, LEARNT: 9,
  WORD: 10, REFUSED: 11,
};

// What each call is given, in its order.
export const CALLS = {
  free: "handle",
  headers: "handle",
  append: "handle text text",
  get: "handle text room",
  name_at: "handle u64 room",
  value_at: "handle u64 room",
  origin: "text room",
  same_origin: "text text",
  same_site: "text text",
  trustworthy: "text",
  bad_port: "text",
  referrer: "u32 text text room",
  cors_check: "text bool handle",
  exposed_name: "handle bool u64 room",
  safelisted: "text text",
  unsafe_name: "handle u64 room",
  forbidden_header: "text text",
  forbidden_method: "text",
  essence: "handle room",
  nosniff: "handle",
  type_blocked: "handle handle",
  nosniff_blocked: "handle handle",
  integrity: "text text",
  resource_policy: "text text handle",
  client: "handle text text u32",
  client_policy: "handle text bool",
  client_cookie: "handle text text",
  request: "handle text text",
  load: "handle u32 text",
  request_header: "handle text text",
  request_text: "handle u32 text",
  request_choose: "handle u32 u32",
  policies: "handle handle",
  upgrades: "handle",
  check: "handle handle handle handle text u32",
  violation: "handle u64 u32_out u32_out",
  violation_directive: "handle u64 room",
  violation_url: "handle u64 room",
  source_matches: "text text text u32",
  mixed_upgraded: "handle handle text",
  mixed_blocked: "handle handle text",
  preflight: "handle handle room",
  verdict: "handle handle handle u32 u32_out u64_out",
  refused_name: "handle handle handle u32 room",
  filtered: "handle handle handle handle u32 u32 u32_out",
  book: "handle",
  sts: "text u64_out u32_out",
  note_host: "handle text text u64",
  known_host: "handle text u64",
  book_text: "handle room",
  book_of_text: "handle text u64_out u32_out",
  fetch: "handle handle handle u64 u32 u32_out u32_out",
  act: "handle u32_out",
  ask: "handle handle u32_out",
  judge: "handle handle handle u32_out",
  to_send: "handle room",
  input: "handle u32",
  feed: "handle text u64_out",
  text: "handle u32 u64 room",
  number: "handle u32 u64_out",
  play: "text room",
  reports: "text room",
  audit: "text text room",
};

export function free(engine, handle) {
  return engine.exports.fiorrudda_free(handle);
}

export function headers(engine, headers) {
  return engine.exports.fiorrudda_headers(headers);
}

export function append(engine, headers, name, value) {
  const nameAt = engine.lend(name);
  const nameLen = engine.length;
  const valueAt = engine.lend(value);
  const valueLen = engine.length;
  const code = engine.exports.fiorrudda_append(headers, nameAt, nameLen, valueAt, valueLen);
  engine.done();
  return code;
}

export function get(engine, headers, name) {
  const nameAt = engine.lend(name);
  const nameLen = engine.length;
  const answer = engine.written((room, roomLen, len) => engine.exports.fiorrudda_get(headers, nameAt, nameLen, room, roomLen, len));
  engine.done();
  return answer;
}

export function nameAt(engine, headers, at) {
  const answer = engine.written((room, roomLen, len) => engine.exports.fiorrudda_name_at(headers, BigInt(at), room, roomLen, len));
  engine.done();
  return answer;
}

export function valueAt(engine, headers, at) {
  const answer = engine.written((room, roomLen, len) => engine.exports.fiorrudda_value_at(headers, BigInt(at), room, roomLen, len));
  engine.done();
  return answer;
}

export function origin(engine, url) {
  const urlAt = engine.lend(url);
  const urlLen = engine.length;
  const answer = engine.written((room, roomLen, len) => engine.exports.fiorrudda_origin(urlAt, urlLen, room, roomLen, len));
  engine.done();
  return answer;
}

export function sameOrigin(engine, a, b) {
  const aAt = engine.lend(a);
  const aLen = engine.length;
  const bAt = engine.lend(b);
  const bLen = engine.length;
  const code = engine.exports.fiorrudda_same_origin(aAt, aLen, bAt, bLen);
  engine.done();
  return code;
}

export function sameSite(engine, a, b) {
  const aAt = engine.lend(a);
  const aLen = engine.length;
  const bAt = engine.lend(b);
  const bLen = engine.length;
  const code = engine.exports.fiorrudda_same_site(aAt, aLen, bAt, bLen);
  engine.done();
  return code;
}

export function trustworthy(engine, url) {
  const urlAt = engine.lend(url);
  const urlLen = engine.length;
  const code = engine.exports.fiorrudda_trustworthy(urlAt, urlLen);
  engine.done();
  return code;
}

export function badPort(engine, url) {
  const urlAt = engine.lend(url);
  const urlLen = engine.length;
  const code = engine.exports.fiorrudda_bad_port(urlAt, urlLen);
  engine.done();
  return code;
}

export function referrer(engine, policy, source, target) {
  const sourceAt = engine.lend(source);
  const sourceLen = engine.length;
  const targetAt = engine.lend(target);
  const targetLen = engine.length;
  const answer = engine.written((room, roomLen, len) => engine.exports.fiorrudda_referrer(policy, sourceAt, sourceLen, targetAt, targetLen, room, roomLen, len));
  engine.done();
  return answer;
}

export function corsCheck(engine, origin, include, headers) {
  const originAt = engine.lend(origin);
  const originLen = engine.length;
  const code = engine.exports.fiorrudda_cors_check(originAt, originLen, include ? 1 : 0, headers);
  engine.done();
  return code;
}

export function exposedName(engine, headers, include, at) {
  const answer = engine.written((room, roomLen, len) => engine.exports.fiorrudda_exposed_name(headers, include ? 1 : 0, BigInt(at), room, roomLen, len));
  engine.done();
  return answer;
}

export function safelisted(engine, name, value) {
  const nameAt = engine.lend(name);
  const nameLen = engine.length;
  const valueAt = engine.lend(value);
  const valueLen = engine.length;
  const code = engine.exports.fiorrudda_safelisted(nameAt, nameLen, valueAt, valueLen);
  engine.done();
  return code;
}

export function unsafeName(engine, headers, at) {
  const answer = engine.written((room, roomLen, len) => engine.exports.fiorrudda_unsafe_name(headers, BigInt(at), room, roomLen, len));
  engine.done();
  return answer;
}

export function forbiddenHeader(engine, name, value) {
  const nameAt = engine.lend(name);
  const nameLen = engine.length;
  const valueAt = engine.lend(value);
  const valueLen = engine.length;
  const code = engine.exports.fiorrudda_forbidden_header(nameAt, nameLen, valueAt, valueLen);
  engine.done();
  return code;
}

export function forbiddenMethod(engine, method) {
  const methodAt = engine.lend(method);
  const methodLen = engine.length;
  const code = engine.exports.fiorrudda_forbidden_method(methodAt, methodLen);
  engine.done();
  return code;
}

export function essence(engine, headers) {
  const answer = engine.written((room, roomLen, len) => engine.exports.fiorrudda_essence(headers, room, roomLen, len));
  engine.done();
  return answer;
}

export function nosniff(engine, headers) {
  return engine.exports.fiorrudda_nosniff(headers);
}

export function typeBlocked(engine, request, headers) {
  return engine.exports.fiorrudda_type_blocked(request, headers);
}

export function nosniffBlocked(engine, request, headers) {
  return engine.exports.fiorrudda_nosniff_blocked(request, headers);
}

export function integrity(engine, metadata, body) {
  const metadataAt = engine.lend(metadata);
  const metadataLen = engine.length;
  const bodyAt = engine.lend(body);
  const bodyLen = engine.length;
  const code = engine.exports.fiorrudda_integrity(metadataAt, metadataLen, bodyAt, bodyLen);
  engine.done();
  return code;
}

export function resourcePolicy(engine, page, url, headers) {
  const pageAt = engine.lend(page);
  const pageLen = engine.length;
  const urlAt = engine.lend(url);
  const urlLen = engine.length;
  const code = engine.exports.fiorrudda_resource_policy(pageAt, pageLen, urlAt, urlLen, headers);
  engine.done();
  return code;
}

export function client(engine, client, url, top, policy) {
  const urlAt = engine.lend(url);
  const urlLen = engine.length;
  const topAt = engine.lend(top);
  const topLen = engine.length;
  const code = engine.exports.fiorrudda_client(client, urlAt, urlLen, topAt, topLen, policy);
  engine.done();
  return code;
}

export function clientPolicy(engine, client, value, enforced) {
  const valueAt = engine.lend(value);
  const valueLen = engine.length;
  const code = engine.exports.fiorrudda_client_policy(client, valueAt, valueLen, enforced ? 1 : 0);
  engine.done();
  return code;
}

export function clientCookie(engine, client, url, value) {
  const urlAt = engine.lend(url);
  const urlLen = engine.length;
  const valueAt = engine.lend(value);
  const valueLen = engine.length;
  const code = engine.exports.fiorrudda_client_cookie(client, urlAt, urlLen, valueAt, valueLen);
  engine.done();
  return code;
}

export function request(engine, request, method, url) {
  const methodAt = engine.lend(method);
  const methodLen = engine.length;
  const urlAt = engine.lend(url);
  const urlLen = engine.length;
  const code = engine.exports.fiorrudda_request(request, methodAt, methodLen, urlAt, urlLen);
  engine.done();
  return code;
}

export function load(engine, request, kind, url) {
  const urlAt = engine.lend(url);
  const urlLen = engine.length;
  const code = engine.exports.fiorrudda_load(request, kind, urlAt, urlLen);
  engine.done();
  return code;
}

export function requestHeader(engine, request, name, value) {
  const nameAt = engine.lend(name);
  const nameLen = engine.length;
  const valueAt = engine.lend(value);
  const valueLen = engine.length;
  const code = engine.exports.fiorrudda_request_header(request, nameAt, nameLen, valueAt, valueLen);
  engine.done();
  return code;
}

export function requestText(engine, request, which, text) {
  const textAt = engine.lend(text);
  const textLen = engine.length;
  const code = engine.exports.fiorrudda_request_text(request, which, textAt, textLen);
  engine.done();
  return code;
}

export function requestChoose(engine, request, choice, number) {
  return engine.exports.fiorrudda_request_choose(request, choice, number);
}

export function policies(engine, policies, headers) {
  return engine.exports.fiorrudda_policies(policies, headers);
}

export function upgrades(engine, policies) {
  return engine.exports.fiorrudda_upgrades(policies);
}

export function check(engine, violations, policies, client, request, redirect, check) {
  const redirectAt = engine.lend(redirect);
  const redirectLen = engine.length;
  const code = engine.exports.fiorrudda_check(violations, policies, client, request, redirectAt, redirectLen, check);
  engine.done();
  return code;
}

export function violation(engine, violations, at) {
  const policyAt = engine.out();
  const enforcedAt = engine.out();
  const code = engine.exports.fiorrudda_violation(violations, BigInt(at), policyAt, enforcedAt);
  const answer = { code, policy: engine.outU32(policyAt), enforced: engine.outU32(enforcedAt) };
  engine.done();
  return answer;
}

export function violationDirective(engine, violations, at) {
  const answer = engine.written((room, roomLen, len) => engine.exports.fiorrudda_violation_directive(violations, BigInt(at), room, roomLen, len));
  engine.done();
  return answer;
}

export function violationUrl(engine, violations, at) {
  const answer = engine.written((room, roomLen, len) => engine.exports.fiorrudda_violation_url(violations, BigInt(at), room, roomLen, len));
  engine.done();
  return answer;
}

export function sourceMatches(engine, word, url, page, redirects) {
  const wordAt = engine.lend(word);
  const wordLen = engine.length;
  const urlAt = engine.lend(url);
  const urlLen = engine.length;
  const pageAt = engine.lend(page);
  const pageLen = engine.length;
  const code = engine.exports.fiorrudda_source_matches(wordAt, wordLen, urlAt, urlLen, pageAt, pageLen, redirects);
  engine.done();
  return code;
}

export function mixedUpgraded(engine, client, request, redirect) {
  const redirectAt = engine.lend(redirect);
  const redirectLen = engine.length;
  const code = engine.exports.fiorrudda_mixed_upgraded(client, request, redirectAt, redirectLen);
  engine.done();
  return code;
}

export function mixedBlocked(engine, client, request, redirect) {
  const redirectAt = engine.lend(redirect);
  const redirectLen = engine.length;
  const code = engine.exports.fiorrudda_mixed_blocked(client, request, redirectAt, redirectLen);
  engine.done();
  return code;
}

export function preflight(engine, client, request) {
  const answer = engine.written((room, roomLen, len) => engine.exports.fiorrudda_preflight(client, request, room, roomLen, len));
  engine.done();
  return answer;
}

export function verdict(engine, client, request, headers, status) {
  const errorAt = engine.out();
  const ageAt = engine.out();
  const code = engine.exports.fiorrudda_verdict(client, request, headers, status, errorAt, ageAt);
  const answer = { code, error: engine.outU32(errorAt), age: engine.outU64(ageAt) };
  engine.done();
  return answer;
}

export function refusedName(engine, client, request, headers, status) {
  const answer = engine.written((room, roomLen, len) => engine.exports.fiorrudda_refused_name(client, request, headers, status, room, roomLen, len));
  engine.done();
  return answer;
}

export function filtered(engine, filtered, client, request, headers, status, tainting) {
  const seenAt = engine.out();
  const code = engine.exports.fiorrudda_filtered(filtered, client, request, headers, status, tainting, seenAt);
  const answer = { code, seen: engine.outU32(seenAt) };
  engine.done();
  return answer;
}

export function book(engine, book) {
  return engine.exports.fiorrudda_book(book);
}

export function sts(engine, field) {
  const fieldAt = engine.lend(field);
  const fieldLen = engine.length;
  const ageAt = engine.out();
  const subdomainsAt = engine.out();
  const code = engine.exports.fiorrudda_sts(fieldAt, fieldLen, ageAt, subdomainsAt);
  const answer = { code, age: engine.outU64(ageAt), subdomains: engine.outU32(subdomainsAt) };
  engine.done();
  return answer;
}

export function noteHost(engine, book, host, field, now) {
  const hostAt = engine.lend(host);
  const hostLen = engine.length;
  const fieldAt = engine.lend(field);
  const fieldLen = engine.length;
  const code = engine.exports.fiorrudda_note_host(book, hostAt, hostLen, fieldAt, fieldLen, BigInt(now));
  engine.done();
  return code;
}

export function knownHost(engine, book, host, now) {
  const hostAt = engine.lend(host);
  const hostLen = engine.length;
  const code = engine.exports.fiorrudda_known_host(book, hostAt, hostLen, BigInt(now));
  engine.done();
  return code;
}

export function bookText(engine, book) {
  const answer = engine.written((room, roomLen, len) => engine.exports.fiorrudda_book_text(book, room, roomLen, len));
  engine.done();
  return answer;
}

export function bookOfText(engine, book, text) {
  const textAt = engine.lend(text);
  const textLen = engine.length;
  const lineAt = engine.out();
  const reasonAt = engine.out();
  const code = engine.exports.fiorrudda_book_of_text(book, textAt, textLen, lineAt, reasonAt);
  const answer = { code, line: engine.outU64(lineAt), reason: engine.outU32(reasonAt) };
  engine.done();
  return answer;
}

export function fetch(engine, fetch, client, request, now, limit) {
  const faultAt = engine.out();
  const headerAt = engine.out();
  const code = engine.exports.fiorrudda_fetch(fetch, client, request, BigInt(now), limit, faultAt, headerAt);
  const answer = { code, fault: engine.outU32(faultAt), header: engine.outU32(headerAt) };
  engine.done();
  return answer;
}

export function act(engine, fetch) {
  const actAt = engine.out();
  const code = engine.exports.fiorrudda_act(fetch, actAt);
  const answer = { code, act: engine.outU32(actAt) };
  engine.done();
  return answer;
}

export function ask(engine, fetch, book) {
  const replyAt = engine.out();
  const code = engine.exports.fiorrudda_ask(fetch, book, replyAt);
  const answer = { code, reply: engine.outU32(replyAt) };
  engine.done();
  return answer;
}

export function judge(engine, fetch, book, violations) {
  const actAt = engine.out();
  const code = engine.exports.fiorrudda_judge(fetch, book, violations, actAt);
  const answer = { code, act: engine.outU32(actAt) };
  engine.done();
  return answer;
}

export function toSend(engine, fetch) {
  const answer = engine.written((room, roomLen, len) => engine.exports.fiorrudda_to_send(fetch, room, roomLen, len));
  engine.done();
  return answer;
}

export function input(engine, fetch, input) {
  return engine.exports.fiorrudda_input(fetch, input);
}

export function feed(engine, fetch, bytes) {
  const bytesAt = engine.lend(bytes);
  const bytesLen = engine.length;
  const usedAt = engine.out();
  const code = engine.exports.fiorrudda_feed(fetch, bytesAt, bytesLen, usedAt);
  const answer = { code, used: engine.outU64(usedAt) };
  engine.done();
  return answer;
}

export function text(engine, fetch, which, at) {
  const answer = engine.written((room, roomLen, len) => engine.exports.fiorrudda_text(fetch, which, BigInt(at), room, roomLen, len));
  engine.done();
  return answer;
}

export function number(engine, fetch, which) {
  const numberAt = engine.out();
  const code = engine.exports.fiorrudda_number(fetch, which, numberAt);
  const answer = { code, number: engine.outU64(numberAt) };
  engine.done();
  return answer;
}

export function play(engine, scenario) {
  const scenarioAt = engine.lend(scenario);
  const scenarioLen = engine.length;
  const answer = engine.written((room, roomLen, len) => engine.exports.fiorrudda_play(scenarioAt, scenarioLen, room, roomLen, len));
  engine.done();
  return answer;
}

export function reports(engine, scenario) {
  const scenarioAt = engine.lend(scenario);
  const scenarioLen = engine.length;
  const answer = engine.written((room, roomLen, len) => engine.exports.fiorrudda_reports(scenarioAt, scenarioLen, room, roomLen, len));
  engine.done();
  return answer;
}

export function audit(engine, scenario, play) {
  const scenarioAt = engine.lend(scenario);
  const scenarioLen = engine.length;
  const playAt = engine.lend(play);
  const playLen = engine.length;
  const answer = engine.written((room, roomLen, len) => engine.exports.fiorrudda_audit(scenarioAt, scenarioLen, playAt, playLen, room, roomLen, len));
  engine.done();
  return answer;
}
