// The rules of a browser's fetch, whole fetches by their acts, and whole plays of scenarios: index.d.ts tells each.
import * as calls from "./calls.js";
import { ACT, CALL, CHECK, CHOOSE, CODE, END, INPUT, LOAD, NUMBER, OUTCOME, REASON, REQUEST, TAINTING, TEXT } from "./calls.js";
import { ERRORS, FiorruddaError, NotAHeader, OutOfMemory, TooLate, WrongHandle } from "./errors.js";
import { load } from "./load.js";
import { CREDENTIALS, CROSSORIGINS, LOADS, MODES, NETWORK_ERRORS, REDIRECTS, REFERRER_POLICIES, REQUEST_FAULTS }
  from "./names.js";
import { ERROR_TEXTS, FAULT_TEXTS } from "./refusals.js";

export { FiorruddaError, NoSuchNumber, NotAHeader, NotAHost, NotAUrl, NotAwaited, NotHttp, OutOfMemory, TooLate, WrongHandle }
  from "./errors.js";

const engine = await load();
const decoder = new TextDecoder("utf-8");
const dispose = Symbol.dispose || Symbol.for("Symbol.dispose");

// ---- errors

export class NoRequest extends FiorruddaError {
  constructor(number, header) {
    const fault = nameOf(REQUEST_FAULTS, number) || null;
    super(fault === null ? "No request can be made of what is asked for." : FAULT_TEXTS[fault][0] + " (" + fault + ")",
      CODE.NO_REQUEST);
    const why = fault === null ? null : FAULT_TEXTS[fault][0];
    Object.assign(this, { number, fault, why, header: fault === "BadHeader" ? header : null });
  }
}
NoRequest.prototype.name = "NoRequest";

export class NotABook extends FiorruddaError {
  constructor(line, number) {
    const reason = pascal(Object.keys(REASON)[number]);
    super("It is not the text of a book, from line " + line + " on: " + reason + ".", CODE.NO);
    Object.assign(this, { line, number, reason });
  }
}
NotABook.prototype.name = "NotABook";

export class NotAScenario extends FiorruddaError {
  constructor(place) {
    super(place === "json" ? "The scenario is no JSON." : "The scenario is refused at " + place + ".", CODE.NO);
    this.place = place;
  }
}
NotAScenario.prototype.name = "NotAScenario";

function pascal(name) {
  return name.split("_").map((word) => word[0] + word.slice(1).toLowerCase()).join("");
}

// Whether it holds; or the error that the code stands for.
function told(code) {
  if (code === CODE.OK || code === CODE.NO) {
    return code === CODE.OK;
  }
  if (code === CODE.NO_REQUEST) {
    throw new NoRequest(0, 0);
  }
  throw new (ERRORS.get(code) || FiorruddaError)();
}

// ---- texts and numbers

function bytesOrNull({ code, bytes }) {
  return told(code) ? bytes : null;
}

function latin1(bytes) {
  let text = "";
  for (let at = 0; at < bytes.length; at += 8192) {
    text += String.fromCharCode(...bytes.subarray(at, at + 8192));
  }
  return text;
}

// A text of bytes, each a character, as headers are in JavaScript.
function textOrNull(answer) {
  const bytes = bytesOrNull(answer);
  return bytes === null ? null : latin1(bytes);
}

function eachText(call) {
  const found = [];
  for (let text = textOrNull(call(0)); text !== null; text = textOrNull(call(found.length))) {
    found.push(text);
  }
  return found;
}

function nameOf(table, number) {
  return Object.keys(table).find((name) => table[name] === number);
}

function numberOf(table, word, what) {
  if (!Object.hasOwn(table, word)) {
    throw new TypeError(JSON.stringify(word) + " is no " + what + ": it is one of "
      + Object.keys(table).map((name) => JSON.stringify(name)).join(", "));
  }
  return table[word];
}

function whole(number, most, what) {
  if (!Number.isInteger(number) || number < 0 || number > most) {
    throw new RangeError(number + " is no " + what);
  }
  return number;
}

function time(now) {
  if (!Number.isFinite(now) || now < 0 || now >= 2 ** 48) {
    throw new TooLate(now + " is no time in seconds");
  }
  return Math.floor(now);
}

// A header's value in JavaScript is a string of bytes.
function headerText(text) {
  if (typeof text !== "string") {
    return text;
  }
  if (/^[\0-\x7f]*$/.test(text)) {
    return text;
  }
  const bytes = new Uint8Array(text.length);
  for (let at = 0; at < text.length; at += 1) {
    const code = text.charCodeAt(at);
    if (code > 255) {
      throw new NotAHeader();
    }
    bytes[at] = code;
  }
  return bytes;
}

function pairsOf(headers) {
  return typeof headers[Symbol.iterator] === "function" ? headers : Object.entries(headers);
}

// ---- what the engine holds

const freed = new FinalizationRegistry((at) => engine.free(at));

function newHandle() {
  const at = engine.handle();
  if (at === 0n) {
    throw new OutOfMemory();
  }
  return at;
}

class Thing {
  #at;

  constructor(make) {
    const at = newHandle();
    this.#at = at;
    try {
      told(make(at));
    } catch (error) {
      this.#at = null;
      engine.free(at);
      throw error;
    }
    freed.register(this, at, this);
  }

  free() {
    if (this.#at !== null) {
      freed.unregister(this);
      engine.free(this.#at);
      this.#at = null;
    }
  }

  [dispose]() {
    this.free();
  }

  static at(thing) {
    if (typeof thing !== "object" || thing === null || !(#at in thing)) {
      throw new TypeError("it is nothing that this package has made");
    }
    if (thing.#at === null) {
      throw new WrongHandle("It was freed.");
    }
    return thing.#at;
  }
}

const { at: handleOf } = Thing;

// ---- header lists

function append(list, name, value) {
  told(calls.append(engine, list, headerText(name), headerText(value)));
}

// Calls `use` with the handle of a list; one that is made for it is freed then.
function withList(headers = [], use) {
  if (headers instanceof HeaderList) {
    return use(handleOf(headers));
  }
  const list = newHandle(); // no registry has to know what nobody else holds
  try {
    told(calls.headers(engine, list));
    for (const [name, value] of pairsOf(headers)) {
      append(list, name, value);
    }
    return use(list);
  } finally {
    engine.free(list);
  }
}

export class HeaderList extends Thing {
  constructor(headers = []) {
    super((at) => calls.headers(engine, at));
    try {
      for (const [name, value] of pairsOf(headers)) {
        this.append(name, value);
      }
    } catch (error) {
      this.free();
      throw error;
    }
  }

  append(name, value) {
    append(handleOf(this), name, value);
    return this;
  }

  get(name) {
    return textOrNull(calls.get(engine, handleOf(this), headerText(name)));
  }

  * [Symbol.iterator]() {
    for (let at = 0; ; at += 1) {
      const name = textOrNull(calls.nameAt(engine, handleOf(this), at));
      if (name === null) {
        return;
      }
      yield [name, textOrNull(calls.valueAt(engine, handleOf(this), at))];
    }
  }
}

// ---- origins, sites, ports and the referrer

export function origin(url) {
  return textOrNull(calls.origin(engine, url));
}

export function sameOrigin(a, b) {
  return told(calls.sameOrigin(engine, a, b));
}

export function sameSite(a, b) {
  return told(calls.sameSite(engine, a, b));
}

export function isTrustworthy(url) {
  return told(calls.trustworthy(engine, url));
}

export function isBadPort(url) {
  return told(calls.badPort(engine, url));
}

function referrerPolicy(word) {
  return numberOf(REFERRER_POLICIES, word, "referrer policy");
}

export function referrer(page, url, policy = "") {
  return textOrNull(calls.referrer(engine, referrerPolicy(policy), page, url));
}

// ---- CORS, and what scripts may send

export function corsCheck(requestOrigin, headers, include = false) {
  if (headers instanceof HeaderList) {
    return told(calls.corsCheck(engine, requestOrigin, include, handleOf(headers)));
  }
  return withList(headers, (list) => told(calls.corsCheck(engine, requestOrigin, include, list)));
}

export function exposedNames(headers, include = false) {
  return withList(headers, (list) => eachText((at) => calls.exposedName(engine, list, include, at)));
}

export function isSafelisted(name, value) {
  return told(calls.safelisted(engine, headerText(name), headerText(value)));
}

export function unsafeNames(headers) {
  return withList(headers, (list) => eachText((at) => calls.unsafeName(engine, list, at)));
}

export function isForbiddenHeader(name, value) {
  return told(calls.forbiddenHeader(engine, headerText(name), headerText(value)));
}

export function isForbiddenMethod(method) {
  return told(calls.forbiddenMethod(engine, method));
}

// ---- answers

export function essence(headers) {
  return withList(headers, (list) => textOrNull(calls.essence(engine, list)));
}

export function saysNosniff(headers) {
  return withList(headers, (list) => told(calls.nosniff(engine, list)));
}

export function isTypeBlocked(request, headers) {
  return withList(headers, (list) => told(calls.typeBlocked(engine, handleOf(request), list)));
}

export function isNosniffBlocked(request, headers) {
  return withList(headers, (list) => told(calls.nosniffBlocked(engine, handleOf(request), list)));
}

export function matchesIntegrity(metadata, body) {
  return told(calls.integrity(engine, metadata, body));
}

export function isKeptFrom(page, url, headers) {
  return withList(headers, (list) => told(calls.resourcePolicy(engine, page, url, list)));
}

// ---- clients and requests

// The values of policies' headers, and whether each is enforced.
function valuesOf(policies) {
  if (typeof policies === "string") {
    throw new TypeError("policies are a list of header values, and not one text");
  }
  return policies instanceof Policies ? policies.values : Array.from(policies, (value) => [value, true]);
}

export class Client extends Thing {
  constructor(url, { top = url, referrerPolicy: policy = "", policies = [], cookies = [] } = {}) {
    super((at) => calls.client(engine, at, url, top, referrerPolicy(policy)));
    valuesOf(policies).forEach(([value, enforced]) => told(calls.clientPolicy(engine, handleOf(this), headerText(value), enforced)));
    for (const [address, value] of pairsOf(cookies)) {
      told(calls.clientCookie(engine, handleOf(this), address, headerText(value)));
    }
  }
}

class Asked extends Thing {
  choose(choice, number) {
    told(calls.requestChoose(engine, handleOf(this), choice, number));
  }

  write(which, text) {
    told(calls.requestText(engine, handleOf(this), which, text));
  }
}

export class ScriptRequest extends Asked {
  constructor(url, init = {}) {
    const { method = "GET", mode = "cors", credentials = "same-origin", redirect = "follow", headers = [], body = null,
      referrer: sent = true, referrerPolicy: policy = "", integrity = "", upload = false } = init;
    super((at) => calls.request(engine, at, method, url));
    this.choose(CHOOSE.MODE, numberOf(MODES, mode, "mode"));
    this.choose(CHOOSE.CREDENTIALS, numberOf(CREDENTIALS, credentials, "credentials mode"));
    this.choose(CHOOSE.REDIRECT, numberOf(REDIRECTS, redirect, "redirect mode"));
    this.choose(CHOOSE.REFERRER, sent ? 1 : 0);
    this.choose(CHOOSE.REFERRER_POLICY, referrerPolicy(policy));
    this.choose(CHOOSE.UPLOAD, upload ? 1 : 0);
    for (const [name, value] of pairsOf(headers)) {
      told(calls.requestHeader(engine, handleOf(this), headerText(name), headerText(value)));
    }
    if (body !== null) {
      this.write(REQUEST.BODY, body);
    }
    this.write(REQUEST.INTEGRITY, integrity);
  }
}

export class Load extends Asked {
  constructor(kind, url, init = {}) {
    const { crossorigin = null, nonce = "", integrity = "", parser = false, referrerPolicy: policy = "" } = init;
    super((at) => calls.load(engine, at, numberOf(LOADS, kind, "kind of a load"), url));
    if (crossorigin !== null) {
      this.choose(CHOOSE.CROSSORIGIN, numberOf(CROSSORIGINS, crossorigin, "crossorigin attribute"));
    }
    this.choose(CHOOSE.PARSER, parser ? 1 : 0);
    this.choose(CHOOSE.REFERRER_POLICY, referrerPolicy(policy));
    this.write(REQUEST.NONCE, nonce);
    this.write(REQUEST.INTEGRITY, integrity);
  }
}

// ---- policies and mixed content

const POLICY_HEADERS = { "content-security-policy": true, "content-security-policy-report-only": false };
const CHECKS = wordsOf(CHECK);

// The words of numbers, as `report-only` of REPORT_ONLY.
function wordsOf(numbers, between = "-") {
  return Object.fromEntries(Object.entries(numbers).map(([name, number]) => [name.toLowerCase().replace(/_/g, between),
    number]));
}

class Compiled extends Thing {
  constructor(list) {
    super((at) => calls.policies(engine, at, list));
  }
}

class Found extends Thing {}

export class Policies {
  #compiled;

  constructor(enforced = [], reportOnly = []) {
    this.values = [...valuesOf(enforced), ...valuesOf(reportOnly).map(([value]) => [value, false])];
    const names = Object.keys(POLICY_HEADERS);
    this.#compiled = withList(this.values.map(([value, isEnforced]) => [names[isEnforced ? 0 : 1], value]),
      (list) => new Compiled(list));
  }

  static ofHeaders(headers) {
    const given = [...pairsOf(headers)].map(([name, value]) => [String(name).toLowerCase(), value]);
    const [enforced, reportOnly] = Object.keys(POLICY_HEADERS).map((wanted) => given.filter(([name]) => name === wanted)
      .map(([, value]) => value));
    return new Policies(enforced, reportOnly);
  }

  get upgrades() {
    return told(calls.upgrades(engine, handleOf(this.#compiled)));
  }

  violations(client, request, { of = "enforced", redirect = "" } = {}) {
    const check = numberOf(CHECKS, of, "check");
    const found = new Found((at) => {
      const code = calls.check(engine, at, handleOf(this.#compiled), handleOf(client), handleOf(request), redirect, check);
      return code === CODE.NO ? CODE.OK : code;
    });
    try {
      return violationsIn(handleOf(found));
    } finally {
      found.free();
    }
  }

  free() {
    this.#compiled.free();
  }

  [dispose]() {
    this.free();
  }
}

function violationsIn(found) {
  const listed = [];
  for (let at = 0; ; at += 1) {
    const { code, policy, enforced } = calls.violation(engine, found, at);
    if (!told(code)) {
      return listed;
    }
    listed.push({ policy, enforced: enforced === 1, directive: textOrNull(calls.violationDirective(engine, found, at)),
      url: textOrNull(calls.violationUrl(engine, found, at)) });
  }
}

export function sourceMatches(word, url, page, redirects = 0) {
  return told(calls.sourceMatches(engine, word, url, page, whole(redirects, 2 ** 32 - 1, "number of redirects")));
}

export function isMixedUpgraded(client, request, redirect = "") {
  return told(calls.mixedUpgraded(engine, handleOf(client), handleOf(request), redirect));
}

export function isMixedBlocked(client, request, redirect = "") {
  return told(calls.mixedBlocked(engine, handleOf(client), handleOf(request), redirect));
}

// ---- preflights, and what a page sees

function status(number) {
  return whole(number, 65535, "status");
}

export function preflight(client, request) {
  return bytesOrNull(calls.preflight(engine, handleOf(client), handleOf(request)));
}

function networkError(number, header) {
  const name = nameOf(NETWORK_ERRORS, number);
  return { number, name, header, why: ERROR_TEXTS[name][0] };
}

export function preflightVerdict(client, request, answered, headers) {
  return withList(headers, (list) => {
    const given = [engine, handleOf(client), handleOf(request), list, status(answered)];
    const { code, error, age } = calls.verdict(...given);
    return told(code) ? { passes: true, age, error: null }
      : { passes: false, age: null, error: networkError(error, textOrNull(calls.refusedName(...given))) };
  });
}

const TAINTINGS = wordsOf(TAINTING);

class Filtered extends HeaderList {
  fill(make) {
    const { code, seen: shown } = make(handleOf(this));
    told(code);
    return { status: shown, headers: [...this] };
  }
}

export function seen(client, request, answered, headers, tainting = "cors") {
  const kind = numberOf(TAINTINGS, tainting, "tainting");
  const found = new Filtered();
  try {
    return withList(headers, (list) => found.fill((at) => calls.filtered(engine, at, handleOf(client), handleOf(request),
      list, status(answered), kind)));
  } finally {
    found.free();
  }
}

// ---- books

export function parseSts(field) {
  const { code, age, subdomains } = calls.sts(engine, headerText(field));
  return told(code) ? { maxAge: age, includeSubdomains: subdomains === 1 } : null;
}

export class Book extends Thing {
  constructor() {
    super((at) => calls.book(engine, at));
  }

  static read(text) {
    const book = new Book();
    const { code, line, reason } = calls.bookOfText(engine, handleOf(book), text);
    if (!told(code)) {
      book.free();
      throw new NotABook(line, reason);
    }
    return book;
  }

  export() {
    return bytesOrNull(calls.bookText(engine, handleOf(this)));
  }

  note(host, field, now) {
    return told(calls.noteHost(engine, handleOf(this), host, headerText(field), time(now)));
  }

  isKnown(host, now) {
    return told(calls.knownHost(engine, handleOf(this), host, time(now)));
  }
}

// ---- a whole fetch

const BOOK_CALLS = Object.keys(CALL).map((name) => name.toLowerCase());
const ENDS = Object.keys(wordsOf(END, ""));

export class Fetch extends Thing {
  constructor(client, request, { now = 0, limit = 2 ** 20 } = {}) {
    whole(limit, 2 ** 32 - 1, "number of bytes");
    super((at) => {
      const { code, fault, header } = calls.fetch(engine, at, handleOf(client), handleOf(request), time(now), limit);
      if (code === CODE.NO_REQUEST) {
        throw new NoRequest(fault, header);
      }
      return code;
    });
  }

  [Symbol.iterator]() {
    return this;
  }

  next() {
    const act = this.#act();
    if (act === ACT.OVER || act === ACT.GONE) {
      return { done: true, value: undefined };
    }
    return { done: false, value: this.#shown(act) };
  }

  judge(book) {
    const found = new Found(() => CODE.OK);
    try {
      return this.#judged(handleOf(book), handleOf(found));
    } finally {
      found.free();
    }
  }

  // A call that goes on for long ends before the network is needed.
  #judged(book, found) {
    const { code, act } = calls.judge(engine, handleOf(this), book, found);
    told(code);
    const listed = violationsIn(found);
    return act === ACT.ASK || act === ACT.TELL ? [...listed, ...this.#judged(book, found)] : listed;
  }

  // ---- what came of an act

  ask(book) {
    const { code, reply } = calls.ask(engine, handleOf(this), handleOf(book));
    told(code);
    return reply === INPUT.YES ? true : reply === INPUT.NO ? false : null;
  }

  reply(said = null) {
    this.#input(said === null ? INPUT.DONE : said ? INPUT.YES : INPUT.NO);
  }

  sent() {
    this.#input(INPUT.SENT);
  }

  told() {
    this.#input(INPUT.TOLD);
  }

  ended() {
    this.#input(INPUT.ENDED);
  }

  failed() {
    this.#input(INPUT.FAILED);
  }

  feed(bytes) {
    const { code, used } = calls.feed(engine, handleOf(this), bytes);
    told(code);
    return used;
  }

  // ---- what it came to

  get outcome() {
    if (this.#act() !== ACT.OVER) {
      return null;
    }
    const what = this.#number(NUMBER.OUTCOME);
    if (what === OUTCOME.LOADED) {
      return { kind: "loaded" };
    }
    return what === OUTCOME.RESPONSE ? this.#response()
      : { kind: "error", ...networkError(this.#number(NUMBER.ERROR), this.#text(TEXT.REFUSED)) };
  }

  #response() {
    return { kind: "response", type: this.#text(TEXT.WORD), status: this.#number(NUMBER.STATUS), url: this.#text(TEXT.URL),
      headers: this.#headers(), end: ENDS[this.#number(NUMBER.END)], count: this.#number(NUMBER.COUNT),
      body: this.#bytes(TEXT.BODY) };
  }

  #act() {
    const { code, act } = calls.act(engine, handleOf(this));
    told(code);
    return act;
  }

  #shown(act) {
    if (act === ACT.ASK) {
      return this.#asked();
    }
    if (act === ACT.SEND) {
      return { kind: "send", origin: this.#text(TEXT.ORIGIN), bytes: bytesOrNull(calls.toSend(engine, handleOf(this))),
        preflight: this.#flag(NUMBER.PREFLIGHT), method: this.#text(TEXT.METHOD), target: this.#text(TEXT.URL),
        headers: this.#headers(), body: this.#bytes(TEXT.BODY) };
    }
    if (act === ACT.TELL) {
      return { kind: "tell", policy: this.#number(NUMBER.POLICY), enforced: this.#flag(NUMBER.ENFORCED),
        directive: this.#text(TEXT.WORD), url: this.#text(TEXT.URL) };
    }
    return { kind: act === ACT.READ_HEAD ? "readHead" : "readBody" };
  }

  #asked() {
    return { kind: "ask", call: BOOK_CALLS[this.#number(NUMBER.CALL)], time: this.#number(NUMBER.TIME),
      host: this.#text(TEXT.HOST), age: this.#number(NUMBER.AGE), includeSubdomains: this.#flag(NUMBER.SUBDOMAINS),
      key: this.#text(TEXT.KEY), origin: this.#text(TEXT.ORIGIN), url: this.#text(TEXT.URL),
      include: this.#flag(NUMBER.INCLUDE), method: this.#text(TEXT.METHOD), names: this.#texts(TEXT.NAME),
      methods: this.#texts(TEXT.LEARNT) };
  }

  #input(number) {
    told(calls.input(engine, handleOf(this), number));
  }

  #number(which) {
    const { code, number } = calls.number(engine, handleOf(this), which);
    return told(code) ? number : null;
  }

  #flag(which) {
    const number = this.#number(which);
    return number === null ? null : number === 1;
  }

  #bytes(which) {
    return bytesOrNull(calls.text(engine, handleOf(this), which, 0));
  }

  #text(which) {
    return textOrNull(calls.text(engine, handleOf(this), which, 0));
  }

  #texts(which) {
    return eachText((at) => calls.text(engine, handleOf(this), which, at));
  }

  #headers() {
    const values = this.#texts(TEXT.HEADER_VALUE);
    return this.#texts(TEXT.HEADER_NAME).map((name, at) => [name, values[at]]);
  }
}

// ---- a request that is judged

function sendsOf({ origin: server, target, method, headers }) {
  const valueOf = (wanted) => (headers.find(([name]) => name.toLowerCase() === wanted) || [null, null])[1];
  const [asked, names] = [valueOf("access-control-request-method"), valueOf("access-control-request-headers")];
  return { url: server + target, method, headers,
    preflight: asked === null ? null : { method: asked, names: names === null ? [] : names.split(",") },
    origin: valueOf("origin"), referrer: valueOf("referer"), cookies: valueOf("cookie") };
}

// What is asked before a request is sent changes no book.
const NO_BOOK = new Book();

export function judge(client, request, { book = NO_BOOK, now = 0 } = {}) {
  const fetch = new Fetch(client, request, { now });
  try {
    const violations = fetch.judge(book);
    const { value: sent } = fetch.next();
    const { kind, ...refusal } = fetch.outcome || {};
    return { sends: sent ? sendsOf(sent) : null, refusal: kind === "error" ? refusal : null, violations };
  } finally {
    fetch.free();
  }
}

// ---- a whole play

function jsonOf(scenario) {
  const isText = typeof scenario === "string" || ArrayBuffer.isView(scenario) || scenario instanceof ArrayBuffer;
  return isText ? scenario : JSON.stringify(scenario);
}

function played({ code, bytes }) {
  if (code === CODE.NO) {
    throw new NotAScenario(decoder.decode(bytes));
  }
  told(code);
  return decoder.decode(bytes);
}

export function play(scenario) {
  return played(calls.play(engine, jsonOf(scenario)));
}

export function reports(scenario) {
  return played(calls.reports(engine, jsonOf(scenario)));
}

const NO_PLAY = "not a play: ";

export function audit(scenario, text) {
  const { code, bytes } = calls.audit(engine, jsonOf(scenario), text);
  return told(code) ? null : decoder.decode(bytes).slice(NO_PLAY.length).trimEnd();
}
