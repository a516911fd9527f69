// One `fetch` of a page: what the engine says is done over the network, and the engine told what came of it.
import { headOf, plainHead } from "./answers.js";
import { absolute } from "./asked.js";
import { Body, piecesOf } from "./bodies.js";
import { WrongCoding, codingsOf } from "./codings.js";
import { Client, Fetch, ScriptRequest, seen } from "./index.js";
import { isData, isLocal, localResponse } from "./local.js";
import { refusedBecause, refusedBy, refusedSince } from "./refused.js";
import { ENDS, responseOf } from "./responses.js";
import { withOwnHeaders } from "./sent.js";
import { why } from "./why.js";

// A page that names another URL of its origin as its referrer asks as that one would: only its origin counts otherwise.
function clientOf({ url, top, referrerPolicy, policies, cookies }, referrer) {
  return new Client(referrer === null ? url : referrer, { top, referrerPolicy, policies, cookies });
}

// The engine looks at no more of a data: URL than its scheme, which may be longer than a URL is there.
function requestOf(page, { url, referrer, request }) {
  if (isData(absolute(url, page.url))) {
    return new ScriptRequest("data:,", request);
  }
  return new ScriptRequest([null, page.url].includes(referrer) ? url : absolute(url, page.url), request);
}

export class Exchange {
  constructor(page, asked) {
    Object.assign(this, { page, asked, fetch: null, link: null, rest: null, body: null, origins: [], head: [] });
    this.includes = asked.request.credentials === "include";
    this.known = { includes: this.includes };
    this.limits = { now: Math.floor(page.now()), limit: page.limit };
    this.told = []; // the inputs of the fetch, so that another one can be told the same
    this.headAt = 0; // where those of the last head begin
    this.abort = () => this.#abort(asked.signal.reason);
  }

  async run() {
    this.#checkSignal();
    try {
      this.#begin();
      if (this.asked.signal !== null) {
        this.asked.signal.addEventListener("abort", this.abort);
      }
      await this.#untilBody();
      return await this.#response();
    } catch (error) {
      this.#close();
      throw error;
    }
  }

  #begin() {
    try {
      this.client = clientOf(this.page, this.asked.referrer);
      this.request = requestOf(this.page, this.asked);
      this.fetch = new Fetch(this.client, this.request, this.limits);
    } catch (error) {
      throw refusedSince(error);
    }
  }

  // A fetch that is told the same.
  #again() {
    const fetch = new Fetch(this.client, this.request, this.limits);
    this.told.forEach(([name, ...given]) => fetch[name](...given));
    return fetch;
  }

  #tell(name, ...given) {
    const came = this.fetch[name](...given);
    this.told.push([name, ...given]);
    return came;
  }

  // ---- acts

  // Does them until the body is to be read, or the fetch is over.
  async #untilBody() {
    for (const act of this.fetch) {
      if (act.kind === "readBody") {
        return;
      }
      await this.#do(act);
      this.#checkSignal();
    }
  }

  async #do(act) {
    if (act.kind === "ask") {
      this.told.push(["reply", this.fetch.ask(this.page.book)]);
    } else if (act.kind === "tell") {
      this.#violated(act);
      this.#tell("told");
    } else if (act.kind === "send") {
      await this.#send(act);
    } else {
      await this.#readHead();
    }
  }

  #violated({ policy, enforced, directive, url }) {
    const violation = { policy, enforced, directive, url };
    this.known.violation = enforced ? violation : this.known.violation;
    this.page.violations.push(violation);
  }

  async #send(act) {
    this.#hangUp();
    const origins = [...this.origins, act.origin];
    this.origins = act.preflight ? this.origins : origins;
    const includes = this.includes && !act.preflight;
    Object.assign(this.known, { sent: act, head: undefined, fault: undefined, includes });
    await this.#orFail(async () => {
      this.#checkCache();
      this.link = this.page.link(act.origin);
      await this.link.send(withOwnHeaders(this.page.url, this.asked, act, origins));
      this.#tell("sent");
    });
    Object.assign(this, { head: [], headAt: this.told.length });
  }

  // Nothing is cached here.
  #checkCache() {
    if (this.asked.cache === "only-if-cached") {
      throw Object.assign(new Error("nothing is cached, and the cache mode is only-if-cached"), { code: "NOT_CACHED" });
    }
  }

  async #readHead() {
    await this.#orFail(async () => {
      const isLeft = this.rest !== null && this.rest.length > 0;
      const piece = isLeft ? this.rest : await this.link.next();
      this.rest = null;
      if (piece === null) {
        this.#tell("ended");
        return;
      }
      const used = this.#tell("feed", piece);
      this.rest = piece.subarray(used);
      this.head.push(piece.subarray(0, used));
      this.known.head = headOf(Buffer.concat(this.head));
    });
  }

  // What a connection fails in is told to the fetch; what else goes wrong is thrown.
  async #orFail(work) {
    try {
      await work();
    } catch (fault) {
      this.#checkSignal();
      if (typeof fault.code !== "string") {
        throw fault;
      }
      this.known.fault = fault;
      this.#tell("failed");
    }
  }

  // ---- what it comes to

  async #response() {
    const { outcome } = this.fetch;
    if (outcome === null) {
      return this.#withBody(null);
    }
    if (outcome.kind !== "error") {
      return this.#shownAtOnce(outcome, null);
    }
    const codings = outcome.name === "Coding" ? codingsOf(this.known.head) : null;
    if (codings !== null) {
      this.#withoutCoding();
      return this.#withBody(codings);
    }
    return outcome.name === "Scheme" ? this.#local(outcome) : this.#refuse(outcome);
  }

  #refuse(outcome) {
    const { number, name, header } = outcome;
    throw refusedBecause({ number, name, why: why(outcome, this.known), ...(header === null ? {} : { header }) });
  }

  async #local(outcome) {
    const url = absolute(this.asked.url, this.page.url);
    if (!isLocal(url)) {
      return this.#refuse(outcome);
    }
    const { client, request, page: { policies } } = this;
    const tell = (violation) => this.#violated(violation);
    const response = await localResponse(url, this.asked, { policies, client, request, tell });
    this.#checkSignal();
    this.#close();
    return response;
  }

  #shown(outcome, body) {
    const isSeen = outcome.status !== 0;
    return responseOf(outcome, { body, redirected: isSeen && this.origins.length > 1,
      statusText: isSeen && this.known.head ? this.known.head.statusText : "" });
  }

  // The fetch as it stands where the head names no coding: the body is decoded before the engine reads it.
  #withoutCoding() {
    const later = this.told.slice(this.headAt).filter(([name]) => name !== "feed");
    this.told = [...this.told.slice(0, this.headAt), ["feed", plainHead(Buffer.concat(this.head))], ...later];
    this.fetch.free();
    this.fetch = this.#again();
  }

  // The response is there at once, unless its body has to match an integrity text first.
  async #withBody(codings) {
    if (this.asked.request.integrity) {
      return this.#wholeBody(codings);
    }
    const outcome = this.#seenOf(this.#outcomeOfHead(), codings);
    this.body = new Body(() => this.#letGo());
    this.#streamBody(codings).finally(() => this.#free());
    return this.#shown(outcome, this.body.stream);
  }

  async #wholeBody(codings) {
    try {
      await this.#readBody(codings, () => {});
    } catch (fault) {
      throw fault instanceof WrongCoding ? refusedBy("Coding", "What came is refused: " + fault.message + ".") : fault;
    }
    this.#checkSignal();
    const { outcome } = this.fetch;
    if (outcome.kind === "error") {
      this.#refuse(outcome);
    }
    return this.#shownAtOnce(outcome, codings);
  }

  // Of a fetch that is over.
  #shownAtOnce(outcome, codings) {
    const whole = this.#seenOf(outcome, codings);
    if (outcome.end === "null") {
      this.#close();
      return this.#shown(whole, null);
    }
    this.body = new Body(() => this.#letGo());
    this.#endBody(null);
    this.#free();
    return this.#shown(whole, this.body.stream);
  }

  // As of a fetch whose link fails in the body: its head is the same.
  #outcomeOfHead() {
    const fetch = this.#again();
    try {
      fetch.failed();
      return fetch.outcome;
    } finally {
      fetch.free();
    }
  }

  // With the headers of the head that came.
  #seenOf(outcome, codings) {
    const { status, type } = outcome;
    return codings === null ? outcome
      : { ...outcome, headers: seen(this.client, this.request, status, this.known.head.headers, type).headers };
  }

  // ---- the body

  // Reads it until the engine says that it is over. Gives what came last, which was not shown.
  async #readBody(codings, show) {
    const ended = { fault: null };
    const { known: { head }, rest: first, link } = this;
    for await (const { fed, shown } of piecesOf({ head, first, link, codings, ended })) {
      this.fetch.feed(fed);
      if (this.fetch.next().done) {
        return shown;
      }
      show(shown);
    }
    this.fetch[ended.fault === null ? "ended" : "failed"]();
    return null;
  }

  async #streamBody(codings) {
    try {
      this.#endBody(await this.#readBody(codings, (data) => this.body.add(data)));
    } catch (fault) {
      this.body.end(fault instanceof WrongCoding ? new TypeError(fault.message) : fault);
    }
  }

  // The engine says what all of it is, and how it ended.
  #endBody(last) {
    const { end, count, body } = this.fetch.outcome;
    if (end === "whole") {
      this.body.add(body.subarray(this.body.count));
      this.body.end();
      return;
    }
    if (last !== null) {
      this.body.add(last.subarray(0, Math.max(0, count - this.body.count)));
    }
    this.body.end(new TypeError(ENDS[end]));
  }

  // ---- its end

  #checkSignal() {
    if (this.asked.signal !== null && this.asked.signal.aborted) {
      throw this.asked.signal.reason;
    }
  }

  #abort(reason) {
    if (this.link !== null) {
      this.link.close(reason);
    }
    if (this.body !== null) {
      this.body.abort(reason);
    }
  }

  #hangUp() {
    if (this.link !== null) {
      this.link.close();
      this.link = null;
    }
    this.rest = null;
  }

  // Nothing is to come any more.
  #letGo() {
    this.#hangUp();
    if (this.asked.signal !== null) {
      this.asked.signal.removeEventListener("abort", this.abort);
    }
  }

  #free() {
    this.#hangUp();
    [this.client, this.request, this.fetch].filter(Boolean).forEach((thing) => thing.free());
  }

  #close() {
    this.#letGo();
    this.#free();
  }
}
