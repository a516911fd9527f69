// `fetch` as a page of a browser has it, for tests in Node: over node:net and node:tls, with the rules of the engine.
import { askedOf } from "./asked.js";
import { Exchange } from "./exchange.js";
import { Book, Client, Policies, origin as originOf } from "./index.js";
import { Link, placeFor, placeOf } from "./link.js";

export class Page {
  static #places = new Map();

  // Has requests go to servers of the test, whatever names resolve to: each an origin, a host or `*`, and where it leads.
  static connectTo(places) {
    Object.entries(places).forEach(([name, given]) => Page.#places.set(name, placeOf(given)));
  }

  // Nothing is mapped any more.
  static connectToNone() {
    Page.#places.clear();
  }

  constructor(url, options = {}) {
    const { top = url, policies = [], cookies = {}, referrerPolicy = "", book = new Book(), connectTo = {}, tls = {},
      now = () => Date.now() / 1000, limit = 2 ** 26 } = options;
    Object.assign(this, { url: String(url), top: String(top), cookies, referrerPolicy, book, tls, now, limit });
    this.policies = policies instanceof Policies ? policies : new Policies(policies);
    this.origin = originOf(this.url);
    this.violations = [];
    this.places = new Map(Object.entries(connectTo).map(([name, given]) => [name, placeOf(given)]));
    this.fetch = this.fetch.bind(this);
    new Client(this.url, { top: this.top, referrerPolicy }).free(); // so that what is no page is refused here
  }

  link(origin) {
    return new Link(placeFor(origin, [this.places, Page.#places]), new URL(origin).hostname, this.tls);
  }

  // What the page's own `fetch` does.
  async fetch(input, init = {}) {
    return new Exchange(this, await askedOf(this.url, input, init)).run();
  }
}
