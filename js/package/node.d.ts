// `fetch` as a page of a browser has it, for tests in Node.
import type { Book, NetworkErrorName, Policies, ReferrerPolicy, RequestFault, Text, Violation } from "./index.js";

/** Where a server is: its port on 127.0.0.1, `host:port`, a URL, or a server of node:http that listens. It is spoken to
 * without TLS, unless an https URL names it or it is a server of TLS. */
export type Place = number | string | { address(): unknown };

/** What `cause` is of the TypeError with which a `fetch` rejects: the engine's name, and why. */
export type Cause = ErrorCause | FaultCause;

/** A network error. */
export interface ErrorCause {
  readonly number: number;
  readonly faultNumber?: undefined;
  readonly name: NetworkErrorName;
  readonly why: string;
  /** The header that a preflight did not allow. */
  readonly header?: string;
}

/** No request can be made. Its faults have numbers of their own. */
export interface FaultCause {
  readonly faultNumber: number;
  readonly number?: undefined;
  readonly name: RequestFault;
  readonly why: string;
  readonly header?: undefined;
}

export interface PageInit {
  /** The URL of the page at the top, where this one is embedded. */
  top?: string;
  /** `Policies`, or values of Content-Security-Policy headers. */
  policies?: Policies | Iterable<Text>;
  /** For each origin the value of its Cookie header. Answers do not change it. */
  cookies?: Record<string, string>;
  referrerPolicy?: ReferrerPolicy;
  /** Known HSTS hosts and the preflight cache, which pages may share. */
  book?: Book;
  /** Places of this page's own, before those of `Page.connectTo`. */
  connectTo?: Record<string, Place>;
  /** Options of `tls.connect`, as `ca`. */
  tls?: object;
  /** The time in seconds: that of the clock where it is left out. */
  now?: () => number;
  /** How many bytes a body may have: 2^26 where it is left out. */
  limit?: number;
}

/** A page, and its `fetch`. */
export class Page {
  /** Has requests go to servers of the test: each an origin, a host or `*`, and where it leads. */
  static connectTo(places: Record<string, Place>): void;
  /** Nothing is mapped any more. */
  static connectToNone(): void;
  constructor(url: string | URL, init?: PageInit);
  readonly url: string;
  readonly origin: string;
  cookies: Record<string, string>;
  book: Book;
  /** The violations of the page's policies, in the order in which they came. */
  readonly violations: Violation[];
  /** What the page's own `fetch` does. It may be handed on by itself, as `globalThis.fetch = page.fetch`. It resolves
   * with the head, or with `integrity` once the body has come, and rejects where the page's would. The body comes as a
   * stream, which `signal` ends; one that is cut, or not what Content-Encoding says, fails while it is read. A page adds
   * Sec-Fetch-Site, -Mode and -Dest to the head that the engine says is sent, names gzip, deflate and br as codings, and
   * what `cache` asks of caches: none is here. Bodies that are sent are no streams. `data:` and `blob:` URLs are read by
   * Node's own `fetch`, once the policies let them pass. */
  fetch(this: void, input: string | URL | Request, init?: RequestInit): Promise<Response>;
}
