// Written by embed/header: do not edit.
// The rules of a browser's fetch, whole fetches by their acts, and whole plays of scenarios.

declare global {
  interface SymbolConstructor {
    readonly dispose: unique symbol;
  }
}

/** A string, which is encoded as UTF-8, or bytes. */
export type Text = string | Uint8Array;
/** Headers: a `HeaderList`, pairs of a name and a value, as in a `Headers`, or an object. A string is one of bytes. */
export type HeaderPairs = HeaderList | readonly (readonly [Text, Text])[] | Iterable<readonly [Text, Text]>
  | Readonly<Record<string, string>>;
export type ReferrerPolicy = "" | "no-referrer" | "no-referrer-when-downgrade" | "same-origin" | "origin" | "strict-origin" | "origin-when-cross-origin" | "strict-origin-when-cross-origin" | "unsafe-url";
export type Mode = "cors" | "no-cors" | "same-origin" | "navigate";
export type Credentials = "omit" | "same-origin" | "include";
export type Redirect = "follow" | "error" | "manual";
export type CrossOrigin = "anonymous" | "use-credentials";
export type LoadKind = "image" | "audio" | "video" | "style" | "script" | "font" | "manifest";
export type ResponseType = "basic" | "cors" | "opaque" | "opaqueredirect";
export type NetworkErrorName = "Scheme" | "BadPort" | "Mixed" | "CspRequest" | "SameOriginMode" | "NoCorsRedirectMode" | "PreflightCors" | "PreflightStatus" | "PreflightList" | "PreflightMethod" | "PreflightHeader" | "CorsCheck" | "Corp" | "RedirectMode" | "BadLocation" | "RedirectScheme" | "TooManyRedirects" | "RedirectCredentials" | "CspResponse" | "Mime" | "NoSniff" | "Integrity" | "Coding" | "LinkFault" | "BadHead" | "HeadTooBig";
export type RequestFault = "BadUrl" | "UrlCredentials" | "BadMethod" | "ForbiddenMethod" | "BodyWithGet" | "NoCorsMethod" | "BadHeader" | "NavigateMode" | "TooLong" | "LongUrl";

// ---- errors

/** What a call was given has no answer. `code` is the number that the call of C gave. */
export class FiorruddaError extends Error {
  readonly code: number;
}
export class WrongHandle extends FiorruddaError {}
export class OutOfMemory extends FiorruddaError {}
export class NoSuchNumber extends FiorruddaError {}
export class NotAUrl extends FiorruddaError {}
export class NotHttp extends FiorruddaError {}
export class NotAHeader extends FiorruddaError {}
export class TooLate extends FiorruddaError {}
export class NotAwaited extends FiorruddaError {}
export class NotAHost extends FiorruddaError {}
/** No request can be made of what is asked for: `fault` is null where a rule was asked, and not a `Fetch`. */
export class NoRequest extends FiorruddaError {
  readonly number: number;
  readonly fault: RequestFault | null;
  /** What the fault means, in a sentence. */
  readonly why: string | null;
  /** The index of a header that is none. */
  readonly header: number | null;
}
/** A text is not that of a book, from a line on. */
export class NotABook extends FiorruddaError {
  readonly line: number;
  readonly number: number;
  readonly reason: string;
}
/** A scenario is refused: at `json`, or by the way from the root to the value, as `/documents/0/url`. */
export class NotAScenario extends FiorruddaError {
  readonly place: string;
}

/** What the memory of the module holds: freed with this object, by `free()`, or at the end of a block, by `using`. */
declare class Thing {
  free(): void;
  [Symbol.dispose](): void;
}

// ---- header lists

/** A header list (Fetch, section 2.2.2). */
export class HeaderList extends Thing {
  constructor(headers?: HeaderPairs);
  /** Adds a header (Fetch, section 2.2.2). `NotAHeader` where the name is no token, or the value no header value. */
  append(name: Text, value: Text): this;
  /** All values of a name, joined by a comma and a space, or null (Fetch, section 2.2.2). */
  get(name: Text): string | null;
  /** The headers in order (Fetch, section 2.2.2) (Fetch, section 2.2.2). */
  [Symbol.iterator](): IterableIterator<[string, string]>;
}

// ---- origins, sites, ports and the referrer

/** The serialised origin of an http or https URL (HTML, section 7.1.1, "serialization of an origin"). */
export function origin(url: Text): string;
/** Whether two URLs have the same origin (HTML, section 7.1.1, "same origin"). */
export function sameOrigin(a: Text, b: Text): boolean;
/** Whether the origins of two URLs are of one site (HTML, section 7.1.1, "schemelessly same site"); that of a domain is its last two labels. */
export function sameSite(a: Text, b: Text): boolean;
/** Whether a URL is potentially trustworthy (Secure Contexts, section 3.2, "is url potentially trustworthy"). */
export function isTrustworthy(url: Text): boolean;
/** Whether a URL has a bad port, to which nothing is sent (Fetch, section 2.9, "bad port"). */
export function isBadPort(url: Text): boolean;
/** The referrer that a URL is told of a page, or null where none is (Referrer Policy, section 8.3, "determine request's Referrer"). */
export function referrer(page: Text, url: Text, policy?: ReferrerPolicy): string | null;

// ---- CORS, and what scripts may send

/** "CORS check" of an answer's headers (Fetch, section 4.10), for the serialised origin of a request, and whether its
 * credentials mode is include. A `HeaderList` is read once for many calls. */
export function corsCheck(origin: Text, headers: HeaderPairs, include?: boolean): boolean;
/** The names that an answer's headers expose (Fetch, section 2.2.6, "CORS-exposed header-name list"). */
export function exposedNames(headers: HeaderPairs, include?: boolean): string[];
/** Whether a name and a value are a CORS-safelisted request-header (Fetch, section 2.2.2). */
export function isSafelisted(name: Text, value: Text): boolean;
/** The CORS-unsafe request-header names of a list, in lower case and in order (Fetch, section 2.2.2). */
export function unsafeNames(headers: HeaderPairs): string[];
/** Whether no script can set a header (Fetch, section 2.2.2). */
export function isForbiddenHeader(name: Text, value: Text): boolean;
/** Whether a method is forbidden to scripts (Fetch, section 2.2.1). */
export function isForbiddenMethod(method: Text): boolean;

// ---- answers: their types, their bodies, and from whom they are kept

/** The essence of an answer's MIME type, or null (Fetch, section 3.5, "extract a MIME type"). */
export function essence(headers: HeaderPairs): string | null;
/** "determine nosniff" of an answer's headers (Fetch, section 3.6): `isNosniffBlocked` decides. */
export function saysNosniff(headers: HeaderPairs): boolean;
/** Whether an answer to a request is blocked for its MIME type (Fetch, section 2.10, "should response to request be blocked due to its MIME type"). */
export function isTypeBlocked(request: ScriptRequest | Load, headers: HeaderPairs): boolean;
/** Whether an answer to a request is blocked since it says nosniff (Fetch, section 3.6.1, "should response to request be blocked due to nosniff"). */
export function isNosniffBlocked(request: ScriptRequest | Load, headers: HeaderPairs): boolean;
/** Whether a whole body matches an integrity text (Subresource Integrity, section 3.3, "do bytes match metadataList"). */
export function matchesIntegrity(metadata: Text, body: Text): boolean;
/** Whether the answer of a URL is kept from a page's requests in mode no-cors (Fetch, section 3.7, "cross-origin resource policy check", of the page's origin and the URL's). */
export function isKeptFrom(page: Text, url: Text, headers: HeaderPairs): boolean;

// ---- clients and requests

export interface ClientInit {
  /** The URL of the page at the top, where this one is embedded. */
  top?: Text;
  referrerPolicy?: ReferrerPolicy;
  /** `Policies`, or header values that are enforced (CSP 3, section 2.2). */
  policies?: Policies | Iterable<Text>;
  /** For the origin of a URL the value of its Cookie header (Fetch, section 4.6). */
  cookies?: readonly (readonly [Text, Text])[] | Readonly<Record<string, string>>;
}
/** A document that fetches (HTML, section 8.1.3.2, "environment settings object"). */
export class Client extends Thing {
  constructor(url: Text, init?: ClientInit);
}

export interface ScriptRequestInit {
  method?: Text;
  mode?: Mode;
  credentials?: Credentials;
  redirect?: Redirect;
  /** What is no header makes a `NoRequest` of the fetch (Fetch, section 2.2.2, "normalize"). */
  headers?: HeaderPairs;
  /** The bytes that are sent (Fetch, section 2.2.5). */
  body?: Text | null;
  integrity?: Text;
  /** Whether the referrer is the page: true where it is left out. */
  referrer?: boolean;
  /** In place of the page's own (Fetch, section 2.2.5; HTML, section 2.5.1). */
  referrerPolicy?: ReferrerPolicy;
  /** Whether there is an upload listener, as of an XMLHttpRequest. */
  upload?: boolean;
}
/** What a script asks of `fetch` (Fetch, section 5.6). */
export class ScriptRequest extends Thing {
  constructor(url: Text, init?: ScriptRequestInit);
}

export interface LoadInit {
  crossorigin?: CrossOrigin | null;
  nonce?: Text;
  integrity?: Text;
  /** Whether a parser inserted the element. */
  parser?: boolean;
  referrerPolicy?: ReferrerPolicy;
}
/** What an element asks for that loads a resource (HTML, section 2.5.1, "create a potential-CORS request"). */
export class Load extends Thing {
  constructor(kind: LoadKind, url: Text, init?: LoadInit);
}

// ---- policies and mixed content

/** A violation: the number of the policy, whether it is enforced (CSP 3, section 2.4), the directive
 * (CSP 3, section 6.8.1, "get the effective directive for request"), and the URL that is reported (CSP 3, section 5.4, "strip URL for use in reports"). */
export interface Violation {
  readonly policy: number;
  readonly enforced: boolean;
  readonly directive: string;
  readonly url: string;
}
export interface CheckInit {
  /** Which policies are asked, and of what: `enforced` where it is left out. */
  of?: "enforced" | "report-only" | "response";
  /** The URL to which the request was redirected. */
  redirect?: Text;
}
/** Content security policies (CSP 3, section 2.2, "parse a response's Content Security Policies"), numbered from 0 on, the enforced ones first. */
export class Policies {
  constructor(enforced?: Iterable<Text>, reportOnly?: Iterable<Text>);
  static ofHeaders(headers: HeaderPairs): Policies;
  /** Whether an enforced one has `upgrade-insecure-requests` (Upgrade Insecure Requests, section 4.1, "upgrade request to a potentially trustworthy URL, if appropriate"). */
  readonly upgrades: boolean;
  /** The violations by a request, or by its response (CSP 3, section 4.1, "should request be blocked by Content Security Policy?", "report Content Security Policy violations for request" and "should response to request be blocked by Content Security Policy?"). */
  violations(client: Client, request: ScriptRequest | Load, init?: CheckInit): Violation[];
  free(): void;
  [Symbol.dispose](): void;
}
/** Whether a source expression matches a URL, for a page and a number of redirects (CSP 3, section 6.7.2, "does url match expression in origin with redirect count"). */
export function sourceMatches(word: Text, url: Text, page: Text, redirects?: number): boolean;
/** Whether a request is upgraded as mixed content (Mixed Content, section 4.1, "upgrade a mixed content request to a potentially trustworthy URL, if appropriate"). */
export function isMixedUpgraded(client: Client, request: ScriptRequest | Load, redirect?: Text): boolean;
/** Whether a request is blocked as mixed content (Mixed Content, section 4.4, "should fetching request be blocked as mixed content?"). */
export function isMixedBlocked(client: Client, request: ScriptRequest | Load, redirect?: Text): boolean;

// ---- preflights, and what a page sees

/** A network error, by its number and name; why, in a sentence; and the header that a preflight did not allow. */
export interface NetworkError {
  readonly number: number;
  readonly name: NetworkErrorName;
  readonly why: string;
  readonly header: string | null;
}
/** All bytes of the CORS-preflight request, or null where none is asked for (Fetch, section 4.1, "main fetch", step 12, and section 4.8, "CORS-preflight fetch"; RFC 9112, section 3). */
export function preflight(client: Client, request: ScriptRequest): Uint8Array | null;
/** The verdict on the answer to a preflight (Fetch, section 4.8, "CORS-preflight fetch", steps 7 and 8): `age` is for how many seconds it is learnt, and the error's
 * `header` the one that is not allowed (Fetch, section 4.8, "CORS-preflight fetch", steps 7.6 and 7.7). */
export function preflightVerdict(client: Client, request: ScriptRequest, status: number, headers: HeaderPairs):
  { passes: true; age: number; error: null } | { passes: false; age: null; error: NetworkError };
/** What a page sees of an answer (Fetch, section 2.2.6). */
export function seen(client: Client, request: ScriptRequest, status: number, headers: HeaderPairs,
  tainting?: "basic" | "cors" | "opaque"): { status: number; headers: [string, string][] };

// ---- books

/** What a Strict-Transport-Security field says, or null where it is to be ignored (RFC 6797, section 6.1). */
export function parseSts(field: Text): { maxAge: number; includeSubdomains: boolean } | null;
/** Known HSTS hosts and the preflight cache (RFC 6797, section 8). Times are in seconds since any fixed moment. */
export class Book extends Thing {
  constructor();
  /** The book that `export` wrote. */
  static read(text: Text): Book;
  /** The book as a text, so that it lasts. */
  export(): Uint8Array;
  /** Notes a Strict-Transport-Security field of a host, and says whether it counts (RFC 6797, section 8.1). */
  note(host: Text, field: Text, now: number): boolean;
  /** Whether a host is known, so that its http URLs are asked by https (RFC 6797, section 8.2). */
  isKnown(host: Text, now: number): boolean;
}

// ---- a whole fetch, by its acts

/** The book is to be asked or told: `Fetch.ask`, or `Fetch.reply` with what another book says (Fetch, section 4.9; RFC 6797, section 8). */
export interface AskAct {
  readonly kind: "ask";
  readonly call: "match" | "note" | "covers" | "learn" | "clear";
  readonly time: number;
  readonly host: string | null;
  readonly age: number | null;
  readonly includeSubdomains: boolean | null;
  readonly key: string | null;
  readonly origin: string | null;
  readonly url: string | null;
  readonly include: boolean | null;
  readonly method: string | null;
  readonly names: string[];
  readonly methods: string[];
}
/** A request is to be sent to an origin (RFC 9112, section 3): `Fetch.sent` or `Fetch.failed`. */
export interface SendAct {
  readonly kind: "send";
  readonly origin: string;
  readonly bytes: Uint8Array;
  readonly preflight: boolean;
  readonly method: string;
  readonly target: string;
  readonly headers: [string, string][];
  readonly body: Uint8Array | null;
}
/** The head, or the body, of the answer is to be read (RFC 9112, sections 4, 6 and 7): `Fetch.feed`, `Fetch.ended` or `Fetch.failed`. Bytes
 * behind a head are fed again as the first of the body, be there some or none. */
export interface ReadAct {
  readonly kind: "readHead" | "readBody";
}
/** The document is to be told of a violation: `Fetch.told`. */
export interface TellAct extends Violation {
  readonly kind: "tell";
}
export type Act = AskAct | SendAct | ReadAct | TellAct;
/** A response as a script sees it, and how its body ended. */
export interface ResponseOutcome {
  readonly kind: "response";
  readonly type: ResponseType;
  readonly status: number;
  readonly url: string | null;
  readonly headers: [string, string][];
  readonly end: "null" | "whole" | "cut" | "fault" | "toobig";
  readonly count: number | null;
  readonly body: Uint8Array | null;
}
export type Outcome = ResponseOutcome | { readonly kind: "loaded" } | ({ readonly kind: "error" } & NetworkError);
export interface FetchInit {
  /** The time in seconds: 0 where it is left out. */
  now?: number;
  /** How many bytes a body may have: 2^20 where it is left out. */
  limit?: number;
}
/** A whole fetch (Fetch, section 4.1, "main fetch"), an iterator of the acts that are to be done. Each is answered before the next is asked
 * for: one that was not answered comes again. `NoRequest` where no request can be made. */
export class Fetch extends Thing implements IterableIterator<Act> {
  constructor(client: Client, request: ScriptRequest | Load, init?: FetchInit);
  [Symbol.iterator](): this;
  /** The next act (Fetch, section 4), with its texts  and numbers. */
  next(): IteratorResult<Act, undefined>;
  /** Goes on without the network (Fetch, section 4.1, "main fetch"): asks a book, and tells the document of violations,
   * until something is to be sent or read, or the fetch is over. The violations on the way, report-only ones too. */
  judge(book: Book): Violation[];
  /** Asks a book what the act asks: its reply, or null where it was told something. */
  ask(book: Book): boolean | null;
  /** What came of an act (Fetch, section 4): a book of the caller's own replied. */
  reply(said?: boolean | null): void;
  sent(): void;
  told(): void;
  ended(): void;
  failed(): void;
  /** The next bytes of the answer came: how many of them were read. */
  feed(bytes: Text): number;
  /** What the fetch came to, or null before it is over. */
  readonly outcome: Outcome | null;
}

/** A request that is sent: its URL after all upgrades, without a fragment, its method and its headers; what it asks for,
 * where it is a preflight; and what the server is told of the page. */
export interface Sends {
  readonly url: string;
  readonly method: string;
  readonly headers: [string, string][];
  readonly preflight: { readonly method: string; readonly names: string[] } | null;
  readonly origin: string | null;
  readonly referrer: string | null;
  readonly cookies: string | null;
}
/** What a browser makes of a request: what it sends first, or why it sends nothing; and the violations on the way. */
export interface Judged {
  readonly sends: Sends | null;
  readonly refusal: NetworkError | null;
  readonly violations: Violation[];
}
/** What a browser makes of a request, with a book, or an empty one, at a time in seconds. The book stays as it was.
 * `NoRequest` where no request can be made of what is asked for. */
export function judge(client: Client, request: ScriptRequest | Load, init?: { book?: Book; now?: number }): Judged;

// ---- a whole play

/** The printed play of a scenario (docs/scenario.md): its JSON, or the value that it stands for. Documents play one after
 * another. `NotAScenario` where it is refused. */
export function play(scenario: Text | object): string;
/** The printed play of a scenario of at most 16 documents with the reports of their violations (docs/rules/reports.md).
 * `NotAScenario` where it is refused. */
export function reports(scenario: Text | object): string;
/** Audits a text that claims to be the printed play of a scenario: null where it is one, else what keeps it from being one,
 * as `Text 120`. */
export function audit(scenario: Text | object, play: Text): string | null;

export {};
