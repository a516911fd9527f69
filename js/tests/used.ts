// What a caller in TypeScript writes: js/check has `tsc --strict` read it.
import { Book, Client, Fetch, HeaderList, NotAScenario, Policies, ScriptRequest, audit, corsCheck, judge, origin, play,
  preflightVerdict, referrer } from "fiorrudda";
import type { Act, ReferrerPolicy } from "fiorrudda";
import { Page } from "fiorrudda/node";
import type { Cause } from "fiorrudda/node";

const policy: ReferrerPolicy = "same-origin";
const list: HeaderList = new HeaderList([["Vary", "Origin"]]).append("Vary", new Uint8Array([65]));
const sent: string | null = referrer("https://a.example/", "https://b.example/", policy);
const passes: boolean = corsCheck(origin("https://a.example/"), { "Access-Control-Allow-Origin": "*" }, true);
const client = new Client("https://a.example/", { policies: new Policies(["img-src *"]), cookies: { "https://b.example": "a=b" } });
const request = new ScriptRequest("https://b.example/", { method: "PUT", headers: new Headers(), body: "x" });

function done(fetch: Fetch, book: Book, act: Act): void {
  switch (act.kind) {
    case "ask":
      fetch.ask(book);
      break;
    case "send":
      console.log(act.origin, act.bytes.length);
      fetch.sent();
      break;
    case "tell":
      console.log(act.directive);
      fetch.told();
      break;
    default:
      fetch.feed("HTTP/1.1 200 OK\r\n\r\n");
  }
}

const fetch = new Fetch(client, request, { limit: 100 });
for (const act of fetch) {
  done(fetch, new Book(), act);
}
const { outcome } = fetch;
if (outcome !== null && outcome.kind === "error") {
  console.log(outcome.name === "CorsCheck", outcome.why);
}
const judged = judge(client, request, { book: new Book(), now: 7 });
console.log(judged.sends?.preflight?.names.length, judged.refusal?.name === "Mixed", judged.violations[0]?.directive);
const verdict = preflightVerdict(client, request, 204, list);
console.log(verdict.passes ? verdict.age : verdict.error.header, sent, passes);
try {
  console.log(play({ format: 1, documents: [] }).length, audit("{}", "fetchplay 1\n") === null);
} catch (error) {
  console.log(error instanceof NotAScenario ? error.place : error);
}
list[Symbol.dispose]();

Page.connectTo({ "https://api.example": 3000 });
const page = new Page("https://app.example/", { policies: ["connect-src 'self'"] });
page.fetch("/cart", { credentials: "include" }).then((answer: Response) => answer.text(),
  (error: TypeError & { cause: Cause }) => console.log(error.cause.why, error.cause.number === undefined
    ? error.cause.name === "BadUrl" : error.cause.name === "CorsCheck"));
globalThis.fetch = page.fetch;
