// The rules by the module's functions, against answers that were worked out by hand.
import assert from "node:assert/strict";
import test from "node:test";
import { compare } from "../../view/tests/base.js";
import { inPackage } from "./built.mjs";

const f = await inPackage("index.js");

// Both are to be awaited. A case has no name: the place where it stands tells which one it is.
function is(context, got, wanted) {
  return compare(context, "an answer", got, wanted);
}

function refuses(context, work, kind, more = {}) {
  const isMeant = (error) => error instanceof kind && error.name === kind.name
    && Object.entries(more).every(([name, value]) => error[name] === value);
  return context.test("a refusal", () => assert.throws(work, isMeant));
}

test("lists", async (context) => {
  const headers = new f.HeaderList([["A", "1"], ["b", "2"]]);
  headers.append("a", new Uint8Array([255])).append("c", "\u00e9");
  await is(context, headers.get("A"), "1, \u00ff");
  await is(context, headers.get("d"), null);
  await is(context, [...headers], [["A", "1"], ["b", "2"], ["A", "\u00ff"], ["c", "\u00e9"]]);
  await refuses(context, () => headers.append("a b", "1"), f.NotAHeader);
  await refuses(context, () => headers.append("a", "\u20ac"), f.NotAHeader);
  await refuses(context, () => new f.HeaderList([["a", 1]]), TypeError);
  headers.free();
  headers.free();
  await refuses(context, () => headers.get("A"), f.WrongHandle);
  await is(context, [...new f.HeaderList(new Headers({ "x-a": "1" }))], [["x-a", "1"]]);
});

test("URLs", async (context) => {
  await is(context, f.origin("HTTPS://A.Example:443/p"), "https://a.example");
  await refuses(context, () => f.origin("data:,x"), f.NotHttp);
  await refuses(context, () => f.origin("/p"), f.NotAUrl, { code: 6 });
  await refuses(context, () => f.origin(null), TypeError);
  await is(context, f.origin("https://a.example/" + "x".repeat(200000)), "https://a.example");
  await is(context, [f.sameOrigin("https://a.example/", "https://a.example:443/x"),
    f.sameSite("https://a.b.example/", "http://b.example/")], [true, true]);
  await is(context, [f.isTrustworthy("http://localhost/"), f.isTrustworthy("http://a.example/"),
    f.isBadPort("http://a.example:25/")], [true, false, true]);
  const page = "https://u:p@a.example/b?c#d";
  await is(context, f.referrer(page, "https://b.example/"), "https://a.example/");
  await is(context, f.referrer(page, "http://b.example/"), null);
  await is(context, f.referrer(page, "http://b.example/", "unsafe-url"), "https://a.example/b?c");
  await refuses(context, () => f.referrer(page, page, "unsafe"), TypeError);
});

test("CORS", async (context) => {
  const star = { "Access-Control-Allow-Origin": "*" };
  await is(context, [f.corsCheck("https://a.example", star), f.corsCheck("https://a.example", star, true)],
    [true, false]);
  await is(context, [f.isSafelisted("Accept", "text/html"), f.isSafelisted("Content-Type", "application/json")],
    [true, false]);
  await is(context, [f.isForbiddenMethod("trace"), f.isForbiddenHeader("Cookie", "a"), f.isForbiddenHeader("X", "a")],
    [true, true, false]);
  await is(context, f.unsafeNames([["X-B", "1"], ["Accept", "a"], ["X-A", "1"]]), ["x-a", "x-b"]);
  const answer = [["Set-Cookie", "a=b"], ["X-A", "1"], ["Content-Type", "text/csv"],
    ["Access-Control-Expose-Headers", "*"]];
  await is(context, f.exposedNames(answer, true), ["*"]);
  await is(context, f.exposedNames(answer).length, 4);
});

test("answers", async (context) => {
  const headers = [["X-Content-Type-Options", "nosniff"], ["Content-Type", "Text/HTML;a=b"]];
  await is(context, [f.saysNosniff(headers), f.essence(headers), f.essence([])], [true, "text/html", null]);
  const script = new f.Load("script", "/");
  await is(context, f.isTypeBlocked(script, { "Content-Type": "text/csv" }), true);
  await is(context, [f.isNosniffBlocked(script, headers), f.isNosniffBlocked(script, [])], [true, false]);
  const text = "sha384-H8BRh8j48O9oYatfu5AZzq6A9RINhZO5H16dQZngK7T62em8MUt1FLm52t+eX6xO";
  await is(context, [f.matchesIntegrity(text, "alert('Hello, world.');"), f.matchesIntegrity(text, "")], [true, false]);
  const policy = { "Cross-Origin-Resource-Policy": "same-site" };
  await is(context, [f.isKeptFrom("https://a.test/", "https://b.example/", policy),
    f.isKeptFrom("https://a.b.example/", "https://b.example/", policy)], [true, false]);
});

test("policies", async (context) => {
  const [page, image] = [new f.Client("https://a.example/"), new f.Load("image", "http://b.example/i#f")];
  const policies = new f.Policies(["img-src 'self', default-src *; upgrade-insecure-requests"], ["img-src https:"]);
  const found = { policy: 0, enforced: true, directive: "img-src", url: "http://b.example/i" };
  await is(context, policies.violations(page, image), [found]);
  await is(context, policies.violations(page, image, { of: "response" }).map(({ policy }) => policy), [0, 2]);
  await is(context, policies.violations(page, new f.Load("image", "/i")), []);
  await is(context, policies.violations(page, new f.Load("image", "/i"), { redirect: "https://b.example/" }).length, 1);
  await is(context, [policies.upgrades, f.isMixedUpgraded(page, image),
    f.isMixedBlocked(page, image, "https://b.example/")], [true, true, false]);
  await refuses(context, () => f.isMixedBlocked(page, image, "data:,x"), f.NotHttp);
  await refuses(context, () => f.isMixedBlocked(page, new f.Load("image", "http://[")), f.NoRequest, { fault: null });
  await refuses(context, () => new f.Policies("img-src *"), TypeError);
  await refuses(context, () => new f.Policies(["default-src\n"]), f.NotAHeader);
  const same = f.Policies.ofHeaders([["content-security-policy-report-only", "img-src 'none'"],
    ["Content-Security-Policy", "img-src 'self'"]]);
  await is(context, same.violations(page, image), [found]);
  await is(context, f.sourceMatches("https://*.example", "https://a.example/", "https://p.test/"), true);
  await refuses(context, () => f.sourceMatches("*", "https://a.example/", "https://p.test/", -1), RangeError);
});

test("preflights", async (context) => {
  const page = new f.Client("https://a.example/");
  const put = new f.ScriptRequest("https://b.example/", { method: "PUT", headers: { "X-A": "1" } });
  await is(context, new TextDecoder().decode(f.preflight(page, put)).split("\r\n")[0], "OPTIONS / HTTP/1.1");
  await is(context, f.preflight(page, new f.ScriptRequest("https://b.example/")), null);
  const allowed = { "Access-Control-Allow-Origin": "*", "Access-Control-Allow-Methods": "PUT",
    "Access-Control-Allow-Headers": "x-a", "Access-Control-Max-Age": "60" };
  await is(context, f.preflightVerdict(page, put, 204, allowed), { passes: true, age: 60, error: null });
  const { error } = f.preflightVerdict(page, put, 204, { ...allowed, "Access-Control-Allow-Headers": "x-b" });
  await is(context, [error.number, error.name, error.header], [11, "PreflightHeader", "x-a"]);
  const answer = [["Set-Cookie", "a=b"], ["X-A", "1"], ["Access-Control-Expose-Headers", "X-A"]];
  await is(context, f.seen(page, put, 201, answer), { status: 201, headers: [["X-A", "1"]] });
  await is(context, f.seen(page, put, 201, answer, "opaque"), { status: 0, headers: [] });
  await refuses(context, () => f.seen(page, put, 70000, answer), RangeError);
});

test("books", async (context) => {
  await is(context, f.parseSts("max-age=15768000 ; includeSubDomains"), { maxAge: 15768000, includeSubdomains: true });
  await is(context, f.parseSts("includeSubDomains"), null);
  const book = new f.Book();
  await is(context, book.note("a.example", "max-age=10; includeSubDomains", 0), true);
  await is(context, [book.isKnown("a.example", 9), book.isKnown("b.a.example", 9.5), book.isKnown("a.example", 10)],
    [true, true, false]);
  await refuses(context, () => book.isKnown("a.example", 2 ** 48), f.TooLate);
  await refuses(context, () => book.isKnown("A.example", 1), f.NotAHost);
  const text = new TextDecoder().decode(book.export());
  await is(context, text, "fiorrudda book 1\nhosts 1\n10 1 9:a.example\nentries 0\n");
  await is(context, new TextDecoder().decode(f.Book.read(text).export()), text);
  await refuses(context, () => f.Book.read(text.replace("10 1", "010 1")), f.NotABook, { line: 3, reason: "BadLine" });
});

// A fetch of another origin with a body in two pieces, by its acts.
test("a fetch", async (context) => {
  const fetch = new f.Fetch(new f.Client("https://a.example/"), new f.ScriptRequest("https://b.example/p"));
  const pieces = ["HTTP/1.1 200 OK\r\nAccess-Control-Allow-Origin: *\r\nContent-Length: 4\r\n\r\n", "", "ab", "cd"];
  const kinds = [];
  const book = new f.Book();
  for (const act of fetch) {
    kinds.push(act.kind);
    if (act.kind === "ask") {
      await is(context, fetch.ask(book), act.call === "match" ? false : null);
    } else if (act.kind === "send") {
      await is(context, [act.origin, act.method, act.target, act.preflight], ["https://b.example", "GET", "/p", false]);
      fetch.sent();
    } else {
      fetch.feed(Buffer.from(pieces.shift()));
    }
  }
  await is(context, kinds.filter((kind) => kind !== "ask"), ["send", "readHead", "readBody", "readBody", "readBody"]);
  const { outcome } = fetch;
  await is(context, [outcome.type, outcome.status, outcome.url, Buffer.from(outcome.body).toString(), outcome.end],
    ["cors", 200, "https://b.example/p", "abcd", "whole"]);
  await refuses(context, () => fetch.sent(), f.NotAwaited);
  await refuses(context, () => new f.Fetch(new f.Client("https://a.example/"), new f.ScriptRequest("http://[")),
    f.NoRequest, { fault: "BadUrl", number: 1 });
});

// What is sent first, and what of the page's policy is told on the way: by upgrades, preflights, mixed content.
test("judge", async (context) => {
  const page = new f.Client("https://a.example/p", { policies: new f.Policies(
    ["img-src 'self'; upgrade-insecure-requests"], ["connect-src 'none'"]), cookies: { "https://a.example": "c=d" } });
  const image = f.judge(page, new f.Load("image", "http://a.example/i"));
  const { url, method, preflight, cookies, referrer } = image.sends;
  await is(context, [url, method, preflight, cookies, referrer, image.refusal],
    ["https://a.example/i", "GET", null, "c=d", "https://a.example/p", null]);
  const refused = f.judge(page, new f.Load("image", "https://b.example/i"));
  await is(context, [refused.sends, refused.refusal.number, refused.refusal.name], [null, 4, "CspRequest"]);
  await is(context, refused.violations,
    [{ policy: 0, enforced: true, directive: "img-src", url: "https://b.example/i" }]);
  const put = new f.ScriptRequest("https://b.example/d", { method: "PUT", headers: { "X-B": "1", "X-A": "1" } });
  const first = f.judge(page, put);
  await is(context, [first.sends.method, first.sends.preflight, first.sends.origin],
    ["OPTIONS", { method: "PUT", names: ["x-a", "x-b"] }, "https://a.example"]);
  await is(context, first.violations.map(({ enforced, directive }) => [enforced, directive]), [[false, "connect-src"]]);
  const plain = new f.Client("http://a.example/");
  const [book, asked] = [new f.Book(), new f.ScriptRequest("/x")];
  book.note("a.example", "max-age=10", 0);
  await is(context, [0, 9, 10].map((now) => f.judge(plain, asked, { book, now }).sends.url),
    ["https://a.example/x", "https://a.example/x", "http://a.example/x"]);
  await is(context, f.judge(new f.Client("https://a.example/"), new f.ScriptRequest("http://b.example/")).refusal.name,
    "Mixed");
  await refuses(context, () => f.judge(page, new f.ScriptRequest("http://[")), f.NoRequest, { fault: "BadUrl" });
  await refuses(context, () => f.judge(page, asked, { book: page }), f.WrongHandle);
});

// A fetch whose loop has the acts of the network alone.
test("a fetch that is judged", async (context) => {
  const fetch = new f.Fetch(new f.Client("https://a.example/", { policies: ["connect-src *"] }),
    new f.ScriptRequest("https://b.example/p"));
  const [book, kinds] = [new f.Book(), []];
  const head = "HTTP/1.1 200 OK\r\nContent-Length: 0\r\nStrict-Transport-Security: max-age=9\r\n\r\n";
  await is(context, fetch.judge(book), []);
  for (const act of fetch) {
    kinds.push(act.kind);
    if (act.kind === "send") {
      fetch.sent();
    } else {
      fetch.feed(head);
    }
    fetch.judge(book);
  }
  await is(context, [kinds, fetch.outcome.name, book.isKnown("b.example", 8)],
    [["send", "readHead"], "CorsCheck", true]);
  await is(context, fetch.judge(book), []);
});

test("a play", async (context) => {
  const text = f.play({ format: 1, documents: [] });
  await is(context, text, "fetchplay 1\nhistory\ndone\n");
  await is(context, f.play(new TextEncoder().encode('{"format":1,"documents":[]}')), text);
  await refuses(context, () => f.play({ format: 1, documents: [{ url: "/" }] }), f.NotAScenario,
    { place: "/documents/0/url" });
  await refuses(context, () => f.play("{"), f.NotAScenario, { place: "json" });
  await is(context, f.reports({ format: 1, documents: [] }), "cspreport 1\nhistory\ndone\n");
  await refuses(context, () => f.reports("{"), f.NotAScenario, { place: "json" });
  await is(context, f.audit({ format: 1, documents: [] }, text), null);
  await is(context, f.audit('{"format":1,"documents":[]}', new TextEncoder().encode(text)), null);
  await is(context, f.audit({ format: 1, documents: [] }, text.replace("fetchplay 1", "fetchplay 2")), "Text 10");
  await is(context, f.audit({ format: 1, documents: [] }, ""), "History 0");
  await is(context, f.audit("{", text), "Scenario json");
});
