// What a page's fetch sends beside what the engine says: Fetch Metadata, referrers, what its cache mode asks for. And
// URLs for which nothing is sent.
import assert from "node:assert/strict";
import { createHash } from "node:crypto";
import test, { after, describe } from "node:test";
import { inPackage } from "./built.mjs";
import { API, APP, STAR, closeAll, pageTo, refused, says, serve } from "./served.mjs";

const { Page } = await inPackage("node.js");
const { Policies } = await inPackage("index.js");
const ALLOWS = { ...STAR, "Access-Control-Allow-Methods": "*", "Access-Control-Allow-Headers": "*" };

// Redirects along the origins that a path lists, escaped, and then allows all.
function leads(request, response) {
  const [, next, ...others] = request.url.split("/");
  const isLed = next.startsWith("http") && request.method !== "OPTIONS";
  const location = isLed ? { Location: new URL(others.join("/"), decodeURIComponent(next)).href } : {};
  says(isLed ? 302 : 200, { ...ALLOWS, ...location })(request, response);
}

const through = (first, ...others) => first + "/" + others.map(encodeURIComponent).join("/");

async function sitesOf(page, server, url, init) {
  server.seen.length = 0;
  await page.fetch(url, init);
  return server.seen.map(({ headers }) => headers["sec-fetch-site"]);
}

describe("Fetch Metadata", () => {
  after(closeAll);

  test("the headers of requests, and of preflights", async () => {
    const { page, server } = await pageTo(says(200, ALLOWS));
    await page.fetch("/");
    await page.fetch(API, { mode: "no-cors" });
    await page.fetch("/", { mode: "same-origin" });
    await page.fetch(API, { method: "PUT" });
    const sent = server.seen.map(({ method, headers }) => [method, ...["site", "mode", "dest", "user"].map((name) => (
      headers["sec-fetch-" + name]))].join(" "));
    assert.deepEqual(sent, ["GET same-origin cors empty ", "GET cross-site no-cors empty ",
      "GET same-origin same-origin empty ", "OPTIONS cross-site cors empty ", "PUT cross-site cors empty "]);
  });

  test("the site, along redirects the worst", async () => {
    const { page, server } = await pageTo(leads);
    const [own, other, far] = ["https://app.example", "https://api.app.example", "https://far.test"];
    assert.deepEqual(await sitesOf(page, server, other), ["same-site"]);
    assert.deepEqual(await sitesOf(page, server, own + ":8443"), ["same-site"]);
    assert.deepEqual(await sitesOf(page, server, through(own, other, far)), ["same-origin", "same-site", "cross-site"]);
    assert.deepEqual(await sitesOf(page, server, through(own, far, own)), ["same-origin", "cross-site", "cross-site"]);
    assert.deepEqual(await sitesOf(page, server, through(own, other, own)), ["same-origin", "same-site", "same-site"]);
    const put = await sitesOf(page, server, through(own, far), { method: "PUT" });
    assert.deepEqual(put, ["same-origin", "cross-site", "cross-site"]); // with a preflight
  });

  test("only URLs that are trustworthy are told", async () => {
    const { server } = await pageTo(leads);
    const page = new Page("http://app.example/", { connectTo: { "*": server.made } });
    assert.deepEqual(await sitesOf(page, server, "http://app.example/"), [undefined]);
    assert.deepEqual(await sitesOf(page, server, "https://app.example/"), ["cross-site"]);
    assert.deepEqual(await sitesOf(page, server, "http://localhost:3000/"), ["cross-site"]);
    const near = new Page("http://localhost:3000/", { connectTo: { "*": server.made } });
    assert.deepEqual(await sitesOf(near, server, "/"), ["same-origin"]);
  });

  test("a body follows its head", async () => {
    const { page, server } = await pageTo(says(200));
    await page.fetch("/", { method: "POST", body: "a\r\n\r\nb" });
    assert.deepEqual([server.seen[0].body, server.seen[0].headers["content-length"]], ["a\r\n\r\nb", "6"]);
  });
});

describe("cache modes", () => {
  after(closeAll);

  async function headersSent(init, url = "/") {
    const { page, server } = await pageTo(says(200, ALLOWS));
    await page.fetch(url, init);
    return server.seen.map(({ headers }) => [headers["cache-control"], headers.pragma]);
  }

  test("what other caches are asked", async () => {
    const [none, fresh] = [[undefined, undefined], ["no-cache", "no-cache"]];
    assert.deepEqual(await headersSent({}), [none]);
    assert.deepEqual(await headersSent({ cache: "force-cache" }), [none]);
    assert.deepEqual(await headersSent({ cache: "no-cache" }), [["max-age=0", undefined]]);
    assert.deepEqual(await headersSent({ cache: "no-store" }), [fresh]);
    assert.deepEqual(await headersSent({ cache: "reload" }), [fresh]);
    assert.deepEqual(await headersSent({ headers: { "If-None-Match": '"a"' } }), [fresh]);
    const own = { cache: "reload", headers: { "Cache-Control": "max-age=5" } };
    assert.deepEqual(await headersSent(own), [["max-age=5", "no-cache"]]);
    assert.deepEqual(await headersSent({ cache: "reload", method: "PUT" }, API), [none, fresh]);
    assert.deepEqual(await headersSent({}, new Request(APP, { cache: "no-store" })), [fresh]);
  });

  test("nothing is cached", async () => {
    const { page, server } = await pageTo(says(200));
    await assert.rejects(page.fetch("/", { cache: "only-if-cached" }), TypeError);
    await assert.rejects(page.fetch("/", { cache: "never" }), TypeError);
    await refused(page.fetch("/", { cache: "only-if-cached", mode: "same-origin" }), "LinkFault", "nothing is cached");
    assert.equal(server.seen.length, 0);
  });
});

describe("referrers that are named", () => {
  after(closeAll);

  async function referrers(init, url, options = {}) {
    const { page, server } = await pageTo(leads, options);
    await page.fetch(url, init);
    return server.seen.map(({ headers }) => headers.referer);
  }

  test("another URL of the page's origin", async () => {
    const named = { referrer: "../a/b?c#d" }; // against https://app.example/shop/
    assert.deepEqual(await referrers(named, "cart"), ["https://app.example/a/b?c"]);
    assert.deepEqual(await referrers(named, API), ["https://app.example/"]);
    assert.deepEqual(await referrers({ ...named, referrerPolicy: "unsafe-url" }, through("https://app.example", API)),
      ["https://app.example/a/b?c", "https://app.example/a/b?c"]);
    assert.deepEqual(await referrers({ referrer: "https://u:p@app.example/x" }, "/"), ["https://app.example/x"]);
    assert.deepEqual(await referrers(named, API, { referrerPolicy: "no-referrer" }), [undefined]);
  });

  test("the page, or none", async () => {
    for (const referrer of [undefined, "about:client", "https://far.test/x", APP]) {
      assert.deepEqual(await referrers({ referrer }, "/"), [APP], referrer);
    }
    assert.deepEqual(await referrers({ referrer: "" }, "/"), [undefined]);
    assert.deepEqual(await referrers({ referrer: "no-referrer" }, "/"), [APP + "no-referrer"]); // a URL as others
  });

  test("the request is asked for by the page", async () => {
    const { page, server } = await pageTo(says(200, ALLOWS), { policies: ["connect-src 'self'"] });
    assert.equal((await page.fetch("cart", { referrer: "/other/page" })).url, APP + "cart");
    await refused(page.fetch(API, { referrer: "/other/page" }), "CspRequest");
    await refused(page.fetch("http://[", { referrer: "/other/page" }), "BadUrl");
    assert.deepEqual(server.lines(), ["GET /shop/cart"]);
  });
});

describe("data: and blob: URLs", () => {
  after(closeAll);
  const blob = URL.createObjectURL(new Blob(["hey"], { type: "text/css" }));

  test("what they stand for", async () => {
    const { page, server } = await pageTo(says(200));
    const answer = await page.fetch("data:text/plain;charset=utf-8;base64,aMOp#x");
    const { type, status, statusText, url, redirected, headers } = answer;
    assert.deepEqual([type, status, statusText, url, redirected, headers.get("content-type")],
      ["basic", 200, "OK", "data:text/plain;charset=utf-8;base64,aMOp", false, "text/plain;charset=utf-8"]);
    assert.equal(await answer.text(), "h\u00e9");
    const styles = await page.fetch(blob);
    assert.deepEqual([styles.type, styles.url, styles.headers.get("content-type"), await styles.text()],
      ["basic", blob, "text/css", "hey"]);
    assert.equal((await (await page.fetch("DATA:," + "x".repeat(1000000))).text()).length, 1000000);
    assert.equal((await page.fetch("data:,x", { method: "HEAD" })).body, null);
    assert.equal(await (await page.fetch("data:,x", { method: "POST", body: "y", mode: "same-origin" })).text(), "x");
    assert.equal(server.seen.length, 0);
  });

  test("what stands for nothing", async () => {
    const page = new Page(APP);
    await refused(page.fetch("data:none"), "Scheme", "data: URL");
    await refused(page.fetch("blob:nodedata:none"), "Scheme", "no Blob");
    await refused(page.fetch(blob, { method: "POST" }), "Scheme", "GET");
    await refused(page.fetch("ftp://far.test/"), "Scheme", "neither http nor https");
    await refused(page.fetch("data:,x", { body: "y" }), "BodyWithGet");
    await assert.rejects(page.fetch("data:,x", { signal: AbortSignal.abort() }), { name: "AbortError" });
  });

  test("policies are asked", async () => {
    const strict = new Page(APP, { policies: ["connect-src 'self' *"] });
    await refused(strict.fetch("data:,x"), "CspRequest", "connect-src does not let data pass");
    await refused(strict.fetch(blob), "CspRequest");
    assert.deepEqual(strict.violations.map(({ directive, url, enforced }) => [directive, url, enforced]),
      [["connect-src", "data", true], ["connect-src", "blob", true]]);
    const open = new Page(APP, { policies: ["connect-src data: blob:"] });
    assert.deepEqual([await (await open.fetch("data:,x")).text(), await (await open.fetch(blob)).text()], ["x", "hey"]);
    const reporting = new Page(APP, { policies: new Policies([], ["default-src 'none'"]) });
    assert.equal(await (await reporting.fetch("data:,x")).text(), "x");
    // Of the request, and of its response.
    assert.deepEqual(reporting.violations.map(({ enforced }) => enforced), [false, false]);
  });

  test("integrity", async () => {
    const page = new Page(APP);
    const integrity = "sha256-" + createHash("sha256").update("x").digest("base64");
    assert.equal(await (await page.fetch("data:,x", { integrity })).text(), "x");
    await refused(page.fetch("data:,y", { integrity }), "Integrity");
    await refused(page.fetch("data:,x", { integrity, method: "HEAD" }), "Integrity");
  });

  test("a redirect to one", async () => {
    const { page } = await pageTo(says(302, { ...STAR, Location: "data:,x" }));
    await refused(page.fetch(API), "RedirectScheme");
  });

  test("a page's fetch in the place of Node's", async () => {
    const own = globalThis.fetch;
    globalThis.fetch = new Page(APP).fetch;
    try {
      assert.equal(await (await fetch("data:,x")).text(), "x");
    } finally {
      globalThis.fetch = own;
    }
  });
});

describe("what a refusal says", () => {
  after(closeAll);

  test("a policy that forbids what a redirect leads to", async () => {
    const server = await serve(leads);
    const page = new Page(APP, { connectTo: { "*": server.made }, policies: ["connect-src https://api.example"] });
    const first = through(API, "https://far.test");
    const said = "does not let https://far.test/ pass, to which " + first + " redirects";
    await refused(page.fetch(first), "CspRequest", said);
    assert.deepEqual(page.violations.map(({ url }) => url), [first]);
  });

  test("a network error has a number, a fault of a request another", async () => {
    const { page } = await pageTo(says(200));
    const error = await refused(page.fetch(API), "CorsCheck");
    assert.deepEqual([error.number, error.faultNumber], [12, undefined]);
    const fault = await refused(page.fetch("/", { method: "TRACE" }), "ForbiddenMethod");
    assert.deepEqual([fault.number, fault.faultNumber], [undefined, 4]);
  });
});
