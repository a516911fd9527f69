// `fetch` of a page against servers of node:http and node:https, by answers worked out by hand.
import assert from "node:assert/strict";
import { execFileSync } from "node:child_process";
import { once } from "node:events";
import fs from "node:fs";
import https from "node:https";
import net from "node:net";
import os from "node:os";
import path from "node:path";
import test, { after, describe } from "node:test";
import { inPackage } from "./built.mjs";
import { API, APP, STAR, closeAll, pageTo, refused, says, serve } from "./served.mjs";

const { Page } = await inPackage("node.js");
const { Policies } = await inPackage("index.js");

function certificate() {
  const folder = fs.mkdtempSync(path.join(os.tmpdir(), "js-tls-"));
  const [key, cert] = ["key.pem", "cert.pem"].map((name) => path.join(folder, name));
  try {
    execFileSync("openssl", ["req", "-x509", "-newkey", "rsa:2048", "-nodes", "-keyout", key, "-out", cert, "-days", "2", "-subj",
      "/CN=api.example", "-addext", "subjectAltName=DNS:api.example"], { stdio: "ignore" });
    return { key: fs.readFileSync(key), cert: fs.readFileSync(cert) };
  } catch (error) {
    assert.equal(error.code, "ENOENT"); // there is no openssl
    return null;
  } finally {
    fs.rmSync(folder, { recursive: true });
  }
}

describe("a page's fetch", () => {
  after(closeAll);

  test("an answer of another origin", async () => {
    const { page, server } = await pageTo(says(200, { ...STAR, "X-Own": "1", "Content-Type": "application/json" }, '{"a":1}'));
    const answer = await page.fetch(API + "/a?b#c");
    assert.ok(answer instanceof Response);
    assert.deepEqual([answer.type, answer.status, answer.statusText, answer.ok, answer.url, answer.redirected],
      ["cors", 200, "OK", true, API + "/a?b", false]);
    assert.deepEqual([...answer.headers.keys()].filter((name) => name !== "content-length"), ["content-type"]);
    assert.equal(answer.clone().type, "cors");
    assert.deepEqual(await answer.json(), { a: 1 });
    const [{ headers, method, url }] = server.seen;
    assert.deepEqual([method, url, headers.host, headers.origin, headers.referer],
      ["GET", "/a?b", "api.example", "https://app.example", "https://app.example/"]);
  });

  test("no Access-Control-Allow-Origin", async () => {
    const { page, server } = await pageTo(says(200));
    const cause = await refused(page.fetch(API), "CorsCheck", "has no Access-Control-Allow-Origin");
    assert.equal(cause.number, 12);
    assert.equal(server.seen.length, 1);
  });

  test("another origin is allowed, or two, or a star with credentials", async () => {
    const headers = (value, more = {}) => says(200, { "Access-Control-Allow-Origin": value, ...more });
    const other = await pageTo(headers("https://app.example/"));
    await refused(other.page.fetch(API), "CorsCheck", "allows the origin `https://app.example/`");
    const two = await pageTo(headers(["*", "*"]));
    await refused(two.page.fetch(API), "CorsCheck", "2 times");
    const star = await pageTo(headers("*"), { cookies: { [API]: "sid=7" } });
    await refused(star.page.fetch(API, { credentials: "include" }), "CorsCheck", "allows no request with credentials");
    assert.equal(star.server.seen[0].headers.cookie, "sid=7");
    const without = await pageTo(headers("https://app.example"));
    await refused(without.page.fetch(API, { credentials: "include" }), "CorsCheck", "Access-Control-Allow-Credentials: true");
    const both = await pageTo(headers("https://app.example", { "Access-Control-Allow-Credentials": "true" }));
    assert.equal((await both.page.fetch(API, { credentials: "include" })).status, 200);
  });

  test("a preflight, and what it learns", async () => {
    const { page, server } = await pageTo(says(200, { "Access-Control-Allow-Origin": "https://app.example",
      "Access-Control-Allow-Methods": "PUT", "Access-Control-Allow-Headers": "content-type, x-a", "Access-Control-Max-Age": "60" }));
    const put = () => page.fetch(API + "/cart", { method: "PUT", body: "{}", headers: { "Content-Type": "application/json",
      "X-A": "1" } });
    assert.equal((await put()).status, 200);
    assert.equal((await put()).status, 200);
    assert.deepEqual(server.lines(), ["OPTIONS /cart", "PUT /cart", "PUT /cart"]);
    assert.deepEqual([server.seen[0].headers["access-control-request-headers"], server.seen[1].body,
      server.seen[1].headers["x-a"]], ["content-type,x-a", "{}", "1"]);
  });

  test("preflights that are refused", async () => {
    const allow = (more, status = 204) => says(status, { "Access-Control-Allow-Origin": "*", ...more });
    const put = { method: "PUT", headers: { "X-A": "1" } };
    const none = await pageTo(says(204));
    await refused(none.page.fetch(API, put), "PreflightCors", "The answer to the preflight has no Access-Control-Allow-Origin");
    const status = await pageTo(allow({}, 404));
    await refused(status.page.fetch(API, put), "PreflightStatus", "404");
    const method = await pageTo(allow({ "Access-Control-Allow-Methods": "GET" }));
    await refused(method.page.fetch(API, put), "PreflightMethod", "says `Access-Control-Allow-Methods: GET`, which does not allow PUT");
    const header = await pageTo(allow({ "Access-Control-Allow-Methods": "PUT", "Access-Control-Allow-Headers": "x-b" }));
    const cause = await refused(header.page.fetch(API, put), "PreflightHeader", "does not allow `x-a`");
    assert.equal(cause.header, "x-a");
    assert.deepEqual(header.server.lines(), ["OPTIONS /"]);
  });

  test("redirects", async () => {
    const { page, server } = await pageTo((request, response) => (request.url === "/a"
      ? says(302, { ...STAR, Location: "https://cdn.example/b" })(request, response) : says(200, STAR, "b")(request, response)));
    const answer = await page.fetch(API + "/a");
    assert.deepEqual([answer.url, answer.redirected, await answer.text()], ["https://cdn.example/b", true, "b"]);
    assert.deepEqual(server.seen.map(({ headers }) => headers.origin), ["https://app.example", "null"]);
    await refused(page.fetch(API + "/a", { redirect: "error" }), "RedirectMode");
    const manual = await page.fetch(API + "/a", { redirect: "manual" });
    assert.deepEqual([manual.type, manual.status, manual.ok, manual.body], ["opaqueredirect", 0, false, null]);
  });

  test("policies, and mixed content", async () => {
    const { page, server } = await pageTo(says(200, STAR), { policies: ["connect-src 'self'"] });
    await refused(page.fetch(API), "CspRequest", "connect-src does not let https://api.example/ pass");
    assert.deepEqual(page.violations, [{ policy: 0, enforced: true, directive: "connect-src", url: API + "/" }]);
    const reporting = new Page(APP, { connectTo: { "*": server.made }, policies: new Policies([], ["connect-src 'self'"]) });
    assert.equal((await reporting.fetch(API)).status, 200);
    assert.equal(reporting.violations[0].enforced, false);
    await refused(reporting.fetch("http://api.example/"), "Mixed");
    assert.equal(server.seen.length, 1);
  });

  test("a known host", async () => {
    const secure = await serve(says(200, { ...STAR, "Strict-Transport-Security": "max-age=60" }));
    const page = new Page("http://app.example/", { connectTo: { [API]: secure.made } });
    await page.fetch(API);
    assert.equal((await page.fetch("http://api.example/x")).url, API + "/x");
    assert.deepEqual(secure.lines(), ["GET /", "GET /x"]);
  });

  test("what is hidden", async () => {
    const { page } = await pageTo(says(200, { "X-A": "1" }, "secret"));
    const answer = await page.fetch(API, { mode: "no-cors" });
    assert.deepEqual([answer.type, answer.status, answer.ok, answer.url, answer.body, [...answer.headers].length],
      ["opaque", 0, false, "", null, 0]);
  });

  test("bodies that are sent", async () => {
    const { page, server } = await pageTo(says(200, {}, "ok"));
    const form = new FormData();
    form.set("a", "b");
    const bodies = ["text", new URLSearchParams({ a: "b c" }), new Uint8Array([104, 105]), new Blob(["hi"], { type: "text/css" }), form];
    for (const body of bodies) {
      assert.equal((await page.fetch("cart", { method: "POST", body })).type, "basic");
    }
    const types = server.seen.map(({ headers }) => (headers["content-type"] || "").split(";")[0]);
    // The engine takes a body without a type for a text; a browser sends bytes without a Content-Type.
    assert.deepEqual(types, ["text/plain", "application/x-www-form-urlencoded", "text/plain", "text/css", "multipart/form-data"]);
    assert.deepEqual(server.seen.slice(0, 4).map(({ body }) => body), ["text", "a=b+c", "hi", "hi"]);
    assert.match(server.seen[4].body, /name="a"\r\n\r\nb\r\n/);
    assert.equal(server.seen[0].url, "/shop/cart");
    const asked = new Request("https://app.example/r", { method: "PUT", body: "x", headers: { "X-A": "1" } });
    await page.fetch(asked);
    assert.deepEqual([server.seen[5].method, server.seen[5].body, server.seen[5].headers["x-a"]], ["PUT", "x", "1"]);
  });

  test("bodies that come", async () => {
    const { page, server } = await pageTo((request, response) => {
      if (request.url.endsWith("/cut")) {
        response.writeHead(200, { "Content-Length": "10" }).write("abc");
        setTimeout(() => response.destroy(), 20);
      } else if (request.url.endsWith("/chunks")) {
        response.write("ab");
        setTimeout(() => response.end("cd"), 20);
      } else {
        says(Number(request.url.slice(-3)), {}, "")(request, response);
      }
    });
    await assert.rejects((await page.fetch("cut")).text(), TypeError);
    assert.equal(await (await page.fetch("chunks")).text(), "abcd");
    assert.deepEqual([(await page.fetch("204")).body, (await page.fetch("404")).ok, (await page.fetch("500")).status],
      [null, false, 500]);
    assert.equal((await page.fetch("200", { method: "HEAD" })).status, 200);
    const small = new Page(APP, { connectTo: { "*": server.made }, limit: 3 });
    await assert.rejects((await small.fetch("chunks")).text(), TypeError);
  });

  test("integrity", async () => {
    const { page } = await pageTo(says(200, STAR, "other"));
    await refused(page.fetch(API, { integrity: "sha256-47DEQpj8HBSa+/TImW+5JCeuQeRkm5NMpJWZG3hSuFU=" }), "Integrity");
  });

  test("requests that cannot be made", async () => {
    const { page, server } = await pageTo(says(200));
    const cause = await refused(page.fetch("/", { body: "x" }), "BodyWithGet");
    assert.deepEqual([cause.faultNumber, cause.number], [5, undefined]);
    await refused(page.fetch("http://["), "BadUrl");
    await refused(page.fetch("/", { method: "TRACE" }), "ForbiddenMethod");
    await assert.rejects(page.fetch("/", { mode: "CORS" }), TypeError);
    await assert.rejects(page.fetch("/", { headers: { "X-A": "\u0100" } }), TypeError);
    await assert.rejects(page.fetch("/", { method: "POST", body: new Blob(["a"]).stream(), duplex: "half" }), TypeError);
    await assert.rejects(page.fetch("/", { referrer: "http://[" }), TypeError);
    assert.equal(server.seen.length, 0);
  });

  test("connections that fail", async () => {
    // Nobody listens at the port of one who has connected, and nobody else gets it.
    const { made } = await serve(says(200));
    const taken = net.connect(made.address().port, "127.0.0.1");
    await once(taken, "connect");
    const page = new Page(APP, { connectTo: { "api.example": taken.localPort } });
    await refused(page.fetch(API), "LinkFault", "ECONNREFUSED");
    taken.destroy();
    const { page: other } = await pageTo((request, response) => response.socket.destroy());
    const cause = await other.fetch(API).catch((error) => error.cause);
    assert.ok(["BadHead", "LinkFault"].includes(cause.name), cause.name); // as the system tells the end
  });

  test("a fetch that is given up", async () => {
    const { page } = await pageTo(() => {}); // it never answers
    const controller = new AbortController();
    setTimeout(() => controller.abort(), 30);
    await assert.rejects(page.fetch("/", { signal: controller.signal }), { name: "AbortError" });
    await assert.rejects(page.fetch("/", { signal: AbortSignal.abort() }), { name: "AbortError" });
  });

  test("places of all pages, and many fetches at once", async () => {
    const server = await serve(says(200, STAR, "x".repeat(100000)));
    Page.connectTo({ "api.example": server.made, "https://cdn.example": "127.0.0.1:" + server.made.address().port });
    const { fetch } = new Page(APP);
    const all = await Promise.all(Array.from({ length: 20 }, (_, at) => fetch((at % 2 ? API : "https://cdn.example") + "/" + at)));
    assert.deepEqual((await Promise.all(all.map((one) => one.text()))).map((text) => text.length), Array(20).fill(100000));
    assert.deepEqual(all.map((one) => one.url.split("/")[3]), Array.from({ length: 20 }, (_, at) => String(at)));
    Page.connectToNone();
  });

  test("TLS", async (context) => {
    const keys = certificate();
    if (keys === null) {
      context.skip("there is no openssl");
      return;
    }
    const server = await serve(says(200, STAR, "secure"), https.createServer(keys));
    const connectTo = { "api.example": server.made };
    assert.equal(await (await new Page(APP, { connectTo, tls: { ca: keys.cert } }).fetch(API)).text(), "secure");
    await refused(new Page(APP, { connectTo }).fetch(API), "LinkFault", "self-signed");
  });
});
