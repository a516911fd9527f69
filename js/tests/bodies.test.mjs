// Bodies that a page's fetch is given: as they come, given up, cut, and decoded.
import assert from "node:assert/strict";
import { createHash } from "node:crypto";
import { once } from "node:events";
import test, { after, describe } from "node:test";
import { setTimeout as pause } from "node:timers/promises";
import zlib from "node:zlib";
import { inPackage } from "./built.mjs";
import { APP, closeAll, pageTo, refused, says, serve } from "./served.mjs";

const { Page } = await inPackage("node.js");
const { Chunks, framingOf } = await inPackage("answers.js");
const TEXT = JSON.stringify({ rows: [...Array(300).keys()] });

// A page, and the answer of its server to its one request, which the test writes by itself.
async function heldPage(init) {
  let hold;
  const held = new Promise((resolve) => { hold = resolve; });
  const { page } = await pageTo((request, response) => hold(response), init);
  return { page, held };
}

const textOf = ({ value }) => Buffer.from(value).toString();

describe("bodies as they come", () => {
  after(closeAll);

  test("a response is there with its head", async () => {
    const { page, held } = await heldPage();
    const asked = page.fetch("/");
    const answer = await held;
    answer.writeHead(200, { "X-A": "1" }).flushHeaders();
    const response = await asked;
    assert.deepEqual([response.status, response.headers.get("x-a"), response.bodyUsed], [200, "1", false]);
    const reader = response.body.getReader();
    answer.write("ab");
    assert.equal(textOf(await reader.read()), "ab");
    answer.end("cd");
    assert.equal(textOf(await reader.read()), "cd");
    assert.equal((await reader.read()).done, true);
  });

  test("a clone, and a reader with its own room", async () => {
    const { page } = await pageTo(says(200, {}, "abcd"));
    const response = await page.fetch("/");
    const clone = response.clone();
    assert.deepEqual([await response.text(), await clone.text(), clone.url], ["abcd", "abcd", "https://app.example/"]);
    const reader = (await page.fetch("/")).body.getReader({ mode: "byob" });
    assert.equal(textOf(await reader.read(new Uint8Array(3))), "abc");
    assert.equal(textOf(await reader.read(new Uint8Array(3))), "d");
    assert.equal((await reader.read(new Uint8Array(3))).done, true);
  });

  test("a fetch is given up behind its head", async () => {
    const { page, held } = await heldPage();
    const controller = new AbortController();
    const asked = page.fetch("/", { signal: controller.signal });
    const answer = await held;
    answer.write("a");
    const response = await asked;
    const reader = response.body.getReader();
    assert.equal(textOf(await reader.read()), "a");
    const next = assert.rejects(reader.read(), { name: "AbortError" });
    controller.abort();
    await Promise.all([next, once(answer, "close")]);
  });

  test("what is given up with a reason, and what has been read before", async () => {
    const { page } = await pageTo(says(200, {}, "abcd"));
    const controller = new AbortController();
    const { signal } = controller;
    const [read, left] = [await page.fetch("/", { signal }), await page.fetch("/", { signal })];
    assert.equal(await read.text(), "abcd");
    controller.abort(new RangeError("enough"));
    await assert.rejects(left.text(), RangeError);
    assert.equal(read.bodyUsed, true);
  });

  test("a body that is cancelled hangs up", async () => {
    const { page, held } = await heldPage();
    const asked = page.fetch("/");
    const answer = await held;
    answer.write("a");
    const response = await asked;
    await Promise.all([response.body.cancel(), once(answer, "close")]);
  });

  test("what came before a cut is read", async () => {
    const { page, held } = await heldPage();
    const asked = page.fetch("/");
    const answer = await held;
    answer.writeHead(200, { "Content-Length": "10" }).write("abc");
    const reader = (await asked).body.getReader();
    assert.equal(textOf(await reader.read()), "abc");
    answer.destroy();
    await assert.rejects(reader.read(), TypeError);
  });

  test("a body has to match an integrity text before there is a response", async () => {
    const { page, held } = await heldPage();
    const asked = page.fetch("/", { integrity: "sha256-" + createHash("sha256").update("abcd").digest("base64") });
    const answer = await held;
    answer.write("ab");
    assert.equal(await Promise.race([asked, pause(30, "not yet")]), "not yet");
    answer.end("cd");
    assert.equal(await (await asked).text(), "abcd");
  });

  test("a whole body may be left unread", async () => {
    const { page } = await pageTo(says(200, {}, "x".repeat(3000000)));
    assert.equal((await page.fetch("/")).status, 200);
  });
});

describe("framings", () => {
  const taken = (framing, pieces) => [Buffer.concat(pieces.map((piece) => framing.take(Buffer.from(piece)))).toString(),
    framing.isWhole(true)];

  test("chunks, in pieces of any length", () => {
    const text = "3\r\nabc\r\n02;x=y\r\nde\r\n0\r\nA: b\r\n\r\n";
    for (let size = 1; size <= text.length; size += 1) {
      const pieces = text.match(new RegExp("[^]{1," + size + "}", "g"));
      assert.deepEqual(taken(new Chunks(), pieces), ["abcde", true]);
    }
    for (const broken of ["3\r\nabcd\r\n", "x\r\n", "3\nabc\r\n", "2\r\nab\r\n0\r\n"]) {
      assert.equal(taken(new Chunks(), [broken])[1], false, broken);
    }
  });

  test("lengths", () => {
    const of = (...pairs) => framingOf({ headers: pairs });
    assert.deepEqual(taken(of(["content-length", "2, 02"]), ["a", "bc"]), ["ab", true]);
    assert.deepEqual(taken(of(["Content-Length", "3"], ["Content-Length", "4"]), ["abc"]), ["", false]);
    assert.deepEqual(taken(of(["Content-Length", "3"]), ["ab"]), ["ab", false]);
    assert.deepEqual(taken(of(), ["ab"]), ["ab", true]);
    assert.deepEqual(taken(of(["Transfer-Encoding", "gzip"]), ["ab"]), ["", false]);
  });
});

// ---- coded bodies: what is cut or wrong in them is read as docs/BROWSERS.md says that browsers do

const GZIP = zlib.gzipSync(TEXT);
const DEFLATE = zlib.deflateSync(TEXT);

function flipped(data, fromEnd) {
  const copy = Buffer.from(data);
  copy[copy.length - fromEnd] ^= 0xff;
  return copy;
}

// The head of gzip, a stored block of five bytes, and a block of a type that there is not.
const BROKEN = Buffer.concat([GZIP.subarray(0, 10), Buffer.from([0, 5, 0, 0xfa, 0xff, ...Buffer.from("hello"), 7]),
  Buffer.alloc(200)]);
// With a name and a checksum of the head.
const NAMED = Buffer.concat([Buffer.from([0x1f, 0x8b, 8, 10, 0, 0, 0, 0, 0, 3]), Buffer.from("name\0"),
  Buffer.from([1, 2]), GZIP.subarray(10)]);

const READ = {
  "gzip": GZIP, "x-gzip": GZIP, "GZIP": NAMED, "deflate": DEFLATE, " deflate": zlib.deflateRawSync(TEXT),
  "br": zlib.brotliCompressSync(TEXT), "deflate, gzip": zlib.gzipSync(DEFLATE), "gzip,": GZIP.subarray(0, -8),
  "gzip, ": flipped(GZIP, 8), ",gzip": flipped(GZIP, 4), "identity, deflate": DEFLATE.subarray(0, -4),
  "identity, gzip": Buffer.concat([GZIP, Buffer.from("more")]), "foo": Buffer.from(TEXT),
};
const REFUSED = { "gzip": Buffer.from(TEXT), "x-gzip": BROKEN, "gzip, gzip": GZIP, "deflate": flipped(DEFLATE, 1),
  "br": Buffer.from(TEXT) };

const coded = (coding, body, more = {}) => says(200, { "Content-Encoding": coding, ...more }, body);

// Each byte in a chunk of its own.
const inBytes = (coding, body) => (request, response) => {
  response.writeHead(200, { "Content-Encoding": coding });
  body.forEach((byte) => response.write(Buffer.from([byte])));
  response.end();
};

async function fetched(answer, init = {}) {
  const { page } = await pageTo(answer);
  return page.fetch("/", init);
}

describe("coded bodies", () => {
  after(closeAll);

  test("what is read", async () => {
    for (const [coding, body] of Object.entries(READ)) {
      const counted = coded(coding, body, { "Content-Length": body.length });
      for (const answer of [coded(coding, body), counted, inBytes(coding, body)]) {
        const response = await fetched(answer);
        assert.equal(response.headers.get("content-encoding"), coding.trim());
        assert.equal(await response.text(), TEXT, coding);
      }
    }
  });

  test("what is refused while it is read", async () => {
    for (const [coding, body] of Object.entries(REFUSED)) {
      for (const answer of [coded(coding, body), inBytes(coding, body)]) {
        await assert.rejects((await fetched(answer)).text(), TypeError, coding);
      }
    }
    await refused(fetched(coded("zstd", "x")), "Coding");
  });

  test("what is cut", async () => {
    const half = GZIP.subarray(0, GZIP.length >> 1);
    const text = await (await fetched(coded("gzip", half))).text();
    assert.ok(text.length > 0 && TEXT.startsWith(text), text);
    assert.equal(await (await fetched(coded("gzip", ""))).text(), "");
    const cut = (request, response) => {
      response.writeHead(200, { "Content-Encoding": "gzip", "Content-Length": GZIP.length }).write(half);
      response.socket.end();
    };
    await assert.rejects((await fetched(cut)).text(), TypeError);
  });

  test("it comes while it is decoded", async () => {
    const { page, held } = await heldPage();
    const asked = page.fetch("/");
    const answer = await held;
    answer.writeHead(200, { "Content-Encoding": "gzip" });
    const gzip = zlib.createGzip({ flush: zlib.constants.Z_SYNC_FLUSH });
    gzip.pipe(answer);
    gzip.write("ab");
    const reader = (await asked).body.getReader();
    assert.equal(textOf(await reader.read()), "ab");
    gzip.end("cd");
    assert.equal(textOf(await reader.read()), "cd");
    assert.equal((await reader.read()).done, true);
  });

  test("no body, an integrity text, a limit, and what is given up", async () => {
    const none = [await fetched(coded("gzip", GZIP), { method: "HEAD" }),
      await fetched(says(204, { "Content-Encoding": "gzip" }))];
    assert.deepEqual(none.map(({ body }) => body), [null, null]);
    const integrity = "sha256-" + createHash("sha256").update(TEXT).digest("base64");
    assert.equal(await (await fetched(coded("gzip", GZIP), { integrity })).text(), TEXT);
    await refused(fetched(coded("gzip", zlib.gzipSync("other")), { integrity }), "Integrity");
    await refused(fetched(coded("gzip", "other"), { integrity }), "Coding", "not gzip");
    const { made } = await serve(coded("gzip", GZIP));
    const small = new Page(APP, { connectTo: { "*": made }, limit: 1000 });
    assert.ok(GZIP.length < 1000);
    await assert.rejects((await small.fetch("/")).text(), TypeError);
  });

  test("the codings that are asked for", async () => {
    const { page, server } = await pageTo(says(200, { "Access-Control-Allow-Origin": "*" }));
    await page.fetch("/");
    await page.fetch("/", { headers: { Range: "bytes=0-3" } });
    const plain = new Page("http://app.example/", { connectTo: { "*": server.made } });
    await plain.fetch("/");
    assert.deepEqual(server.seen.map(({ headers }) => headers["accept-encoding"]),
      ["gzip, deflate, br", "identity", "gzip, deflate"]);
  });
});
