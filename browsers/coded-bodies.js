#!/usr/bin/env node
"use strict";

// What a browser gives a script of coded bodies that are cut or not what their head says: docs/BROWSERS.md has what came.
//
//     node browsers/coded-bodies.js
//
// serves a page on the loopback and prints its address. A browser that opens it sends back a line for each body, which is
// printed: how many characters fetch().text() gave, or its error. Then the server ends.

const net = require("net");
const zlib = require("zlib");

const TEXT = Buffer.from(JSON.stringify({ rows: [...Array(400).keys()] }));
const GZIP = zlib.gzipSync(TEXT);
const DEFLATE = zlib.deflateSync(TEXT);

function answer(lines, body) {
  const head = ["HTTP/1.1 200 OK", "Content-Type: text/plain", "Cache-Control: no-store", "Connection: close", ...lines, "", ""];
  return Buffer.concat([Buffer.from(head.join("\r\n")), body]);
}

// A body of this coding; its length is the right one where none is named.
function coded(coding, body, length = body.length) {
  return answer(["Content-Encoding: " + coding, "Content-Length: " + length], body);
}

function flipped(data, fromEnd) {
  const copy = Buffer.from(data);
  copy[copy.length - fromEnd] ^= 0xff;
  return copy;
}

// The head of gzip, a stored block of five bytes, and a block of a type that there is not.
function broken() {
  const block = [0, 5, 0, 0xfa, 0xff, ...Buffer.from("hello"), 7];
  return Buffer.concat([GZIP.subarray(0, 10), Buffer.from(block), Buffer.alloc(200)]);
}

function inChunks(data) {
  return Buffer.concat([Buffer.from(data.length.toString(16) + "\r\n"), data, Buffer.from("\r\n0\r\n\r\n")]);
}

const BODIES = {
  "gzip": coded("gzip", GZIP),
  "gzip, cut": coded("gzip", GZIP.subarray(0, GZIP.length / 2)),
  "gzip without its trailer": coded("gzip", GZIP.subarray(0, -8)),
  "gzip, another checksum": coded("gzip", flipped(GZIP, 8)),
  "gzip, another length": coded("gzip", flipped(GZIP, 4)),
  "gzip, broken": coded("gzip", broken()),
  "deflate without its checksum": coded("deflate", DEFLATE.subarray(0, -4)),
  "deflate, another checksum": coded("deflate", flipped(DEFLATE, 1)),
  "a text, said to be gzip": coded("gzip", TEXT),
  "gzip, said twice": coded("gzip, gzip", GZIP),
  "gzip twice, said once": coded("gzip", zlib.gzipSync(GZIP)),
  ...Object.fromEntries(["foo", "compress", "gzip, foo", "gzip, identity", "gzip,", '"gzip"', "gzip;q=1"]
    .map((coding) => ["gzip, said as " + coding, coded(coding, GZIP)])),
  "the length of the text": coded("gzip", GZIP, TEXT.length),
  "a length that is too long": coded("gzip", GZIP, GZIP.length + 5),
  "a length that is too short": coded("gzip", GZIP, GZIP.length / 2),
  "chunks, and a length": answer(["Transfer-Encoding: chunked", "Content-Length: 5"], inChunks(TEXT)),
  "two lengths": answer(["Content-Length: 5", "Content-Length: 7"], TEXT),
};

async function askAll(names) {
  const lines = [];
  for (const [number, name] of names.entries()) {
    const told = await fetch("/" + number)
      .then((response) => response.text().then((text) => text.length + " characters", (error) => "text(): " + error))
      .catch((error) => "fetch(): " + error);
    lines.push(name + ": " + told);
  }
  await fetch("/told", { method: "POST", body: lines.join("\n") });
}

const PAGE = "<!doctype html><title>coded bodies</title><script>(" + askAll + ")(" + JSON.stringify(Object.keys(BODIES))
  + ")</script>";

function answerTo(target) {
  return target === "/" ? answer(["Content-Type: text/html"], Buffer.from(PAGE)).toString().replace("text/plain", "text/html")
    : Object.values(BODIES)[Number(target.slice(1))] || "HTTP/1.1 404 Not Found\r\nContent-Length: 0\r\n\r\n";
}

// The body of a request, once it is there as a whole.
function wholeBody(request) {
  const length = /\r\ncontent-length: *(\d+)/i.exec(request);
  const body = request.slice(request.indexOf("\r\n\r\n") + 4);
  return length !== null && body.length >= Number(length[1]) ? body : null;
}

function serve(server, peer) {
  let request = "";
  peer.on("error", () => {});
  peer.on("data", (piece) => {
    request += piece.toString("latin1");
    const target = request.split(" ")[1];
    const told = target === "/told" ? wholeBody(request) : null;
    if (told !== null) {
      console.log(told);
      peer.end(answer([], Buffer.alloc(0)));
      server.close();
    } else if (target !== "/told" && request.includes("\r\n\r\n")) {
      peer.end(answerTo(target));
    }
  });
}

const server = net.createServer((peer) => serve(server, peer));
server.listen(0, "127.0.0.1", () => console.error("open http://127.0.0.1:" + server.address().port + "/"));
