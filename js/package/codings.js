// Decodes a body that comes in gzip, deflate or br, piece by piece. As browsers do it, one that is cut gives what came
// of it, what stands behind its end is left out, and nobody looks at the checksum of gzip.
import zlib from "node:zlib";
import { valuesOf } from "./answers.js";

const CUT = { finishFlush: zlib.constants.Z_SYNC_FLUSH };
const CUT_BR = { finishFlush: zlib.constants.BROTLI_OPERATION_FLUSH };
const GZIP = [0x1f, 0x8b, 8];
const LONGEST_HEAD = 65536; // bytes before the data of gzip
const TOKEN = /^[!#$%&'*+.^_`|~0-9a-z-]+$/;
const DECODERS = { gzip: gunzipped, "x-gzip": gunzipped, deflate: inflated, br: unbrotlied };
const OF_BROWSERS = [...Object.keys(DECODERS), "zstd", "dcb", "dcz"];

// A body is not what its head says.
export class WrongCoding extends Error {}

// The codings to take off a body, in order; null where one is not decoded here. Where browsers know none of them the
// page gets the bytes as they came.
export function codingsOf({ headers }) {
  const words = valuesOf(headers, "content-encoding").flatMap((value) => value.split(","));
  const names = words.map((word) => word.trim().toLowerCase()).filter((name) => !["", "identity"].includes(name));
  if (names.every((name) => TOKEN.test(name) && !OF_BROWSERS.includes(name))) {
    return [];
  }
  return names.every((name) => Object.hasOwn(DECODERS, name)) ? names.reverse() : null;
}

export function decoded(pieces, codings) {
  return codings.reduce((made, coding) => DECODERS[coding](made, coding), pieces);
}

// ---- the decoders

// What stands behind the end of the coding is read, and left out.
async function feed(pieces, machine) {
  for await (const piece of pieces) {
    if (!machine.destroyed && piece.length > 0) {
      await new Promise((resolve) => machine.write(piece, resolve));
    }
  }
  if (!machine.destroyed) {
    machine.end();
  }
}

async function* through(pieces, machine, coding) {
  machine.on("error", () => {}); // told by the loop
  const isFed = feed(pieces, machine).catch((fault) => machine.destroy(fault));
  try {
    yield* machine;
  } catch (fault) {
    throw fault instanceof WrongCoding ? fault : new WrongCoding("the body is not " + coding + ", as its head says");
  }
  await isFed;
}

// Reads until `endOf` the first bytes is known, or all came. `rest` is what follows.
async function beginningOf(pieces, endOf) {
  const rest = pieces[Symbol.asyncIterator]();
  let bytes = Buffer.alloc(0);
  for (let end = null; end === null; end = endOf(bytes)) {
    const { value, done } = await rest.next();
    if (done) {
      return { bytes, end: bytes.length, rest };
    }
    bytes = Buffer.concat([bytes, value]);
  }
  return { bytes, end: endOf(bytes), rest };
}

async function* joined(first, rest) {
  if (first.length > 0) {
    yield first;
  }
  yield* { [Symbol.asyncIterator]: () => rest };
}

async function* gunzipped(pieces, coding) {
  const { bytes, end, rest } = await beginningOf(pieces, gzipHeadEnd);
  yield* through(joined(bytes.subarray(end), rest), zlib.createInflateRaw(CUT), coding);
}

// With the head of zlib, or without one, as some servers send it.
async function* inflated(pieces, coding) {
  const { bytes, rest } = await beginningOf(pieces, (first) => (first.length < 2 ? null : 2));
  const hasHead = bytes.length >= 2 && bytes[0] % 16 === 8 && bytes.readUInt16BE(0) % 31 === 0;
  yield* through(joined(bytes, rest), hasHead ? zlib.createInflate(CUT) : zlib.createInflateRaw(CUT), coding);
}

async function* unbrotlied(pieces, coding) {
  yield* through(pieces, zlib.createBrotliDecompress(CUT_BR), coding);
}

// Where the data of gzip begin behind their head (RFC 1952); null where more of it is to come.
function gzipHeadEnd(bytes) {
  if (GZIP.some((byte, at) => at < bytes.length && bytes[at] !== byte) || bytes.length > 3 && bytes[3] & 0xe0) {
    throw new WrongCoding("the body is not gzip, as its head says");
  }
  const end = bytes.length < 10 ? null : endOfFields(bytes);
  if (end !== null && end <= bytes.length) {
    return end;
  }
  if (bytes.length > LONGEST_HEAD) {
    throw new WrongCoding("the head of gzip is too long");
  }
  return null;
}

// The end of the fields that the flags of gzip name; null where it is not known yet.
function endOfFields(bytes) {
  const flags = bytes[3];
  let at = 10;
  if (flags & 4) {
    if (bytes.length < 12) {
      return null;
    }
    at += 2 + bytes.readUInt16LE(10);
  }
  for (const bit of [8, 16]) {
    if (flags & bit) {
      at = bytes.indexOf(0, at) + 1;
      if (at === 0) {
        return null;
      }
    }
  }
  return at + (flags & 2 ? 2 : 0);
}
