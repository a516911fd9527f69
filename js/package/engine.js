// The WebAssembly module, and its memory: texts are lent to a call, and what it writes is read. Pointers are BigInts, and
// stay here, in calls.js and in the handles of index.js.
import { CODE } from "./calls.js";

const TEXTS = 65536; // bytes that hold the texts of most calls
const ROOM = 1 << 20; // and what most calls write, a play too
const OUTS = 8; // numbers that a call tells

const encoder = new TextEncoder();

export class Engine {
  // `module` is compiled; memory is refused beyond so many bytes, where they are given.
  constructor(module, limit) {
    this.exports = new WebAssembly.Instance(module, {}).exports;
    if (limit !== undefined) {
      this.exports.room_limit(BigInt(limit));
    }
    this.texts = this.exports.room_of(BigInt(TEXTS));
    this.room = this.exports.room_of(BigInt(ROOM));
    this.roomSize = ROOM;
    this.outs = this.exports.room_of(BigInt(8 * (OUTS + 1)));
    if ([this.texts, this.room, this.outs].includes(0n)) {
      throw new RangeError("memory was refused for the engine itself");
    }
    this.length = 0n; // of what was lent last
    this.used = 0;
    this.outsUsed = 0;
    this.large = [];
    this.view();
  }

  // The memory's bytes: another array after it grew.
  view() {
    const { buffer } = this.exports.memory;
    this.bytes = new Uint8Array(buffer);
    this.textRoom = new Uint8Array(buffer, Number(this.texts), TEXTS);
    this.numbers = new DataView(buffer);
    return this.bytes;
  }

  memory() {
    return this.bytes.length === 0 ? this.view() : this.bytes;
  }

  // Room for so many bytes until the call is done.
  place(size) {
    if (this.used + size > TEXTS) {
      const at = this.exports.room_of(BigInt(size));
      if (at === 0n) {
        throw new RangeError("memory was refused for a text of " + size + " bytes");
      }
      this.large.push(at);
      return at;
    }
    const at = this.texts + BigInt(this.used);
    this.used += size;
    return at;
  }

  // A text, as a string or bytes, in the memory: where it stands. Its length is `length`.
  lend(text) {
    if (typeof text !== "string") {
      return this.lendBytes(asBytes(text));
    }
    const start = this.used;
    if (start + 3 * text.length > TEXTS) {
      return this.lendBytes(encoder.encode(text));
    }
    this.memory();
    const { written } = encoder.encodeInto(text, start === 0 ? this.textRoom : this.textRoom.subarray(start));
    this.used = start + written;
    this.length = BigInt(written);
    return start === 0 ? this.texts : this.texts + BigInt(start);
  }

  lendBytes(bytes) {
    const at = this.place(bytes.length);
    this.memory().set(bytes, Number(at));
    this.length = BigInt(bytes.length);
    return at;
  }

  // Where a call tells a number.
  out() {
    const at = this.outs + BigInt(8 * (this.outsUsed + 1));
    this.outsUsed += 1;
    this.memory();
    this.numbers.setBigUint64(Number(at), 0n, true);
    return at;
  }

  outU32(at) {
    this.memory();
    return this.numbers.getUint32(Number(at), true);
  }

  outU64(at) {
    this.memory();
    return Number(this.numbers.getBigUint64(Number(at), true));
  }

  // The code of a call that writes into the room, and a copy of what it wrote. Where the room is too short there is a larger
  // one from then on: a call does its whole work before it says so.
  written(call) {
    let code = this.writing(call);
    if (code === CODE.TOO_SHORT) {
      code = this.enlarge(this.outU64(this.outs)) ? this.writing(call) : CODE.OUT_OF_MEMORY;
    }
    return { code, bytes: code === CODE.OK || code === CODE.NO ? this.copied() : null };
  }

  writing(call) {
    this.memory();
    this.numbers.setBigUint64(Number(this.outs), 0n, true);
    return call(this.room, BigInt(this.roomSize), this.outs);
  }

  enlarge(size) {
    const room = this.exports.room_of(BigInt(size));
    if (room === 0n) {
      return false;
    }
    this.exports.room_free(this.room);
    [this.room, this.roomSize] = [room, size];
    return true;
  }

  copied() {
    const start = Number(this.room);
    return this.memory().slice(start, start + this.outU64(this.outs));
  }

  // What was lent is given back.
  done() {
    this.used = 0;
    this.outsUsed = 0;
    while (this.large.length > 0) {
      this.exports.room_free(this.large.pop());
    }
  }

  // An empty handle: where it stands, or 0n where memory is refused.
  handle() {
    const at = this.exports.room_of(8n);
    if (at !== 0n) {
      this.memory();
      this.numbers.setBigUint64(Number(at), 0n, true);
    }
    return at;
  }

  // Frees a handle, and what it holds.
  free(at) {
    this.exports.fiorrudda_free(at);
    this.exports.room_free(at);
  }
}

function asBytes(text) {
  if (text instanceof Uint8Array) {
    return text;
  }
  if (ArrayBuffer.isView(text)) {
    return new Uint8Array(text.buffer, text.byteOffset, text.byteLength);
  }
  if (text instanceof ArrayBuffer) {
    return new Uint8Array(text);
  }
  throw new TypeError("a text is a string or a Uint8Array, and not " + (text === null ? "null" : typeof text));
}
