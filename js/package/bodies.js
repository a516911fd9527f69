// The body of an answer: as it comes, and as a script reads it.
import { LAST_CHUNK, chunkOf, framingOf } from "./answers.js";
import { decoded } from "./codings.js";

// ---- as it comes: pieces of what the engine is fed, and of what is shown

// What comes over a link, with the first bytes, be there some or none. A fault ends it, and is noted.
async function* arriving(first, link, ended) {
  yield first;
  try {
    for (let piece = await link.next(); piece !== null; piece = await link.next()) {
      yield piece;
    }
  } catch (fault) {
    ended.fault = fault;
  }
}

async function* unframed(pieces, framing, ended) {
  for await (const piece of pieces) {
    yield framing.take(piece);
    if (framing.isWhole(false)) {
      break;
    }
  }
  ended.isWhole = framing.isWhole(ended.fault === null);
}

// The engine is fed the bytes as they come, and says where they end.
async function* asItIs(pieces, framing) {
  for await (const piece of pieces) {
    yield { fed: piece, shown: framing.take(piece) };
  }
}

// The engine decodes none: it is fed in chunks what was decoded here.
async function* decodedFrom(pieces, framing, codings, ended) {
  for await (const data of decoded(unframed(pieces, framing, ended), codings)) {
    if (data.length > 0) {
      yield { fed: chunkOf(data), shown: data };
    }
  }
  if (ended.isWhole) {
    yield { fed: LAST_CHUNK, shown: LAST_CHUNK.subarray(0, 0) };
  }
}

// The pieces of a body behind a head. `codings` is null where it is fed as it is; `ended` has a fault of the link.
export function piecesOf({ head, first, link, codings, ended }) {
  const [pieces, framing] = [arriving(first, link, ended), framingOf(head)];
  return codings === null ? asItIs(pieces, framing) : decodedFrom(pieces, framing, codings, ended);
}

// ---- as a script reads it

// What has come waits here, however slowly it is read. `done` is called once nothing more can be read.
export class Body {
  constructor(done) {
    Object.assign(this, { done, waiting: [], count: 0, hasEnded: false, fault: null, wake: () => {} });
    this.stream = new ReadableStream({ type: "bytes", start: (controller) => { this.controller = controller; },
      pull: () => this.#pull(), cancel: () => this.#finish(null) }, { highWaterMark: 0 });
  }

  add(bytes) {
    if (!this.hasEnded && bytes.length > 0) {
      this.waiting.push(Uint8Array.from(bytes)); // a stream takes the memory of what it is given
      this.count += bytes.length;
      this.wake();
    }
  }

  // The end, or a fault behind what has come.
  end(fault = null) {
    if (!this.hasEnded) {
      Object.assign(this, { hasEnded: true, fault });
      this.wake();
    }
  }

  // What has come is not read any more.
  abort(reason) {
    this.controller.error(reason);
    this.#finish(reason);
  }

  #finish(fault) {
    this.waiting = [];
    this.end(fault);
    this.done();
  }

  async #pull() {
    while (this.waiting.length === 0 && !this.hasEnded) {
      await new Promise((resolve) => { this.wake = resolve; });
    }
    if (this.waiting.length > 0) {
      this.controller.enqueue(this.waiting.shift());
    } else if (this.fault !== null) {
      this.done();
      throw this.fault;
    } else {
      this.done();
      this.controller.close();
      this.controller.byobRequest?.respond(0);
    }
  }
}
