"use strict";

// A scenario in the fragment of a link, which no browser sends to a server: `#z=` and the compressed text in base64 for
// URLs; or `#gallery/NAME`, a question of the gallery as it stands there.

const LONGEST_SCENARIO = 4194304; // bytes: what fetchplay reads

function base64Of(bytes) {
  const text = Array.from(bytes, (byte) => String.fromCharCode(byte)).join("");
  return btoa(text).replace(/\+/g, "-").replace(/\//g, "_").replace(/=+$/, "");
}

function bytesOf(base64) {
  return Uint8Array.from(atob(base64.replace(/-/g, "+").replace(/_/g, "/")), (sign) => sign.charCodeAt(0));
}

// All bytes that come out of a stream; an error where they are more than a scenario has, as a small link may hold many.
async function gathered(stream) {
  const pieces = [];
  let length = 0;
  for (const reader = stream.getReader(); ;) {
    const { done, value } = await reader.read();
    if (done) {
      return new Uint8Array(await new Blob(pieces).arrayBuffer());
    }
    length += value.length;
    if (length > LONGEST_SCENARIO) {
      await reader.cancel();
      throw new RangeError("the link holds more than a scenario");
    }
    pieces.push(value);
  }
}

async function fragmentOf(text) {
  const stream = new Blob([text]).stream().pipeThrough(new CompressionStream("deflate-raw"));
  return "#z=" + base64Of(await gathered(stream));
}

// The scenario of a fragment; null where it holds none.
async function textOfFragment(fragment, questions) {
  const question = questions.find(({ name }) => fragment === "#gallery/" + name);
  if (question !== undefined) {
    return question.scenario;
  }
  if (!fragment.startsWith("#z=")) {
    return null;
  }
  const stream = new Blob([bytesOf(fragment.slice(3))]).stream().pipeThrough(new DecompressionStream("deflate-raw"));
  return new TextDecoder("utf-8", { fatal: true }).decode(await gathered(stream));
}

if (typeof module !== "undefined") {
  module.exports = { LONGEST_SCENARIO, fragmentOf, textOfFragment };
}
