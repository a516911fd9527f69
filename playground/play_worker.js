// Plays scenarios in a worker of the page, which ends it where a play takes too long. It stands behind calls.js and
// engine.js.

const MOST_TEXT = 4194304; // bytes of a play that the page draws

let engine = null;
let megabytes = 0;

function answerOf(text) {
  const { code, bytes } = play(engine, text);
  if (code === CODE.OUT_OF_MEMORY) {
    return { failure: "it needs more memory than " + megabytes + " MB, and was stopped" };
  }
  if (bytes.length > MOST_TEXT) {
    return { failure: "the text of the play is longer than " + MOST_TEXT + " bytes, and is not shown" };
  }
  const told = new TextDecoder().decode(bytes);
  return code === CODE.OK ? { text: told } : { place: told };
}

function answered(text) {
  try {
    return answerOf(text);
  } catch (error) {
    return { failure: error.name + ": " + error.message };
  }
}

onmessage = ({ data }) => {
  if (data.module !== undefined) {
    ({ megabytes } = data);
    engine = new Engine(data.module, megabytes * 1048576);
  } else {
    const begun = performance.now();
    const answer = answered(data.text);
    postMessage({ ...answer, milliseconds: performance.now() - begun });
  }
};
