"use strict";

// Plays in a worker, by the module that the page holds. A worker whose play takes too long or fails is ended, and the
// next play has another one.

class WorkerPlayer {
  constructor({ module, worker, seconds, megabytes }) {
    this.packed = module;
    this.script = worker;
    this.seconds = seconds;
    this.megabytes = megabytes;
    this.module = null;
    this.worker = null;
  }

  async play(text, signal) {
    this.module = this.module || await WebAssembly.compile(await unpacked(this.packed));
    if (signal.aborted) {
      return { failure: "given up" };
    }
    return this.played(this.worker || this.begun(), text, signal);
  }

  begun() {
    const address = URL.createObjectURL(new Blob([this.script], { type: "text/javascript" }));
    this.worker = new Worker(address);
    this.worker.postMessage({ module: this.module, megabytes: this.megabytes });
    return this.worker;
  }

  played(worker, text, signal) {
    return new Promise((resolve) => {
      const end = (answer) => {
        clearTimeout(late);
        signal.onabort = null;
        if (answer.failure !== undefined) {
          worker.terminate();
          this.worker = null;
        }
        resolve(answer);
      };
      const tooLong = "it took longer than " + this.seconds + " seconds, and was stopped";
      const late = setTimeout(() => end({ failure: tooLong }), this.seconds * 1000);
      signal.onabort = () => end({ failure: "given up" });
      worker.onmessage = ({ data }) => end(data);
      worker.onerror = (event) => end({ failure: event.message || "the worker failed" });
      worker.postMessage({ text });
    });
  }
}

// For checks: plays by the page's own player, or by another one with other limits.
function playChecked(text, limits) {
  const player = limits === undefined ? asking.player : new WorkerPlayer({ ...given, ...limits });
  return player.play(text, new AbortController().signal);
}

if (typeof module !== "undefined") {
  module.exports = { WorkerPlayer };
}
