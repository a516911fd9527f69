"use strict";

// Says on standard error how far a long run is: on a terminal in one line, else a few times.

const STEPS = 10;

class Progress {
  constructor(name, all) {
    Object.assign(this, { name, all, done: 0, told: 0 });
  }

  step(more) {
    this.done += 1;
    const text = this.name + ": " + this.done + " of " + this.all + (more === "" ? "" : ", " + more);
    if (process.stderr.isTTY) {
      process.stderr.write("\r" + text.padEnd(78) + (this.done === this.all ? "\n" : ""));
    } else if (Math.floor(this.done * STEPS / this.all) > this.told) {
      this.told = Math.floor(this.done * STEPS / this.all);
      process.stderr.write(text + "\n");
    }
  }
}

module.exports = { Progress };
