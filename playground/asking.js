"use strict";

// Wants plays, one at a time: a play that another text has overtaken is given up. `player.play(text, signal)` gives
// what came: the `text` of a play, the `place` where the scenario is refused, or a `failure`.
// `told(text, play, signal)` gives a play with what is said of it.

const longestAsked = typeof module === "undefined" ? LONGEST_SCENARIO : require("./link.js").LONGEST_SCENARIO;

class Asking {
  constructor({ player, told, answered }) {
    this.player = player;
    this.told = told;
    this.answered = answered;
    this.wanted = null;
    this.isAsking = false;
  }

  async want(text) {
    this.wanted = text;
    if (this.isAsking) {
      this.given.abort();
      return;
    }
    this.isAsking = true;
    while (this.wanted !== null) {
      const asked = this.wanted;
      this.wanted = null;
      const answer = await this.ask(asked);
      if (this.wanted === null) {
        this.answered(asked, answer);
      }
    }
    this.isAsking = false;
  }

  async ask(text) {
    this.given = new AbortController();
    const { signal } = this.given;
    if (new Blob([text]).size > longestAsked) {
      return { failure: "a scenario has no more than " + longestAsked + " bytes" };
    }
    const answer = await this.player.play(text, signal);
    return answer.text === undefined || signal.aborted ? answer
      : { ...answer, text: await this.told(text, answer.text, signal) };
  }
}

if (typeof module !== "undefined") {
  module.exports = { Asking };
}
