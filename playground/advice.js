"use strict";

// What bin/why says of a play: as the page has it of a question, and else as the server of bin/playground says it,
// where the page is of one.

class Advice {
  constructor({ questions, isServed }) {
    this.questions = questions;
    this.isServed = isServed;
  }

  // The text of a play with what is said between its lines.
  async told(scenario, play, signal) {
    const question = this.questions.find((one) => one.scenario === scenario);
    if (question !== undefined && readTold(question.told).play === play) {
      return question.told;
    }
    return this.isServed ? this.asked(scenario, play, signal) : play;
  }

  async asked(scenario, play, signal) {
    try {
      const response = await fetch("/told", { method: "POST", body: JSON.stringify({ scenario, play }), signal });
      const text = await response.text();
      return response.ok ? text : this.unsaid(play, text.trim());
    } catch (error) {
      return this.unsaid(play, "bin/playground does not answer");
    }
  }

  unsaid(play, reason) {
    return "# note: nothing is said of this play: " + reason + "\n" + play;
  }
}
