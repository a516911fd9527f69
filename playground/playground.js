"use strict";

// The playground: what is edited is checked at once, played as soon as one pauses, and drawn.

const given = JSON.parse(document.getElementById("given").textContent);
const allQuestions = given.gallery.flatMap(({ questions }) => questions);
const schemas = new Schemas(given.schema);
const byId = (id) => document.getElementById(id);

// ---- what is wrong in a text, before the program has looked at it

function localProblems(text) {
  const { root, faults } = readJson(text);
  if (faults.length > 0 || root === null) {
    return faults.slice(0, 1);
  }
  return schemaProblems(schemas, root).map(({ node, of, sentence }) => {
    return { start: node.start, end: shownEnd(node), sentence, inside: of === undefined ? null : of.start };
  });
}

// ---- what the program has said

// The refused place first, and then what is wrong elsewhere; where both are of one place the schema has the sentence.
// An object is refused for a key that does not belong there, before any of its keys is looked at: that key is marked
// then.
function problemsWith(text, place) {
  const local = localProblems(text);
  const { root } = readJson(text);
  const whole = place === "json" ? local[0] || { start: 0, end: 0 } : rangeOfPlace(root, place) || { start: 0, end: 0 };
  const same = local.find(({ inside }) => inside === whole.start) || local.find(({ start }) => start === whole.start);
  const range = same || whole;
  const sentence = "refused at " + place + (same === undefined ? "" : ": " + same.sentence);
  return [{ ...range, sentence, refused: true }, ...local.filter((problem) => problem !== same)];
}

function tellState(text, isStale) {
  byId("state").textContent = text;
  byId("state").classList.toggle("no-play", isStale);
  ["diagram", "chosen", "text", "history"].forEach((name) => byId(name).classList.toggle("stale", isStale));
}

function showAnswer(text, answer) {
  if (answer.text !== undefined) {
    editor.setProblems([]);
    drawPlay(answer.text, "#docs/");
    tellState("Played.", false);
  } else if (answer.place !== undefined) {
    const [refused] = editor.setProblems(problemsWith(text, answer.place));
    tellState("The program refuses line " + refused.line + ". What is drawn is of before.", true);
  } else {
    editor.setProblems(localProblems(text));
    tellState("There is no play: " + answer.failure + ".", true);
  }
}

const advice = new Advice({ questions: allQuestions, isServed: given.isServed });
const asking = new Asking({ player: new WorkerPlayer(given), told: (...asked) => advice.told(...asked),
  answered: (text, answer) => {
    if (text === editor.text()) {
      showAnswer(text, answer);
    }
  } });

// Another text, of a question or a link: nothing of it is folded.
function showText(text) {
  shownChoice.folded.clear();
  editor.setText(text);
}

// ---- the link and the question

async function keepLink(text) {
  const question = allQuestions.find(({ scenario }) => scenario === text);
  const fragment = question === undefined ? await fragmentOf(text) : "#gallery/" + question.name;
  if (text === editor.text()) {
    history.replaceState(null, "", fragment);
    showQuestion(question);
  }
}

// The question whose scenario is in the editor; none where it was changed.
function showQuestion(question) {
  byId("question").value = question === undefined ? "" : question.name;
  byId("answer").hidden = question === undefined;
  byId("answer").href = question === undefined ? "" : "#gallery/" + question.name + "/README.md";
}

const editor = new Editor({ schemas, problemsOf: localProblems, changed: () => {
  const text = editor.text();
  byId("copied").textContent = "";
  keepLink(text);
  asking.want(text);
} });

function fillQuestions() {
  const own = make("option", "", "your own scenario");
  own.value = "";
  const groups = given.gallery.map(({ title, questions }) => {
    const group = make("optgroup", "");
    group.label = title;
    group.append(...questions.map(({ name, question }) => Object.assign(make("option", "", question), { value: name })));
    return group;
  });
  byId("question").replaceChildren(own, ...groups);
  byId("question").onchange = (event) => {
    const question = allQuestions.find(({ name }) => name === event.target.value);
    if (question !== undefined) {
      showText(question.scenario);
    }
  };
}

async function openLink() {
  let text = null;
  try {
    text = await textOfFragment(location.hash, allQuestions);
  } catch (error) {
    tellState("The link holds no scenario that can be read.", true);
    return;
  }
  if (text === null ? editor.text() === "" : text !== editor.text()) {
    showText(text === null ? allQuestions[0].scenario : text);
  }
}

byId("copy").onclick = async () => {
  await keepLink(editor.text());
  try {
    await navigator.clipboard.writeText(location.href);
    byId("copied").textContent = "The link holds this scenario.";
  } catch (error) {
    byId("copied").textContent = "The address of this page holds this scenario: copy it.";
  }
};
window.onhashchange = openLink;
fillQuestions();
openLink();
