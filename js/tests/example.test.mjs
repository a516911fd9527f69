// The example's test catches what is wrong in its server, and passes once that is mended; the page about JavaScript
// shows both as they are.
import assert from "node:assert/strict";
import { spawnSync } from "node:child_process";
import fs from "node:fs";
import os from "node:os";
import path from "node:path";
import test from "node:test";
import { compare } from "../../view/tests/base.js";
import { BUILT, ROOT } from "./built.mjs";

const WRONG = '"Access-Control-Allow-Headers", "Authorization"';
const SAID = "says `Access-Control-Allow-Headers: Authorization`, which does not allow `content-type`";

const textOf = (name) => fs.readFileSync(path.join(ROOT, "js", "example", name), "utf8");
const [server, its] = ["server.mjs", "server.test.mjs"].map(textOf);

// What `node --test` makes of a server.
function tested(folder, text) {
  fs.writeFileSync(path.join(folder, "server.mjs"), text);
  return spawnSync(process.execPath, ["--test", "server.test.mjs"], { cwd: folder, encoding: "utf8",
    env: { ...process.env, NODE_TEST_CONTEXT: undefined } });
}

test("the example", async (context) => {
  const folder = fs.mkdtempSync(path.join(os.tmpdir(), "js-example-"));
  context.after(() => fs.rmSync(folder, { recursive: true, force: true }));
  fs.writeFileSync(path.join(folder, "server.test.mjs"), its);
  fs.mkdirSync(path.join(folder, "node_modules"));
  fs.symlinkSync(BUILT, path.join(folder, "node_modules", "fiorrudda"), "dir");
  await context.test("the wrong CORS is caught", () => {
    const { status, stdout } = tested(folder, server);
    assert.equal(status, 1, stdout);
    assert.ok(stdout.includes("PreflightHeader") && stdout.includes(SAID), stdout);
  });
  await context.test("the right one passes", () => {
    const { status, stdout } = tested(folder, server.replace(WRONG, WRONG.replace("Authorization", "Content-Type")));
    assert.equal(status, 0, stdout);
  });
  context.diagnostic("the example's test catches the wrong CORS, and passes once it is mended");
});

// As the page shows a file: each line behind four spaces.
const shown = (text) => text.trimEnd().split("\n").map((line) => (line === "" ? "" : "    " + line)).join("\n");

test("docs/javascript.md shows the example", async (context) => {
  const page = fs.readFileSync(path.join(ROOT, "docs", "javascript.md"), "utf8");
  await compare(context, "what it lacks", [shown(server), shown(its), SAID].filter((text) => !page.includes(text)), []);
});
