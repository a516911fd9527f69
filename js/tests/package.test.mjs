// The package: its allocator, its size, its declarations, and what npm makes of it.
import { spawnSync } from "node:child_process";
import fs from "node:fs";
import os from "node:os";
import path from "node:path";
import test from "node:test";
import { pathToFileURL } from "node:url";
import zlib from "node:zlib";
import { compare } from "../../view/tests/base.js";
import { BUILT, ROOT, isThere } from "./built.mjs";

const MOST_COMPRESSED = 600000; // bytes
const HERE = path.join(ROOT, "js", "tests");

// A folder of its own, until the test is over.
function folderOf(context) {
  const folder = fs.mkdtempSync(path.join(os.tmpdir(), "js-check-"));
  context.after(() => fs.rmSync(folder, { recursive: true, force: true }));
  return folder;
}

const without = (program, word = "--version") => (isThere(program, word) ? false : "there is no " + program);

test("the allocator by itself", { skip: without("cc") }, async (context) => {
  const program = path.join(folderOf(context), "memory_test");
  const sources = ["memory.c", "numbers.c", "tests/memory_test.c"].map((name) => path.join(ROOT, "js", name));
  const made = spawnSync("cc", ["-std=gnu11", "-O2", "-Wall", "-Wextra", "-Werror", ...sources, "-o", program],
    { encoding: "utf8" });
  await compare(context, "memory.c", made.stderr, "");
  for (const seed of ["1", "2", "3"]) {
    const ran = spawnSync(program, [seed, "200000"], { encoding: "utf8" });
    await compare(context, "memory.c, seed " + seed, [ran.status, ran.stderr], [0, ""]);
  }
  context.diagnostic("600,000 steps of a random caller of the allocator with guard bytes");
});

test("the size", async (context) => {
  const bytes = fs.readFileSync(path.join(BUILT, "fiorrudda.wasm"));
  const small = zlib.brotliCompressSync(bytes).length;
  const packed = zlib.gzipSync(bytes, { level: 9 }).length;
  await compare(context, "the module, compressed by brotli: at most 0.6 MB", small <= MOST_COMPRESSED, true);
  const ready = spawnSync(process.execPath, ["--input-type=module", "-e", "const begun = performance.now();"
    + " await import(" + JSON.stringify(pathToFileURL(path.join(BUILT, "index.js")).href) + ");"
    + " console.log(performance.now() - begun)"], { encoding: "utf8" });
  context.diagnostic("the module has " + bytes.length + " bytes, " + small + " by brotli, " + packed
    + " by gzip, and is ready in " + Math.round(Number(ready.stdout)) + " ms");
});

test("the declarations", { skip: without("tsc") }, async (context) => {
  const folder = folderOf(context);
  fs.mkdirSync(path.join(folder, "node_modules"), { recursive: true });
  fs.symlinkSync(BUILT, path.join(folder, "node_modules", "fiorrudda"), "dir");
  fs.copyFileSync(path.join(HERE, "used.ts"), path.join(folder, "used.ts"));
  fs.writeFileSync(path.join(folder, "package.json"), '{"type": "module"}');
  const ran = spawnSync("tsc", ["--strict", "--noEmit", "--target", "es2022", "--module", "node16",
    "--moduleResolution", "node16", "--lib", "es2022,dom,dom.iterable", "used.ts"], { cwd: folder, encoding: "utf8" });
  await compare(context, "tsc --strict", ran.stdout, "");
  context.diagnostic("tsc --strict takes the declarations");
});

test("npm pack", { skip: without("npm") }, async (context) => {
  const folder = folderOf(context);
  const env = { ...process.env, HOME: folder, npm_config_cache: path.join(folder, "cache"),
    npm_config_update_notifier: "false", npm_config_offline: "true" };
  const ran = spawnSync("npm", ["pack", "--dry-run", "--json", BUILT], { cwd: folder, encoding: "utf8", env });
  const files = ran.status === 0 ? JSON.parse(ran.stdout)[0].files.map((one) => one.path).sort() : ran.stderr;
  await compare(context, "the files", files, fs.readdirSync(BUILT).sort());
  context.diagnostic("npm packs " + files.length + " files");
});
