// The package that is checked: in the folder that is given, or that FIORRUDDA_JS names, or in out/js. And the native
// library beside it.
import { spawnSync } from "node:child_process";
import fs from "node:fs";
import path from "node:path";
import { fileURLToPath, pathToFileURL } from "node:url";

const ROOT = path.join(path.dirname(fileURLToPath(import.meta.url)), "..", "..");
const BUILT = path.resolve(process.argv[2] || process.env.FIORRUDDA_JS || path.join(ROOT, "out", "js"));
const LIBRARY = process.env.FIORRUDDA_LIBRARY || path.join(ROOT, "out", "lib", "libfiorrudda.so");

const inPackage = (file) => import(pathToFileURL(path.join(BUILT, file)).href);

function isThere(program, ...words) {
  return spawnSync(program, words, { stdio: "ignore" }).status === 0;
}

function hasNative() {
  return fs.existsSync(LIBRARY) && isThere("python3", "--version");
}

// What tests.js.native prints of the input.
function native(mode, input) {
  const words = [path.join(ROOT, "python", "run.py"), "tests.js.native", "native", mode];
  const ran = spawnSync("python3", words, { input, encoding: "utf8", maxBuffer: 1 << 30,
    env: { ...process.env, FIORRUDDA_LIBRARY: LIBRARY } });
  if (ran.status !== 0) {
    throw new Error("tests.js.native " + mode + ": " + ran.stderr);
  }
  return ran.stdout;
}

export { BUILT, ROOT, hasNative, inPackage, isThere, native };
