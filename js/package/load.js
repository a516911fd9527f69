// Loads the module that lies beside this file: by Node's file system there, and by `fetch` elsewhere.
import { Engine } from "./engine.js";

const FILE = new URL("fiorrudda.wasm", import.meta.url);
const isNode = typeof process === "object" && Boolean(process.versions && process.versions.node);

function builtIn(name) {
  return import("node:" + name); // a name that no bundler follows
}

async function compiled() {
  if (isNode && FILE.protocol === "file:") {
    const { readFile } = await builtIn("fs/promises");
    return WebAssembly.compile(await readFile(FILE));
  }
  const answer = await fetch(FILE);
  if (!answer.ok) {
    throw new Error("Fiorrudda's module was not found at " + FILE + ": the server answers " + answer.status + ".");
  }
  return WebAssembly.compile(await answer.arrayBuffer());
}

export async function load() {
  return new Engine(await compiled());
}
