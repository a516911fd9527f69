"use strict";

// The browsers that are there: a Chromium, or the one that CHROMIUM names, and a Firefox, or the one that FIREFOX
// names.

const { spawnSync } = require("child_process");
const { leave } = require("./base.js");
const { Chromium } = require("./chromium.js");
const { Firefox } = require("./firefox.js");

const KINDS = [
  { name: "Chromium", named: process.env.CHROMIUM, names: ["chromium", "chromium-browser", "google-chrome"],
    Browser: Chromium },
  { name: "Firefox", named: process.env.FIREFOX, names: ["firefox-esr", "firefox"], Browser: Firefox },
];

function isThere(program) {
  return spawnSync(program, ["--version"], { stdio: "ignore" }).status === 0;
}

// Calls `use(name, browser)` with each browser that starts, one after the other. Gives what was left out.
async function withBrowsers(use) {
  const left = [];
  for (const { name, named, names, Browser } of KINDS) {
    const program = (named ? [named] : names).find(isThere);
    if (program === undefined) {
      left.push(name + ", since there is none");
      continue;
    }
    const browser = new Browser(program);
    try {
      await browser.start();
    } catch (error) {
      left.push(name + ", since it does not start");
      await browser.close();
      continue;
    }
    await use(name, browser).finally(() => browser.close());
  }
  return left;
}

// The same as tests: one for each browser, with its name. Gives in how many browsers.
async function inBrowsers(context, use) {
  let count = 0;
  const left = await withBrowsers((name, browser) => {
    count += 1;
    return context.test(name, (own) => use(own, browser, name));
  });
  for (const part of left) {
    await leave(context, part);
  }
  return count;
}

module.exports = { inBrowsers, withBrowsers };
