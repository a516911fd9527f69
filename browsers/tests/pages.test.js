"use strict";

// A page is told from one of the same URL before it: a known host is visited at the URL that its own page may have, too.

const test = require("node:test");
const assert = require("node:assert");
const vm = require("node:vm");
const { Servers } = require("../servers.js");
const { Session } = require("../firefox.js");

const URL_OF_ALL = "https://shop.test/";

// The servers of a scenario without a certificate, which do not listen.
const servers = () => new Servers({ contextOf: () => ({}) });

// A browser in which scripts see these pages, one after another, and the last one from then on.
function browserThatShows(pages) {
  const left = [...pages];
  return {
    ended: null,
    looks: 0,
    ask: () => Promise.resolve({}),
    value(expression) {
      this.looks += 1;
      const page = left.length > 1 ? left.shift() : left[0];
      return Promise.resolve(vm.runInNewContext(expression, { document: { title: page.title }, location: page.url }));
    },
  };
}

test("each page has a title of its own, whatever scenario it is of", () => {
  const those = servers();
  const first = those.expect(URL_OF_ALL, []);
  those.become({});
  assert.notStrictEqual(those.expect(URL_OF_ALL, []).title, first.title);
});

test("a visit is not over while scripts run in an earlier page of its URL", async () => {
  const those = servers();
  const [before, page] = [those.expect(URL_OF_ALL, []), those.expect(URL_OF_ALL, [])];
  const browser = browserThatShows([before, before, page]);
  await new Session(browser, 1).visit(page);
  assert.strictEqual(browser.looks, 3);
});
