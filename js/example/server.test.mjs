import assert from "node:assert/strict";
import http from "node:http";
import test from "node:test";
import { Page } from "fiorrudda/node";
import { answer } from "./server.mjs";

test("the shop's page may order", async (context) => {
  const server = http.createServer(answer).listen(0);
  context.after(() => server.close());
  Page.connectTo({ "https://api.example": server });
  const page = new Page("https://app.example/");
  const made = await page.fetch("https://api.example/orders", {
    method: "POST",
    headers: { "Content-Type": "application/json" },
    body: '{"item": 7}',
  });
  assert.equal(made.status, 201);
});
