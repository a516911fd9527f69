"use strict";

// Texts that view/check makes: a long play, a play of hostile texts, and texts that are no play.

function headOf(method, target, more) {
  const first = "  " + method + " " + target + " HTTP/1.1";
  return [first, "  Host: api.test", "  Accept: */*", ...more, "  Connection: close"];
}

// One PUT with its preflight, at a second of its own.
function putLines(number) {
  const asker = "http://page.test http://page.test other";
  const url = "http://api.test/" + number;
  const asked = "covers " + asker + " PUT () " + url + " at " + number + ": no";
  const learnt = "learn " + asker + " 5 PUT () " + url + " at " + number + ": done";
  const result = number % 7 === 0 ? ["result error 12 CorsCheck"] : ["result cors 200 " + url, "  body whole 2: ok"];
  const lines = ["fetch " + number, "call " + asked, "send http://api.test",
    ...headOf("OPTIONS", "/" + number, ["  Access-Control-Request-Method: PUT"]), "call " + learnt,
    "send http://api.test", ...headOf("PUT", "/" + number, []), ...result];
  return { lines, calls: [asked, learnt] };
}

// A play of one document with at least so many lines.
function longPlay(least) {
  const lines = ["fetchplay 1", "document 0 http://page.test"];
  const calls = [];
  for (let number = 0; lines.length + calls.length < least; number += 1) {
    const put = putLines(number);
    lines.push(...put.lines);
    calls.push(...put.calls);
  }
  const history = calls.map((call, turn) => turn + " 0 " + call);
  return [...lines, "end finished", "history", ...history, "done", ""].join("\n");
}

// A play of many documents that do nothing.
function widePlay(documents) {
  const parts = Array.from({ length: documents }, (nothing, number) => {
    return "document " + number + " http://d" + number + ".test\nend finished\n";
  });
  return "fetchplay 1\n" + parts.join("") + "history\ndone\n";
}

// A fetch that an enforced policy refuses by a directive.
function violatingPlay(directive) {
  return ["fetchplay 1", "document 0 http://page.test", "fetch 0",
    "violation 0 enforce " + directive + " http://a.test/", "result error 4 CspRequest", "end finished", "history", "done", ""].join("\n");
}

// What would end a script, begin a comment, or be run, if a page took it for more than text.
const HOSTILE = ["</script><script>window.ran=1</script>", "<!--<script>", "-->", "\"'`${window.ran=1}",
  "<img src=x onerror=window.ran=1>", "]]></style><svg onload=window.ran=1>", "&lt;/script&gt; &#60; \\x5cu003c"];

function hostilePlay() {
  const body = HOSTILE.join("");
  const length = body.replace(/\\x5c/g, "x").length;
  const headers = HOSTILE.map((text, index) => "  X-" + index + ": " + text);
  const url = "http://api.test/?'</script><script>window.ran=1</script>\\u003c";
  const lines = ["fetchplay 1", "document 0 http://page.test", "fetch 0", "violation 0 report connect-src " + url,
    "send http://api.test", ...headOf("POST", "/?'</script><!--", headers), "  body " + length + ": " + body,
    "result cors 200 " + url, ...headers, "  body whole " + length + ": " + body, "end finished", "history", "done",
    ""];
  return lines.join("\n");
}

// The same play as bin/why tells it: a line before it, what is said of the refusal, and the answer to the request.
function toldPlay(good) {
  const lines = good.split("\n");
  return [WARNING, ...lines.slice(0, 5), ...ADVICE, ...lines.slice(5, 14), ...ANSWER, ...lines.slice(14)].join("\n");
}

const WARNING = "# warning: line 3 of the scenario: nobody asks this server";
const ADVICE = ["# why: the host is a known one (HSTS)", "# change: serve the page over https, too",
  "# rule: docs/rules/fetch.md#main-fetch (same-origin/known-host)", "# note: a line of another kind"];
const ANSWER = ["< HTTP/1.1 200 Scripted", "< Content-Type: text/plain", "< (2 bytes follow)"];

// From examples/known-host.out, whose lines are numbered in the README: a name, a text that is no play, and the line at
// which it is refused, counted by hand.
function refusedTexts(good) {
  const lines = good.split("\n");
  const without = (line) => lines.filter((text, index) => index !== line - 1).join("\n");
  const instead = (line, text) => lines.map((old, index) => (index === line - 1 ? text : old)).join("\n");
  return [
    ["an empty text", "", 1],
    ["another version", instead(1, "fetchplay 2"), 1],
    ["CR before LF", good.replace(/\n/g, "\r\n"), 1],
    ["the second document first", instead(2, "document 1 http://a.test"), 2],
    ["a key that is no origin", instead(2, "document 0 a.test"), 2],
    ["a fetch that is left out", instead(3, "fetch 1"), 3],
    ["a number with a leading zero", instead(3, "fetch 00"), 3],
    ["a load of no kind", instead(3, "load 0 document"), 3],
    ["a reply that is none", instead(4, "call match a.test at 0: done"), 4],
    ["a time that is left out", instead(4, "call match a.test: yes"), 4],
    ["an error with another name", instead(5, "result error 5 CorsCheck"), 5],
    ["an error that there is not", instead(5, "result error 27 Unknown"), 5],
    ["a header that is left out", instead(5, "result error 11 PreflightHeader"), 5],
    ["a header too much", instead(5, "result error 5 SameOriginMode accept"), 5],
    ["the result of a load", instead(5, "result loaded"), 5],
    ["a fetch without a result", without(5), 5],
    ["a request without a head", without(9), 9],
    ["a header without a colon", instead(10, "  Host a.test"), 10],
    ["an escape of a plain byte", instead(10, "  Host: \\x61"), 10],
    ["an escape in capitals", instead(10, "  Host: \\xFF"), 10],
    ["a byte that is not escaped", instead(10, "  Host: a\u00e9"), 10],
    ["a result without a body", without(16), 16],
    ["a body of another length", instead(16, "  body whole 3: hi"), 16],
    ["a document without an end", without(17), 17],
    ["an end that is none", instead(17, "end limit memory"), 17],
    ["a turn that is left out", instead(19, "1 0 match a.test at 0: yes"), 19],
    ["an entry of no document", instead(19, "0 1 match a.test at 0: yes"), 19],
    ["an entry that was not called", instead(19, "0 0 match b.test at 0: yes"), 19],
    ["a call without an entry", lines.filter((text, index) => index !== 19).join("\n"), 7],
    ["no last line", without(21), 21],
    ["a last line that does not end", good.slice(0, -1), 21],
    ["a line more", good + "done\n", 22],
  ];
}

module.exports = { ADVICE, ANSWER, WARNING, hostilePlay, longPlay, refusedTexts, toldPlay, violatingPlay, widePlay };
