"use strict";

// An observation out of what `curl -v` tells on standard error: a log for each fetch of the script, in order. A log may have
// several requests, as with -L. Whoever else writes `>` before what is sent, and `<` before what comes, is read, too.

const { observedCommands } = require("./commands.js");

// A head's lines as a first line and pairs.
function headOf([first, ...lines]) {
  return { first, headers: lines.map((line) => {
    const colon = line.indexOf(":");
    return [line.slice(0, colon), line.slice(colon + 1).trim()];
  }) };
}

// The heads of a log in order, each behind its mark, and whether TLS was there.
function headsOf(log) {
  const heads = [];
  const open = { "<": null, ">": null };
  let secure = false;
  log.split("\n").forEach((line) => {
    const [mark, text] = [line[0], line.slice(2).replace(/\r$/, "")];
    if (mark === "*") {
      secure = /^\* (Connected to|Established connection)/.test(line) ? false : secure || line.includes("SSL connection using");
    } else if (mark in open && /^. ?/.test(line)) {
      open[mark] = open[mark] || heads[heads.push({ mark, secure, lines: [] }) - 1];
      open[mark].lines.push(text);
      open[mark] = text === "" ? null : open[mark];
    }
  });
  return heads.map(({ mark, secure: isSecure, lines }) => ({ mark, isSecure, ...headOf(lines.filter((text) => text !== "")) }));
}

// A request of a log. A connection that is used again tells no TLS: its host has had it before.
function requestOf({ first, headers, isSecure }, schemes) {
  const [method, target] = first.split(" ");
  const host = (headers.find(([name]) => name.toLowerCase() === "host") || ["", "?"])[1];
  schemes.set(host, isSecure ? "https" : schemes.get(host) || "http");
  return { origin: new URL(schemes.get(host) + "://" + host).origin, method, target, headers };
}

function resultOf(heads, requests, log) {
  const last = heads[heads.length - 1];
  if (last === undefined || last.mark === ">") {
    return { result: "error", thrown: (/^curl: .*$/m.exec(log) || ["no answer"])[0] };
  }
  const { origin, target } = requests[requests.length - 1];
  return { result: "response", type: null, status: Number(last.first.split(" ")[1]), url: origin + target };
}

// What one log tells of one command.
function seenIn(log, schemes) {
  const heads = headsOf(log);
  const requests = heads.filter(({ mark }) => mark === ">").map((head) => requestOf(head, schemes));
  return { requests, result: resultOf(heads, requests, log) };
}

function versionOf(logs) {
  const found = /^> User-Agent: curl\/(\S+)/im.exec(logs.join("\n"));
  return found === null ? "unknown" : found[1];
}

function fromCurl(scenario, logs) {
  const rest = [...logs];
  const schemes = new Map();
  const commands = observedCommands(scenario, (command) => (command.load !== undefined || rest.length === 0 ? {}
    : seenIn(rest.shift(), schemes)));
  return { browser: "curl", version: versionOf(logs), commands };
}

module.exports = { fromCurl };
