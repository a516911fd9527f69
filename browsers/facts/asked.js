"use strict";

// The difference itself, the command that it is of, and the page.

const engineNames = require("../../schema/names.json");
const { urlOf, methodOf, hostOf, originOf, portOf, documentOrigin, isSecurePage, isLoopback, referrerPolicyOf,
  failsHereAlone, failsThereAlone, cookieOf } = require("./looked.js");

const absent = (value) => (value === undefined ? null : value);
const keyOfDifference = (difference) => difference.request || difference.engine || difference.browser || "";
const linesOf = (context) => context.asked.headers || [];
const kindOf = (context) => (context.command.load === undefined ? null : context.command.load.kind);
const urlsOf = (context) => [context.asked.url || "", ...[...context.ours.requests, ...context.theirs.requests]
  .map((one) => one.origin + one.target)];
const siteOf = (url) => hostOf(url).split(".").slice(-2).join(".");

const VALUES = {
  // the difference
  "what": (difference) => difference.what,
  "name": (difference) => absent(difference.name),
  "here": (difference) => absent(difference.engine),
  "there": (difference) => absent(difference.browser),
  "the origin of here, and a slash": (difference) => originOf(difference.engine) + "/",
  "here by http": (difference) => String(difference.engine).replace(/^https:/, "http:"),
  // the request that it is of
  "request url": (difference) => urlOf(keyOfDifference(difference)),
  "request method": (difference) => methodOf(keyOfDifference(difference)),
  "referrer policy": (difference, context) => referrerPolicyOf(context, difference.request),
  // the command
  "url": (_, context) => context.asked.url || "",
  "port": (_, context) => portOf(context.asked.url, context.document.url),
  "method": (_, context) => context.asked.method || "GET",
  "mode": (_, context) => absent(context.asked.mode),
  "redirect": (_, context) => absent(context.asked.redirect),
  "referrer": (_, context) => absent(context.asked.referrer),
  "crossorigin": (_, context) => absent(context.asked.crossorigin),
  "upload": (_, context) => context.asked.upload === true,
  "body": (_, context) => absent(context.asked.body),
  "integrity": (_, context) => context.asked.integrity || "",
  "integrity tokens": (_, context) => (context.asked.integrity || "").split(/\s+/),
  "header names": (_, context) => linesOf(context).map(([name]) => name.toLowerCase()),
  "header lines": (_, context) => linesOf(context).map(([name, value]) => name + ": " + value),
  "load": (_, context) => kindOf(context),
  "urls": (_, context) => urlsOf(context),
  // the two sides
  "browser": (_, context) => context.browser,
  "result": (_, context) => context.ours.result.result,
  "error": (_, context) => absent(context.ours.result.name),
  "error header": (_, context) => absent(context.ours.result.header),
  "type": (_, context) => absent(context.ours.result.type),
  "status": (_, context) => absent(context.ours.result.status),
  "their type": (_, context) => absent(context.theirs.result.type),
  "reasons": (_, context) => context.theirs.reasons || [],
  // the page
  "page origin": (_, context) => documentOrigin(context),
  "page cookie": (_, context) => cookieOf(context, documentOrigin(context)),
};

const isMedia = (context) => ["audio", "video"].includes(kindOf(context));
const isCorsLoad = (load) => load !== undefined
  && (engineNames.cors_loads.includes(load.kind) || load.crossorigin !== undefined);

const TESTS = {
  "fails here alone": failsHereAlone,
  "fails there alone": failsThereAlone,
  "is a fetch": (_, context) => context.command.fetch !== undefined,
  "is a load": (_, context) => context.command.load !== undefined,
  "is audio or video": (_, context) => isMedia(context),
  "is a load in mode cors": (_, context) => isCorsLoad(context.command.load),
  "gives a name twice": (_, context) => {
    const names = linesOf(context).map(([name]) => name.toLowerCase());
    return new Set(names).size < names.length;
  },
  "the page is secure": (_, context) => isSecurePage(context),
  "the page is of the loopback": (_, context) => !isSecurePage(context) && isLoopback(hostOf(context.document.url)),
  "asks for the page's site": (_, context) => siteOf(context.asked.url) === siteOf(context.document.url),
  "to the page's origin": (difference, context) => originOf(urlOf(difference.request)) === documentOrigin(context),
  "to the page's site": (difference, context) => siteOf(urlOf(difference.request)) === siteOf(context.document.url),
  "to the site of here": (difference) => siteOf(difference.engine) === siteOf(urlOf(difference.request)),
  "to the loopback": (difference) => isLoopback(hostOf(urlOf(difference.request))),
};

module.exports = { VALUES, TESTS };
