"use strict";

// What a play's refusals mean: of each name, as docs/rules/printed-text.md lists them, one sentence, and the place
// below docs/ that states the rule.
const ERROR_TEXTS = {
  Scheme: ["The URL is neither http nor https.", "rules/fetch.md#main-fetch"],
  BadPort: ["The port of the URL is one that browsers block.",
    "rules/mixed-content.md#bad-ports-fetch-section-29-port-blocking"],
  Mixed: ["The page, or the page around it, is secure and the URL is not, so nothing is sent to it.",
    "rules/mixed-content.md#mixed-content-mixed-content-section-4"],
  CspRequest: ["An enforced policy of the document does not let the request pass.",
    "rules/csp.md#check-of-a-request"],
  SameOriginMode: ["The mode is same-origin, and the URL has another origin.", "rules/fetch.md#main-fetch"],
  NoCorsRedirectMode: ["The mode is no-cors, the URL has another origin, and the redirect mode is not follow.",
    "rules/redirects.md"],
  PreflightCors: ["The answer to the preflight fails the CORS check, so the request itself is not sent.",
    "rules/preflight.md#the-six-checks-of-the-answer"],
  PreflightStatus: ["The answer to the preflight has a status that is none of 200 to 299.",
    "rules/preflight.md#the-six-checks-of-the-answer"],
  PreflightList: ["An item of the methods or of the headers that the preflight allows is no token.",
    "rules/preflight.md#the-six-checks-of-the-answer"],
  PreflightMethod: ["The answer to the preflight does not allow the method.",
    "rules/preflight.md#the-six-checks-of-the-answer"],
  PreflightHeader: ["The answer to the preflight does not allow this header of the request.",
    "rules/preflight.md#the-six-checks-of-the-answer"],
  CorsCheck: ["The server had the request, and its answer does not allow this origin to read it.",
    "rules/cors.md#the-cors-check"],
  Corp: ["The answer's Cross-Origin-Resource-Policy keeps it from this origin.",
    "rules/cors.md#cross-origin-resource-policy"],
  RedirectMode: ["The server redirects, and the redirect mode is error.", "rules/redirects.md"],
  BadLocation: ["The Location of the redirect gives no URL, or is there twice.", "rules/redirects.md#the-ten-steps"],
  RedirectScheme: ["The redirect leads to a URL that is neither http nor https.", "rules/redirects.md#the-ten-steps"],
  TooManyRedirects: ["Twenty redirects were followed, and this is one more.", "rules/redirects.md#the-ten-steps"],
  RedirectCredentials: ["The redirect's URL has a user name or a password, which CORS refuses.",
    "rules/redirects.md#the-ten-steps"],
  CspResponse: ["An enforced policy of the document does not let the response pass.",
    "rules/final-checks.md#1-the-policies"],
  Mime: ["The response to a script has a MIME type that no script may have.", "rules/final-checks.md#2-and-3-types"],
  NoSniff: ["The response says nosniff, and its MIME type does not fit what was loaded.",
    "rules/final-checks.md#2-and-3-types"],
  Integrity: ["The body does not match the integrity text, or there is none to match.",
    "rules/final-checks.md#4-to-6-the-body"],
  Coding: ["The body is coded, and this engine reads none that is.", "rules/final-checks.md#4-to-6-the-body"],
  LinkFault: ["The connection to the server failed.", "rules/fetch.md#http-fetch"],
  BadHead: ["What the server sent has no head that can be read.", "rules/answers.md#the-head"],
  HeadTooBig: ["The head of the answer is longer than 65,536 bytes.", "rules/answers.md#the-head"],
};

const FAULT_TEXTS = {
  BadUrl: ["The text of the URL gives no URL, or too long a one.", "rules/requests.md#faults"],
  UrlCredentials: ["The URL has a user name or a password.", "rules/requests.md#faults"],
  BadMethod: ["The method is no token.", "rules/requests.md#faults"],
  ForbiddenMethod: ["Scripts may not use this method.", "rules/requests.md#faults"],
  BodyWithGet: ["A GET or a HEAD has a body.", "rules/requests.md#faults"],
  NoCorsMethod: ["The mode is no-cors, and the method is none of GET, HEAD and POST.", "rules/requests.md#faults"],
  BadHeader: ["The name or the value of this header cannot be sent.", "rules/requests.md#faults"],
  NavigateMode: ["Scripts may not use the mode navigate.", "rules/requests.md#faults"],
  TooLong: ["The method and the headers, or the body, are longer than the limit.", "rules/requests.md#faults"],
  LongUrl: ["The text of the URL is longer than the limit.", "rules/requests.md#faults"],
};

const named = typeof module === "undefined" ? engineNames : require("./names.js");

// The refusals by their numbers. One that has no text yet is drawn all the same.
function tableOf(numbers, texts) {
  return new Map(Object.entries(numbers).map(([name, number]) => {
    const [sentence, rule] = texts[name] || ["", "rules/printed-text.md"];
    return [number, { number, name, sentence, rule }];
  }));
}

const networkErrors = tableOf(named.network_errors, ERROR_TEXTS);
const requestFaults = tableOf(named.request_faults, FAULT_TEXTS);

if (typeof module !== "undefined") {
  module.exports = { networkErrors, requestFaults, ERROR_TEXTS, FAULT_TEXTS };
}
