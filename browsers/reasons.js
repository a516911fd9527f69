"use strict";

// The network errors of the engine (docs/rules/printed-text.md) that a browser's own reason stands for. A reason that is
// not here says too little to be compared.

const CORS = "(WildcardOriginNotAllowed|MissingAllowOriginHeader|MultipleAllowOriginValues|InvalidAllowOriginValue"
  + "|AllowOriginMismatch|InvalidAllowCredentials)";

const CHROMIUM = [
  ["cors DisallowedByMode", ["SameOriginMode"]],
  ["cors NoCorsRedirectModeNotFollow", ["NoCorsRedirectMode"]],
  ["cors CorsDisabledScheme", ["Scheme", "RedirectScheme"]],
  ["cors " + CORS, ["CorsCheck"]],
  ["cors Preflight" + CORS, ["PreflightCors"]],
  ["cors Preflight(InvalidStatus|DisallowedRedirect)", ["PreflightStatus"]],
  ["cors InvalidAllow(Methods|Headers)PreflightResponse", ["PreflightList"]],
  ["cors MethodDisallowedByPreflightResponse", ["PreflightMethod"]],
  ["cors HeaderDisallowedByPreflightResponse", ["PreflightHeader"]],
  ["cors RedirectContainsCredentials", ["RedirectCredentials"]],
  ["blocked csp", ["CspRequest", "CspResponse"]],
  ["blocked mixed-content", ["Mixed"]],
  ["blocked corp-.*", ["Corp"]],
  ["net::ERR_UNSAFE_PORT", ["BadPort"]],
  ["net::ERR_UNKNOWN_URL_SCHEME", ["Scheme", "RedirectScheme"]],
  ["net::ERR_TOO_MANY_REDIRECTS", ["TooManyRedirects"]],
  ["net::ERR_INVALID_REDIRECT", ["BadLocation"]],
  ["net::ERR_UNSAFE_REDIRECT", ["RedirectScheme"]],
  ["net::ERR_RESPONSE_HEADERS_MULTIPLE_LOCATION", ["BadLocation"]],
  ["net::ERR_(EMPTY_RESPONSE|INVALID_HTTP_RESPONSE)", ["BadHead"]],
];

const FIREFOX = [
  ["CORS(MissingAllowOrigin|MultipleAllowOriginNotAllowed|AllowOriginNotMatchingOrigin|NotSupportingCredentials"
    + "|MissingAllowCredentials)[0-9]?:.*", ["CorsCheck", "PreflightCors"]],
  ["CORSPreflightDidNotSucceed[0-9]?:.*", ["PreflightStatus", "PreflightCors"]],
  ["CORSInvalidAllow(Method|Header)[0-9]?:.*", ["PreflightList"]],
  ["CORSMethodNotFound[0-9]?:.*", ["PreflightMethod"]],
  ["CORSMissingAllowHeaderFromPreflight[0-9]?:.*", ["PreflightHeader"]],
  ["CORSExternalRedirectNotAllowed[0-9]?:.*", ["RedirectCredentials"]],
  ["CORSRequestNotHttp[0-9]?:.*", ["Scheme", "RedirectScheme"]],
  ["Mixed Content Blocker:.*", ["Mixed"]],
];

const TABLES = { chromium: CHROMIUM, firefox: FIREFOX };

// The names of the engine's errors that one of these reasons stands for; null where none says.
function errorsOf(browser, reasons) {
  const fits = ([form]) => reasons.some((reason) => new RegExp("^" + form + "( .*)?$", "s").test(reason));
  const rows = (TABLES[browser] || []).filter(fits);
  return rows.length === 0 ? null : rows.flatMap(([, names]) => names);
}

// The names in these tables, each of which is to be that of an error of the engine.
const ALL_NAMES = Object.values(TABLES).flat().flatMap(([, names]) => names);

module.exports = { errorsOf, ALL_NAMES };
