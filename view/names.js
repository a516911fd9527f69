"use strict";

// Written by embed/header from the Rattle sources: do not edit.
const engineNames = {
  loads: {"image": 1, "audio": 2, "video": 3, "style": 4, "script": 5, "font": 6, "manifest": 7},
  modes: {"cors": 2, "no-cors": 1, "same-origin": 0, "navigate": 3},
  credentials: {"omit": 0, "same-origin": 1, "include": 2},
  redirects: {"follow": 0, "error": 1, "manual": 2},
  crossorigins: {"anonymous": 1, "use-credentials": 2},
  referrer_policies: {"": 0, "no-referrer": 1, "no-referrer-when-downgrade": 2, "same-origin": 3, "origin": 4,
    "strict-origin": 5, "origin-when-cross-origin": 6, "strict-origin-when-cross-origin": 7, "unsafe-url": 8},
  cors_loads: ["font", "manifest"],
  upgradeable_loads: ["image", "audio", "video"],
  directives: ["connect-src", "img-src", "media-src", "font-src", "manifest-src", "style-src-elem", "script-src-elem"],
  effective_directives: {"fetch": "connect-src", "image": "img-src", "audio": "media-src", "video": "media-src",
    "style": "style-src-elem", "script": "script-src-elem", "font": "font-src", "manifest": "manifest-src"},
  response_types: ["basic", "cors", "opaque", "opaqueredirect"],
  network_errors: {"Scheme": 1, "BadPort": 2, "Mixed": 3, "CspRequest": 4, "SameOriginMode": 5,
    "NoCorsRedirectMode": 6, "PreflightCors": 7, "PreflightStatus": 8, "PreflightList": 9, "PreflightMethod": 10,
    "PreflightHeader": 11, "CorsCheck": 12, "Corp": 13, "RedirectMode": 14, "BadLocation": 15, "RedirectScheme": 16,
    "TooManyRedirects": 17, "RedirectCredentials": 18, "CspResponse": 19, "Mime": 20, "NoSniff": 21, "Integrity": 22,
    "Coding": 23, "LinkFault": 24, "BadHead": 25, "HeadTooBig": 26},
  request_faults: {"BadUrl": 1, "UrlCredentials": 2, "BadMethod": 3, "ForbiddenMethod": 4, "BodyWithGet": 5,
    "NoCorsMethod": 6, "BadHeader": 7, "NavigateMode": 8, "TooLong": 9, "LongUrl": 10},
  statuses: {"Ok": 0, "Usage": 1, "Refused": 2, "ReadFault": 3, "WriteFault": 4, "OutOfMemory": 5, "InputTooLong": 6,
    "OwnFault": 7},
};

if (typeof module !== "undefined") {
  module.exports = engineNames;
}
