"""The words of the engine with their numbers. Written by embed/header from the Rattle sources: do not edit."""
LOADS: dict[str, int] = {"image": 1, "audio": 2, "video": 3, "style": 4, "script": 5, "font": 6, "manifest": 7}
MODES: dict[str, int] = {"cors": 2, "no-cors": 1, "same-origin": 0, "navigate": 3}
CREDENTIALS: dict[str, int] = {"omit": 0, "same-origin": 1, "include": 2}
REDIRECTS: dict[str, int] = {"follow": 0, "error": 1, "manual": 2}
CROSSORIGINS: dict[str, int] = {"anonymous": 1, "use-credentials": 2}
REFERRER_POLICIES: dict[str, int] = {"": 0, "no-referrer": 1, "no-referrer-when-downgrade": 2, "same-origin": 3,
    "origin": 4, "strict-origin": 5, "origin-when-cross-origin": 6, "strict-origin-when-cross-origin": 7,
    "unsafe-url": 8}
CORS_LOADS: list[str] = ["font", "manifest"]
UPGRADEABLE_LOADS: list[str] = ["image", "audio", "video"]
DIRECTIVES: list[str] = ["connect-src", "img-src", "media-src", "font-src", "manifest-src", "style-src-elem",
    "script-src-elem"]
EFFECTIVE_DIRECTIVES: dict[str, str] = {"fetch": "connect-src", "image": "img-src", "audio": "media-src",
    "video": "media-src", "style": "style-src-elem", "script": "script-src-elem", "font": "font-src",
    "manifest": "manifest-src"}
RESPONSE_TYPES: list[str] = ["basic", "cors", "opaque", "opaqueredirect"]
NETWORK_ERRORS: dict[str, int] = {"Scheme": 1, "BadPort": 2, "Mixed": 3, "CspRequest": 4, "SameOriginMode": 5,
    "NoCorsRedirectMode": 6, "PreflightCors": 7, "PreflightStatus": 8, "PreflightList": 9, "PreflightMethod": 10,
    "PreflightHeader": 11, "CorsCheck": 12, "Corp": 13, "RedirectMode": 14, "BadLocation": 15, "RedirectScheme": 16,
    "TooManyRedirects": 17, "RedirectCredentials": 18, "CspResponse": 19, "Mime": 20, "NoSniff": 21, "Integrity": 22,
    "Coding": 23, "LinkFault": 24, "BadHead": 25, "HeadTooBig": 26}
REQUEST_FAULTS: dict[str, int] = {"BadUrl": 1, "UrlCredentials": 2, "BadMethod": 3, "ForbiddenMethod": 4,
    "BodyWithGet": 5, "NoCorsMethod": 6, "BadHeader": 7, "NavigateMode": 8, "TooLong": 9, "LongUrl": 10}
STATUSES: dict[str, int] = {"Ok": 0, "Usage": 1, "Refused": 2, "ReadFault": 3, "WriteFault": 4, "OutOfMemory": 5,
    "InputTooLong": 6, "OwnFault": 7}
