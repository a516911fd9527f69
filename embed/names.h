// The words for the numbers of the C library. Written by embed/header from the Rattle sources: do not edit.
#define LOAD_NAMES \
    "", "image", "audio", "video", "style", "script", "font", "manifest"
#define FAULT_NAMES \
    "", "BadUrl", "UrlCredentials", "BadMethod", "ForbiddenMethod", "BodyWithGet", "NoCorsMethod", "BadHeader", \
    "NavigateMode", "TooLong", "LongUrl"
