// Written by embed/header: do not edit.

// What a call was given has no answer. `code` is the number that the call of C gave.
export class FiorruddaError extends Error {
  constructor(message, code) {
    super(message);
    this.code = code;
  }
}
FiorruddaError.prototype.name = "FiorruddaError";

export class WrongHandle extends FiorruddaError {
  constructor(message = "A handle holds nothing of the kind that the call is for.") {
    super(message, 2);
  }
}
WrongHandle.prototype.name = "WrongHandle";

export class OutOfMemory extends FiorruddaError {
  constructor(message = "Memory was refused.") {
    super(message, 3);
  }
}
OutOfMemory.prototype.name = "OutOfMemory";

export class NoSuchNumber extends FiorruddaError {
  constructor(message = "A number stands for none of what there is.") {
    super(message, 5);
  }
}
NoSuchNumber.prototype.name = "NoSuchNumber";

export class NotAUrl extends FiorruddaError {
  constructor(message = "A text is not UTF-8, or gives no URL by itself.") {
    super(message, 6);
  }
}
NotAUrl.prototype.name = "NotAUrl";

export class NotHttp extends FiorruddaError {
  constructor(message = "A URL is neither http nor https.") {
    super(message, 7);
  }
}
NotHttp.prototype.name = "NotHttp";

export class NotAHeader extends FiorruddaError {
  constructor(message = "A name is no token, or a value no header value.") {
    super(message, 8);
  }
}
NotAHeader.prototype.name = "NotAHeader";

export class TooLate extends FiorruddaError {
  constructor(message = "A time is 2^48 seconds or more.") {
    super(message, 9);
  }
}
TooLate.prototype.name = "TooLate";

export class NotAwaited extends FiorruddaError {
  constructor(message = "What came is not what the fetch awaits.") {
    super(message, 10);
  }
}
NotAwaited.prototype.name = "NotAwaited";

export class NoRequest extends FiorruddaError {
  constructor(message = "No request can be made of what is asked for.") {
    super(message, 11);
  }
}
NoRequest.prototype.name = "NoRequest";

export class NotAHost extends FiorruddaError {
  constructor(message = "A host is no domain as a URL has it, or a localhost name: it is never known.") {
    super(message, 12);
  }
}
NotAHost.prototype.name = "NotAHost";

export const ERRORS = new Map([
  [2, WrongHandle],
  [3, OutOfMemory],
  [5, NoSuchNumber],
  [6, NotAUrl],
  [7, NotHttp],
  [8, NotAHeader],
  [9, TooLate],
  [10, NotAwaited],
  [11, NoRequest],
  [12, NotAHost],
]);
