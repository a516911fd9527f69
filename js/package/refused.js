// What a fetch rejects with.
import { FiorruddaError, NoRequest } from "./index.js";
import { NETWORK_ERRORS } from "./names.js";

export function refusedBecause(cause) {
  return new TypeError("fetch failed: " + cause.name + ": " + cause.why, { cause });
}

// By a network error of this name.
export function refusedBy(name, why) {
  return refusedBecause({ number: NETWORK_ERRORS[name], name, why });
}

// Where none can begin.
export function refusedSince(error) {
  if (error instanceof NoRequest) {
    return refusedBecause({ faultNumber: error.number, name: error.fault, why: error.why });
  }
  return error instanceof FiorruddaError ? new TypeError("fetch failed: " + error.message, { cause: error }) : error;
}
