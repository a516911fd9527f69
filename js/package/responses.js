// The Response that a script is given, of what a fetch came to.

const NULL_BODY = [101, 103, 204, 205, 304];

// How a body ends that is not whole, for who reads it.
export const ENDS = { cut: "the body was cut off", fault: "the connection failed in the body",
  toobig: "the body is too long" };

function shownAs(response, own) {
  const clone = () => shownAs(Response.prototype.clone.call(response), own);
  for (const [name, value] of Object.entries({ ...own, clone })) {
    Object.defineProperty(response, name, { value, enumerable: name !== "clone", configurable: true });
  }
  return response;
}

// What the constructor of a Response does not take is said by properties of its own.
export function responseOf({ status, type, url, headers }, { body, redirected, statusText }) {
  const isPlain = status >= 200 && status <= 599;
  const made = new Response(NULL_BODY.includes(status) ? null : body,
    { status: isPlain ? status : 200, statusText, headers });
  return shownAs(made, { type, url: (url || "").replace(/#.*$/s, ""), redirected,
    ...(isPlain ? {} : { status, ok: false, statusText: "" }) });
}
