"use strict";

// What is run in the page itself, as text: these functions stand by themselves and use nothing of node. `watch` is called
// once; `begin` starts a fetch or a load; `outcome` waits for it. All that the page tells is JSON.

async function watch() {
  while (document.body === null) {
    await new Promise((resolve) => setTimeout(resolve, 5));
  }
  window.fiorrudda = { violations: [], pending: null };
  document.addEventListener("securitypolicyviolation", (event) => {
    window.fiorrudda.violations.push({ directive: event.effectiveDirective, disposition: event.disposition,
      url: event.blockedURI, policy: event.originalPolicy });
  });
}

function begin(command, number) {
  const hexOf = (buffer) => Array.from(new Uint8Array(buffer), (byte) => byte.toString(16).padStart(2, "0")).join("");
  const toldError = (error) => ({ result: "error", thrown: error.name + ": " + error.message });

  async function bodyOf(response) {
    if (response.body === null) {
      return { end: "none" };
    }
    try {
      return { end: "whole", hex: hexOf(await response.arrayBuffer()) };
    } catch {
      return { end: "cut" };
    }
  }

  async function runFetch(asked) {
    const init = { method: asked.method, mode: asked.mode, credentials: asked.credentials, redirect: asked.redirect,
      headers: asked.headers, body: asked.body, referrer: asked.referrer === "none" ? "" : undefined,
      referrerPolicy: asked.referrer_policy, integrity: asked.integrity };
    Object.keys(init).filter((name) => init[name] === undefined).forEach((name) => delete init[name]);
    let response;
    try {
      response = await fetch(asked.url, init);
    } catch (error) {
      return toldError(error);
    }
    return { result: "response", type: response.type, status: response.status, url: response.url,
      headers: Array.from(response.headers, (pair) => [pair[0], pair[1]]), body: await bodyOf(response) };
  }

  // An upload listener is a part of XMLHttpRequest alone.
  function runUpload(asked) {
    return new Promise((resolve) => {
      const request = new XMLHttpRequest();
      const told = () => {
        const lines = request.getAllResponseHeaders().split("\r\n").filter((line) => line !== "");
        const headers = lines.map((line) => [line.slice(0, line.indexOf(":")), line.slice(line.indexOf(":") + 1).trim()]);
        resolve({ result: "response", type: null, status: request.status, url: request.responseURL, headers,
          body: { end: "whole", hex: hexOf(request.response) } });
      };
      try {
        request.open(asked.method || "GET", asked.url);
        request.responseType = "arraybuffer";
        request.withCredentials = asked.credentials === "include";
        (asked.headers || []).forEach((pair) => request.setRequestHeader(pair[0], pair[1]));
        request.upload.addEventListener("progress", () => {});
        request.addEventListener("load", told);
        request.addEventListener("error", () => resolve({ result: "error", thrown: "an error event" }));
        request.send(asked.body === undefined ? null : asked.body);
      } catch (error) {
        resolve(toldError(error));
      }
    });
  }

  function dress(element, asked) {
    const attributes = { crossorigin: asked.crossorigin, nonce: asked.nonce, integrity: asked.integrity,
      referrerpolicy: asked.referrer_policy };
    Object.keys(attributes).filter((name) => attributes[name]).forEach((name) => {
      element.setAttribute(name, attributes[name]);
    });
    return element;
  }

  function link(asked, relation) {
    const element = dress(document.createElement("link"), asked);
    element.rel = relation;
    element.href = asked.url;
    return element;
  }

  function sourced(tag, asked) {
    const element = dress(document.createElement(tag), asked);
    element.preload = "auto";
    element.src = asked.url;
    return element;
  }

  const elements = {
    image: (asked) => sourced("img", asked),
    audio: (asked) => sourced("audio", asked),
    video: (asked) => sourced("video", asked),
    script: (asked) => sourced("script", asked),
    style: (asked) => link(asked, "stylesheet"),
    manifest: (asked) => link(asked, "manifest"),
  };

  function heard(element) {
    return new Promise((resolve) => {
      ["load", "loadeddata"].forEach((name) => element.addEventListener(name, () => resolve({ event: "load" })));
      element.addEventListener("error", () => resolve({ event: "error" }));
    });
  }

  // A sound or a video asks for nothing more.
  function silenced(element, seen) {
    element.removeAttribute("src");
    element.load();
    element.remove();
    return seen;
  }

  // A script that the parser inserts comes by the document itself; its events are heard from above.
  function heardParsed(id) {
    return new Promise((resolve) => {
      ["load", "error"].forEach((name) => document.addEventListener(name, (event) => {
        if (event.target.id === id) {
          resolve({ event: name });
        }
      }, true));
    });
  }

  function runFont(asked) {
    const face = new FontFace("font" + number, "url(" + JSON.stringify(asked.url) + ")");
    return face.load().then(() => ({ event: "load" }), (error) => ({ event: "error", thrown: error.name }));
  }

  function runLoad(asked) {
    if (asked.kind === "font") {
      return runFont(asked);
    }
    if (asked.parsed) {
      return heardParsed("load" + number);
    }
    const element = elements[asked.kind](asked);
    // A document takes the first manifest that its head has.
    document.querySelectorAll("link[rel=manifest]").forEach((other) => other.remove());
    const told = asked.kind === "manifest" ? Promise.resolve({ event: "none" }) : heard(element);
    (asked.kind === "manifest" ? document.head : document.body).appendChild(element);
    return ["audio", "video"].includes(asked.kind) ? told.then((seen) => silenced(element, seen)) : told;
  }

  window.fiorrudda.violations = [];
  const asked = command.load || command.fetch;
  const run = command.load ? runLoad(asked) : asked.upload ? runUpload(asked) : runFetch(asked);
  window.fiorrudda.pending = Promise.race([run,
    new Promise((resolve) => setTimeout(() => resolve({ result: "late", event: "late" }), 15000))]);
}

async function outcome(settle) {
  const told = await window.fiorrudda.pending;
  await new Promise((resolve) => setTimeout(resolve, settle));
  const violations = window.fiorrudda.violations;
  window.fiorrudda.violations = [];
  return JSON.stringify({ told, violations });
}

// A call of one of these as an expression of the page.
function call(run, ...words) {
  return "(" + run + ")(" + words.map((word) => JSON.stringify(word)).join(", ") + ")";
}

// A script as the parser of the page reads it.
function scriptTag(asked, number) {
  const escaped = (text) => text.replace(/&/g, "&amp;").replace(/"/g, "&quot;").replace(/</g, "&lt;");
  const attributes = { id: "load" + number, nonce: asked.nonce, integrity: asked.integrity,
    crossorigin: asked.crossorigin, referrerpolicy: asked.referrer_policy, src: asked.url };
  const words = Object.keys(attributes).filter((name) => attributes[name])
    .map((name) => name + '="' + escaped(attributes[name]) + '"');
  return "<script " + words.join(" ") + "></script>\n";
}

module.exports = { watch, begin, outcome, call, scriptTag };
