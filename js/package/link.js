// Connections to servers, over node:net and node:tls: one for each request, as the engine asks.
import net from "node:net";
import tls from "node:tls";

// ---- where a name leads

const PORTS = { "http:": 80, "https:": 443 };

// What a server is given as: its port, `host:port`, a URL, or a listening server. It is spoken to without TLS, unless it is
// named by an https URL or is a server of TLS.
export function placeOf(given) {
  if (typeof given === "number") {
    return { host: "127.0.0.1", port: given, isSecure: false };
  }
  if (typeof given === "object" && given !== null && typeof given.address === "function") {
    const address = given.address();
    if (address === null || typeof address === "string") {
      throw new TypeError("the server does not listen at a port");
    }
    const isAny = ["::", "0.0.0.0"].includes(address.address);
    return { host: isAny ? "127.0.0.1" : address.address, port: address.port, isSecure: given instanceof tls.Server };
  }
  const url = new URL(String(given).includes("://") ? given : "http://" + given);
  if (!(url.protocol in PORTS)) {
    throw new TypeError(given + " is neither http nor https");
  }
  return { host: url.hostname.replace(/^\[|\]$/g, ""), port: Number(url.port) || PORTS[url.protocol],
    isSecure: url.protocol === "https:" };
}

function ownPlace(url) {
  return { host: url.hostname.replace(/^\[|\]$/g, ""), port: Number(url.port) || PORTS[url.protocol],
    isSecure: url.protocol === "https:" };
}

// Where requests to an origin go: as the first of the maps has it that names the origin, the host or `*`.
export function placeFor(origin, maps) {
  const url = new URL(origin);
  for (const map of maps) {
    const key = [origin, url.host, url.hostname, "*"].find((name) => map.has(name));
    if (key !== undefined) {
      return map.get(key);
    }
  }
  return ownPlace(url);
}

// ---- a connection

// `next` gives the pieces that come, and null at the end.
export class Link {
  constructor(place, serverName, tlsOptions) {
    this.pieces = [];
    this.hasEnded = false;
    this.fault = null;
    this.wake = () => {};
    const { host, port } = place;
    this.socket = place.isSecure
      ? tls.connect({ host, port, servername: net.isIP(serverName) ? undefined : serverName, ...tlsOptions })
      : net.connect({ host, port });
    this.isOpen = new Promise((resolve, reject) => {
      this.socket.once(place.isSecure ? "secureConnect" : "connect", resolve);
      this.socket.once("error", reject);
      this.socket.once("close", () => reject(this.fault || new Error("the connection was closed")));
    });
    this.isOpen.catch(() => {});
    this.socket.on("data", (piece) => this.note(() => this.pieces.push(piece)));
    this.socket.on("end", () => this.note(() => { this.hasEnded = true; }));
    this.socket.on("close", () => this.note(() => { this.hasEnded = true; }));
    this.socket.on("error", (fault) => this.note(() => { this.fault = this.fault || fault; }));
  }

  note(change) {
    change();
    this.wake();
  }

  async send(bytes) {
    await this.isOpen;
    await new Promise((resolve, reject) => this.socket.write(bytes, (fault) => fault ? reject(fault) : resolve()));
  }

  async next() {
    while (this.pieces.length === 0 && !this.hasEnded && this.fault === null) {
      await new Promise((resolve) => { this.wake = resolve; });
    }
    if (this.pieces.length > 0) {
      return this.pieces.shift();
    }
    if (this.fault !== null) {
      throw this.fault;
    }
    return null;
  }

  close(fault = null) {
    this.fault = this.fault || fault;
    this.socket.destroy();
    this.wake();
  }
}
