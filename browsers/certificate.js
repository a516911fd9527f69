"use strict";

// Certificates for a run: an authority, and one of its certificates for each host that is asked for (RFC 5280, written
// in DER by hand, since node signs but makes no certificates). They live in memory and are good for three days.

const crypto = require("crypto");
const net = require("net");

const DAY = 24 * 60 * 60 * 1000;

// ---- DER (X.690): a tag, a length, and the content

function der(tag, ...parts) {
  const content = Buffer.concat(parts.map((part) => Buffer.from(part)));
  const size = [];
  for (let rest = content.length; rest > 0; rest >>= 8) {
    size.unshift(rest & 0xff);
  }
  const length = content.length < 0x80 ? [content.length] : [0x80 | size.length, ...size];
  return Buffer.concat([Buffer.from([tag, ...length]), content]);
}

const sequence = (...parts) => der(0x30, ...parts);
const set = (...parts) => der(0x31, ...parts);
const octets = (bytes) => der(0x04, bytes);
const bits = (bytes, unused = 0) => der(0x03, [unused], bytes);
const tagged = (number, bytes) => der(0xa0 | number, bytes);
const time = (at) => der(0x17, at.toISOString().replace(/[-:T]/g, "").slice(2, 14) + "Z");

const TRUE = Buffer.from([0x01, 0x01, 0xff]);
const ECDSA_WITH_SHA256 = sequence(der(0x06, [0x2a, 0x86, 0x48, 0xce, 0x3d, 0x04, 0x03, 0x02]));
const COMMON_NAME = der(0x06, [0x55, 0x04, 0x03]);
const BASIC_CONSTRAINTS = der(0x06, [0x55, 0x1d, 0x13]);
const KEY_USAGE = der(0x06, [0x55, 0x1d, 0x0f]);
const SUBJECT_NAMES = der(0x06, [0x55, 0x1d, 0x11]);
const EXTENDED_USAGE = der(0x06, [0x55, 0x1d, 0x25]);
const SERVER = der(0x06, [0x2b, 0x06, 0x01, 0x05, 0x05, 0x07, 0x03, 0x01]);

function nameOf(text) {
  return sequence(set(sequence(COMMON_NAME, der(0x0c, text))));
}

// A host as a certificate names it: an address by its bytes, a domain by its text.
function subjectOf(host) {
  if (net.isIPv4(host)) {
    return der(0x87, host.split(".").map(Number));
  }
  if (net.isIPv6(host)) {
    return der(0x87, [...Array(15).fill(0), 1]);
  }
  return der(0x82, host);
}

function certificate(subject, publicKey, issuer, signer, extensions) {
  const now = Date.now();
  const serial = Buffer.concat([Buffer.from([0x01]), crypto.randomBytes(15)]);
  const unsigned = sequence(
    tagged(0, der(0x02, [2])), der(0x02, serial), ECDSA_WITH_SHA256, nameOf(issuer),
    sequence(time(new Date(now - DAY)), time(new Date(now + 2 * DAY))), nameOf(subject),
    publicKey.export({ type: "spki", format: "der" }), tagged(3, sequence(...extensions)));
  return sequence(unsigned, ECDSA_WITH_SHA256, bits(crypto.sign("sha256", unsigned, signer)));
}

function pem(bytes) {
  const lines = bytes.toString("base64").match(/.{1,64}/g).join("\n");
  return "-----BEGIN CERTIFICATE-----\n" + lines + "\n-----END CERTIFICATE-----\n";
}

class Authority {
  constructor() {
    this.keys = crypto.generateKeyPairSync("ec", { namedCurve: "P-256" });
    this.served = crypto.generateKeyPairSync("ec", { namedCurve: "P-256" });
    this.name = "Fiorrudda, a run of bin/in-browser";
    this.certificate = certificate(this.name, this.keys.publicKey, this.name, this.keys.privateKey, [
      sequence(BASIC_CONSTRAINTS, TRUE, octets(sequence(TRUE))),
      sequence(KEY_USAGE, TRUE, octets(bits([0x06], 1)))]);
    this.made = new Map();
  }

  // The key and the certificate of these hosts, as tls takes them.
  contextOf(hosts) {
    const named = hosts.join(" ");
    if (!this.made.has(named)) {
      const bytes = certificate(hosts[0].slice(0, 60), this.served.publicKey, this.name, this.keys.privateKey, [
        sequence(SUBJECT_NAMES, octets(sequence(...hosts.map(subjectOf)))),
        sequence(EXTENDED_USAGE, octets(sequence(SERVER)))]);
      this.made.set(named, { key: this.served.privateKey.export({ type: "pkcs8", format: "pem" }), cert: pem(bytes) });
    }
    return this.made.get(named);
  }

  // The hash of the servers' public key, by which Chromium takes their certificates.
  keyHash() {
    const key = this.served.publicKey.export({ type: "spki", format: "der" });
    return crypto.createHash("sha256").update(key).digest("base64");
  }
}

module.exports = { Authority };
