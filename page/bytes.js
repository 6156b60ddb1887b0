// Bytes and records, for the page and for its worker.
"use strict";

const hex = (number, digits) => number.toString(16).toUpperCase().padStart(digits, "0");
const hexOf = bytes => Array.from(bytes, byte => hex(byte, 2)).join(" ");
const textOf = bytes => {
  let text = "";
  for (let at = 0; at < bytes.length; at += 4096) text += String.fromCharCode(...bytes.subarray(at, at + 4096));
  return text;
};
const bytesOf = text => Uint8Array.from(text, character => character.charCodeAt(0) & 255);
const fromBase64 = text => bytesOf(atob(text));
const count = (number, one, many) => `${number.toLocaleString("en")} ${number === 1 ? one : many || one + "s"}`;

const TYPES = {
  0x80: "THEADR", 0x82: "LHEADR", 0x88: "COMENT", 0x8A: "MODEND", 0x8B: "MODEND", 0x8C: "EXTDEF", 0x8E: "TYPDEF", 0x90: "PUBDEF",
  0x91: "PUBDEF", 0x94: "LINNUM", 0x95: "LINNUM", 0x96: "LNAMES", 0x98: "SEGDEF", 0x99: "SEGDEF", 0x9A: "GRPDEF", 0x9C: "FIXUPP",
  0x9D: "FIXUPP", 0xA0: "LEDATA", 0xA1: "LEDATA", 0xA2: "LIDATA", 0xA3: "LIDATA", 0xB0: "COMDEF", 0xB2: "BAKPAT", 0xB3: "BAKPAT",
  0xB4: "LEXTDEF", 0xB5: "LEXTDEF", 0xB6: "LPUBDEF", 0xB7: "LPUBDEF", 0xB8: "LCOMDEF", 0xBC: "CEXTDEF", 0xC2: "COMDAT", 0xC3: "COMDAT",
  0xC4: "LINSYM", 0xC5: "LINSYM", 0xC6: "ALIAS", 0xC8: "NBKPAT", 0xC9: "NBKPAT", 0xCA: "LLNAMES", 0xCC: "VERNUM", 0xCE: "VENDEXT",
  0xF0: "LIBHDR", 0xF1: "LIBEND",
};

// The end of the record at `at`: after its last byte that is there.
function recordEnd(bytes, at) {
  if (at + 3 > bytes.length) return bytes.length;
  return Math.min(bytes.length, at + 3 + bytes[at + 1] + 256 * bytes[at + 2]);
}

// The offsets of the records before `end`, and then `end`.
function recordStarts(bytes, end) {
  let starts = new Uint32Array(1024), many = 0, at = 0;
  while (at < end) {
    if (many + 2 > starts.length) {
      const more = new Uint32Array(starts.length * 2);
      more.set(starts);
      starts = more;
    }
    starts[many++] = at;
    at = recordEnd(bytes, at);
  }
  starts[many++] = end;
  return starts.slice(0, many);
}

// The offsets of the lines of a text, and then its length.
function lineStarts(text) {
  let starts = new Uint32Array(1024), many = 0, at = 0;
  while (at < text.length) {
    if (many + 2 > starts.length) {
      const more = new Uint32Array(starts.length * 2);
      more.set(starts);
      starts = more;
    }
    starts[many++] = at;
    const end = text.indexOf(10, at);
    at = end < 0 ? text.length : end + 1;
  }
  starts[many++] = text.length;
  return starts.slice(0, many);
}

// SHA-256 (FIPS 180-4), in hexadecimal.
function sha256(bytes) {
  const primes = [];
  for (let n = 2; primes.length < 64; n++) if (primes.every(prime => n % prime)) primes.push(n);
  const bits = root => (root - Math.floor(root)) * 4294967296 | 0;
  const K = Int32Array.from(primes, prime => bits(Math.cbrt(prime))), H = Int32Array.from(primes.slice(0, 8), prime => bits(Math.sqrt(prime)));
  const whole = bytes.length - bytes.length % 64, rest = new Uint8Array(bytes.length % 64 < 56 ? 64 : 128), W = new Int32Array(64);
  rest.set(bytes.subarray(whole));
  rest[bytes.length - whole] = 0x80;
  new DataView(rest.buffer).setBigUint64(rest.length - 8, BigInt(bytes.length) * 8n);
  const turn = (x, n) => x >>> n | x << 32 - n;
  const block = (view, at) => {
    for (let i = 0; i < 16; i++) W[i] = view.getInt32(at + 4 * i);
    for (let i = 16; i < 64; i++) {
      const a = W[i - 15], b = W[i - 2];
      W[i] = W[i - 16] + W[i - 7] + (turn(a, 7) ^ turn(a, 18) ^ a >>> 3) + (turn(b, 17) ^ turn(b, 19) ^ b >>> 10);
    }
    let [a, b, c, d, e, f, g, h] = H;
    for (let i = 0; i < 64; i++) {
      const one = h + (turn(e, 6) ^ turn(e, 11) ^ turn(e, 25)) + (e & f ^ ~e & g) + K[i] + W[i] | 0;
      const two = (turn(a, 2) ^ turn(a, 13) ^ turn(a, 22)) + (a & b ^ a & c ^ b & c) | 0;
      h = g; g = f; f = e; e = d + one | 0; d = c; c = b; b = a; a = one + two | 0;
    }
    [a, b, c, d, e, f, g, h].forEach((word, i) => { H[i] += word; });
  };
  const front = new DataView(bytes.buffer, bytes.byteOffset, bytes.length), back = new DataView(rest.buffer);
  for (let at = 0; at < whole; at += 64) block(front, at);
  for (let at = 0; at < rest.length; at += 64) block(back, at);
  return Array.from(H, word => (word >>> 0).toString(16).padStart(8, "0")).join("");
}
