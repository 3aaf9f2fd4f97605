/** SHA-256 (FIPS 180-4). The browser's own is not to be had on every page, nor by pieces. */

/** The first 32 bits of the fractions of a root of the first primes. */
const fractions = (count, root) => {
  const found = [];
  for (let number = 2; found.length < count; number++) {
    if (![...Array(number).keys()].slice(2).some(it => number % it === 0)) {
      found.push(Math.floor((root(number) % 1) * 2 ** 32) | 0);
    }
  }
  return found;
};
const ROUNDS = Int32Array.from(fractions(64, Math.cbrt));
const BEGIN = Int32Array.from(fractions(8, Math.sqrt));

/** The digest of bytes, as 64 hexadecimal digits. */
export function sha256(bytes) {
  const state = BEGIN.slice();
  const words = new Int32Array(64);
  const whole = bytes.length - (bytes.length % 64);
  blocks(state, words, bytes, whole);
  const rest = bytes.length - whole;
  const last = new Uint8Array(rest < 56 ? 64 : 128);
  last.set(bytes.subarray(whole));
  last[rest] = 128;
  new DataView(last.buffer).setBigUint64(last.length - 8, BigInt(bytes.length) * 8n);
  blocks(state, words, last, last.length);
  return Array.from(state, it => (it >>> 0).toString(16).padStart(8, "0")).join("");
}

/** Takes the blocks of 64 bytes up to an end into the state. */
function blocks(state, w, bytes, end) {
  const view = new DataView(bytes.buffer, bytes.byteOffset, bytes.byteLength);
  for (let at = 0; at < end; at += 64) {
    for (let i = 0; i < 16; i++) {
      w[i] = view.getInt32(at + 4 * i);
    }
    for (let i = 16; i < 64; i++) {
      const x = w[i - 15];
      const y = w[i - 2];
      const s = ((x >>> 7) | (x << 25)) ^ ((x >>> 18) | (x << 14)) ^ (x >>> 3);
      const t = ((y >>> 17) | (y << 15)) ^ ((y >>> 19) | (y << 13)) ^ (y >>> 10);
      w[i] = (w[i - 16] + s + w[i - 7] + t) | 0;
    }
    let a = state[0];
    let b = state[1];
    let c = state[2];
    let d = state[3];
    let e = state[4];
    let f = state[5];
    let g = state[6];
    let h = state[7];
    for (let i = 0; i < 64; i++) {
      const s = ((e >>> 6) | (e << 26)) ^ ((e >>> 11) | (e << 21)) ^ ((e >>> 25) | (e << 7));
      const one = (h + s + ((e & f) ^ (~e & g)) + ROUNDS[i] + w[i]) | 0;
      const t = ((a >>> 2) | (a << 30)) ^ ((a >>> 13) | (a << 19)) ^ ((a >>> 22) | (a << 10));
      const two = (t + ((a & b) ^ (a & c) ^ (b & c))) | 0;
      h = g;
      g = f;
      f = e;
      e = (d + one) | 0;
      d = c;
      c = b;
      b = a;
      a = (one + two) | 0;
    }
    state[0] += a;
    state[1] += b;
    state[2] += c;
    state[3] += d;
    state[4] += e;
    state[5] += f;
    state[6] += g;
    state[7] += h;
  }
}
