// SHA-256 (FIPS 180-4) of a content that comes in pieces, which WebCrypto can't do.

const PRIMES = [];
for (let candidate = 2; PRIMES.length < 64; candidate += 1) {
    if (PRIMES.every((prime) => candidate % prime !== 0)) {
        PRIMES.push(candidate);
    }
}
const BLOCK = 64;
const fraction = (root) => ((root - Math.floor(root)) * 0x100000000) | 0;
const CONSTANTS = Int32Array.from(PRIMES, (prime) => fraction(Math.cbrt(prime)));
const FIRST = Int32Array.from(PRIMES.slice(0, 8), (prime) => fraction(Math.sqrt(prime)));

export class Sha256 {
    constructor() {
        this.state = FIRST.slice();
        this.words = new Int32Array(BLOCK);
        this.rest = new Uint8Array(BLOCK);
        this.filled = 0;
        this.length = 0;
    }

    update(bytes) {
        this.length += bytes.length;
        let from = 0;
        if (this.filled > 0) {
            from = Math.min(BLOCK - this.filled, bytes.length);
            this.rest.set(bytes.subarray(0, from), this.filled);
            this.filled += from;
            if (this.filled < BLOCK) {
                return;
            }
            this.mix(this.rest, 0, BLOCK);
        }
        const whole = from + Math.floor((bytes.length - from) / BLOCK) * BLOCK;
        this.mix(bytes, from, whole);
        this.rest.set(bytes.subarray(whole));
        this.filled = bytes.length - whole;
    }

    // The digest in hexadecimal; nothing is added afterwards.
    hex() {
        const length = this.length;
        const end = new Uint8Array((this.filled < 56 ? BLOCK : 2 * BLOCK) - this.filled);
        end[0] = 0x80;
        const view = new DataView(end.buffer);
        view.setUint32(end.length - 8, Math.floor(length / 0x20000000));
        view.setUint32(end.length - 4, (length * 8) >>> 0);
        this.update(end);
        return Array.from(this.state, (word) => (word >>> 0).toString(16).padStart(8, "0")).join("");
    }

    mix(bytes, from, until) {
        const view = new DataView(bytes.buffer, bytes.byteOffset, bytes.length);
        for (let at = from; at < until; at += BLOCK) {
            mixBlock(this.state, this.words, CONSTANTS, view, at);
        }
    }
}

// A function of its own for a block, with all that it needs as its parameters: browsers compile it to fast code. Eight rounds stand
// in a row, after which each variable has its place again: two lines are a round, which would else move all of them.
function mixBlock(state, words, constants, bytes, at) {
    spread(words, bytes, at);
    let a = state[0], b = state[1], c = state[2], d = state[3], e = state[4], f = state[5], g = state[6], h = state[7];
    for (let i = 0; i < BLOCK; i += 8) {
        h = (h + (((e >>> 6) | (e << 26)) ^ ((e >>> 11) | (e << 21)) ^ ((e >>> 25) | (e << 7))) + (g ^ (e & (f ^ g))) + constants[i] + words[i]) | 0; d = (d + h) | 0;
        h = (h + (((a >>> 2) | (a << 30)) ^ ((a >>> 13) | (a << 19)) ^ ((a >>> 22) | (a << 10))) + ((a & b) | (c & (a | b)))) | 0;
        g = (g + (((d >>> 6) | (d << 26)) ^ ((d >>> 11) | (d << 21)) ^ ((d >>> 25) | (d << 7))) + (f ^ (d & (e ^ f))) + constants[i + 1] + words[i + 1]) | 0; c = (c + g) | 0;
        g = (g + (((h >>> 2) | (h << 30)) ^ ((h >>> 13) | (h << 19)) ^ ((h >>> 22) | (h << 10))) + ((h & a) | (b & (h | a)))) | 0;
        f = (f + (((c >>> 6) | (c << 26)) ^ ((c >>> 11) | (c << 21)) ^ ((c >>> 25) | (c << 7))) + (e ^ (c & (d ^ e))) + constants[i + 2] + words[i + 2]) | 0; b = (b + f) | 0;
        f = (f + (((g >>> 2) | (g << 30)) ^ ((g >>> 13) | (g << 19)) ^ ((g >>> 22) | (g << 10))) + ((g & h) | (a & (g | h)))) | 0;
        e = (e + (((b >>> 6) | (b << 26)) ^ ((b >>> 11) | (b << 21)) ^ ((b >>> 25) | (b << 7))) + (d ^ (b & (c ^ d))) + constants[i + 3] + words[i + 3]) | 0; a = (a + e) | 0;
        e = (e + (((f >>> 2) | (f << 30)) ^ ((f >>> 13) | (f << 19)) ^ ((f >>> 22) | (f << 10))) + ((f & g) | (h & (f | g)))) | 0;
        d = (d + (((a >>> 6) | (a << 26)) ^ ((a >>> 11) | (a << 21)) ^ ((a >>> 25) | (a << 7))) + (c ^ (a & (b ^ c))) + constants[i + 4] + words[i + 4]) | 0; h = (h + d) | 0;
        d = (d + (((e >>> 2) | (e << 30)) ^ ((e >>> 13) | (e << 19)) ^ ((e >>> 22) | (e << 10))) + ((e & f) | (g & (e | f)))) | 0;
        c = (c + (((h >>> 6) | (h << 26)) ^ ((h >>> 11) | (h << 21)) ^ ((h >>> 25) | (h << 7))) + (b ^ (h & (a ^ b))) + constants[i + 5] + words[i + 5]) | 0; g = (g + c) | 0;
        c = (c + (((d >>> 2) | (d << 30)) ^ ((d >>> 13) | (d << 19)) ^ ((d >>> 22) | (d << 10))) + ((d & e) | (f & (d | e)))) | 0;
        b = (b + (((g >>> 6) | (g << 26)) ^ ((g >>> 11) | (g << 21)) ^ ((g >>> 25) | (g << 7))) + (a ^ (g & (h ^ a))) + constants[i + 6] + words[i + 6]) | 0; f = (f + b) | 0;
        b = (b + (((c >>> 2) | (c << 30)) ^ ((c >>> 13) | (c << 19)) ^ ((c >>> 22) | (c << 10))) + ((c & d) | (e & (c | d)))) | 0;
        a = (a + (((f >>> 6) | (f << 26)) ^ ((f >>> 11) | (f << 21)) ^ ((f >>> 25) | (f << 7))) + (h ^ (f & (g ^ h))) + constants[i + 7] + words[i + 7]) | 0; e = (e + a) | 0;
        a = (a + (((b >>> 2) | (b << 30)) ^ ((b >>> 13) | (b << 19)) ^ ((b >>> 22) | (b << 10))) + ((b & c) | (d & (b | c)))) | 0;
    }
    state[0] += a; state[1] += b; state[2] += c; state[3] += d; state[4] += e; state[5] += f; state[6] += g; state[7] += h;
}

// The 64 words of a block.
function spread(words, bytes, at) {
    for (let i = 0; i < 16; i += 1) {
        words[i] = bytes.getInt32(at + 4 * i);
    }
    for (let i = 16; i < BLOCK; i += 1) {
        const x = words[i - 15], y = words[i - 2];
        const low = ((x >>> 7) | (x << 25)) ^ ((x >>> 18) | (x << 14)) ^ (x >>> 3);
        const high = ((y >>> 17) | (y << 15)) ^ ((y >>> 19) | (y << 13)) ^ (y >>> 10);
        words[i] = (low + words[i - 7] + high + words[i - 16]) | 0;
    }
}
