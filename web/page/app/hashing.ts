// Computes the SHA-1 and the CRC-32 of images, and the MD5 if it is needed. Each image is read once, from start to end.

import { crc32, forwardOf, joinedBytes, joinedCrc, readBytes, type Reader } from '../../core/bytes.js';
import { cancelled } from '../../core/faults.js';
import { SECTOR_SIZE, type Calls } from '../../core/module/index.js';
import type { Sharing } from '../../core/pool/index.js';
import { sliceOf } from '../../core/readers/views.js';
import type { RangeSurvey } from '../../core/sectors/views.js';
import { hexOf } from '../ui/index.js';
import { startedWorker } from './pool.js';
import type { App, Parts } from './state.js';

// MD5 (RFC 1321), in plain JavaScript. It is computed only for lists of known dumps that have entries without a SHA-1.

const BLOCK = 64;
const SINES = Uint32Array.from({ length: 64 }, (_, i) => Math.floor(2 ** 32 * Math.abs(Math.sin(i + 1))));
/** For each of the four rounds: the shifts of its steps, and the factor and the offset by which a step finds its word. */
const SHIFTS = [[7, 12, 17, 22], [5, 9, 14, 20], [4, 11, 16, 23], [6, 10, 15, 21]];
const WORDS = [[1, 0], [5, 1], [3, 5], [7, 0]];

function mixed(round: number, b: number, c: number, d: number) {
    if (round === 0) return (b & c) | (~b & d);
    if (round === 1) return (d & b) | (~d & c);
    return round === 2 ? b ^ c ^ d : c ^ (b | ~d);
}

/** A running MD5. */
export class Md5 {
    state = Uint32Array.of(0x67452301, 0xEFCDAB89, 0x98BADCFE, 0x10325476);
    size = 0;
    /** The bytes after the last whole block. */
    rest = new Uint8Array(0);

    add(bytes: Uint8Array) {
        const all = this.rest.length === 0 ? bytes : joinedBytes([this.rest, bytes]);
        const end = all.length - all.length % BLOCK;
        const view = new DataView(all.buffer, all.byteOffset, all.length);
        for (let at = 0; at < end; at += BLOCK) this.addBlock(view, at);
        this.rest = all.slice(end);
        this.size += bytes.length;
    }

    addBlock(view: DataView, at: number) {
        const { state } = this;
        let [a, b, c, d] = state;
        for (let i = 0; i < 64; i++) {
            const round = i >> 4;
            const word = view.getUint32(at + 4 * ((WORDS[round][0] * i + WORDS[round][1]) & 15), true);
            const sum = (a + mixed(round, b, c, d) + SINES[i] + word) | 0;
            const shift = SHIFTS[round][i & 3];
            a = d;
            d = c;
            c = b;
            b = (b + ((sum << shift) | (sum >>> (32 - shift)))) | 0;
        }
        state[0] += a;
        state[1] += b;
        state[2] += c;
        state[3] += d;
    }

    /** Returns the MD5 of all added bytes. */
    digest() {
        const { size } = this;
        const end = new DataView(new ArrayBuffer((119 - size % BLOCK) % BLOCK + 9));
        end.setUint8(0, 0x80);
        end.setUint32(end.byteLength - 8, size * 8, true);
        end.setUint32(end.byteLength - 4, Math.floor(size / 2 ** 29), true);
        this.add(new Uint8Array(end.buffer));
        const digest = new DataView(new ArrayBuffer(16));
        this.state.forEach((word, i) => digest.setUint32(4 * i, word, true));
        return new Uint8Array(digest.buffer);
    }
}

// SHA-1 by the module, since browsers have no digest of their own over plain http.

/** A running SHA-1. */
export class Sha1 {
    state;

    constructor(readonly calls: Calls) {
        this.state = calls.sha1Begin();
    }

    add(bytes: Uint8Array) {
        this.state = this.calls.sha1Add(this.state, bytes);
    }

    /** Returns the SHA-1 of all added bytes. */
    digest() {
        return this.calls.sha1End(this.state);
    }
}

// The SHA-256 of bytes, by which a reader compares this page with a published one.

/** The SHA-256 of bytes in lower-case digits; '' if the browser has none, for example for a page loaded over plain http. */
export async function sha256Of(bytes: Uint8Array) {
    const { subtle } = globalThis.crypto || {};
    return subtle ? hexOf(new Uint8Array(await subtle.digest('SHA-256', bytes))).toLowerCase() : '';
}

/** In lower-case hexadecimal digits, as other tools print them. */
type Sums = { sha1: string, crc32: string };
/** The reply of a worker that hashes; only the last one has the digests. */
type Hashed = { digest?: Uint8Array, md5?: Uint8Array };

const HASH_STEP = 1 << 22;
/** How many ranges of an image may wait for its SHA-1 (about 64 MB), so that it does not delay the survey at once. */
const MOST_WAITING = 26;

/** A running SHA-1, computed in a worker of its own. */
export class RunningHash {
    /** The MD5 of all added bytes after `end`, if it is needed. */
    md5 = '';
    waiting: { resolve: (reply: Hashed) => void, reject: (error: Error) => void }[] = [];
    fault: Error | null = null;
    /** The additions that were not awaited yet. */
    coming: Promise<unknown>[] = [];
    worker;

    /**
     * @param most how many additions may be pending: with two, the worker finds the next one when it finishes one
     * @param needsMd5 whether the MD5 is computed too
     */
    constructor(parts: Parts, readonly most: number = 2, readonly needsMd5: boolean = false) {
        this.worker = startedWorker(parts, ({ data }) => (this.waiting.shift() || { resolve() {} }).resolve(data),
            error => {
                this.fault = error;
                this.waiting.forEach(({ reject }) => reject(error));
            });
    }

    /**
     * Adds bytes. If `most` additions are pending, waits for the oldest one first.
     * @param bytes transferred if they fill their buffer, copied if not
     */
    async add(bytes: Uint8Array) {
        if (this.coming.length >= this.most) await this.coming.shift();
        const own = bytes.length === bytes.buffer.byteLength ? bytes : bytes.slice();
        const added = this.post(own, [own.buffer]);
        added.catch(() => {}); // the error is thrown when the addition is awaited
        this.coming.push(added);
    }

    post(bytes: Uint8Array | null, transfer: ArrayBufferLike[]): Promise<Hashed> {
        return new Promise((resolve, reject) => {
            if (this.fault) throw this.fault;
            this.waiting.push({ resolve, reject });
            this.worker.postMessage({ sum: bytes, needsMd5: this.needsMd5 }, transfer as ArrayBuffer[]);
        });
    }

    /** Returns the SHA-1 of all added bytes. */
    async end() {
        for (const added of this.coming) await added;
        const { digest, md5 } = await this.post(null, []);
        if (this.needsMd5) this.md5 = hexOf(md5 as Uint8Array).toLowerCase();
        return hexOf(digest as Uint8Array).toLowerCase();
    }

    close() {
        this.worker.terminate();
    }
}

/** Computes the SHA-1 of an image. Throws a Fault, `cancelled`, or the error of reading. `progress` receives the number of bytes hashed. */
export async function sha1Of(parts: Parts, reader: Reader, signal: { aborted: boolean }, progress: (done: number) => void) {
    const hash = new RunningHash(parts);
    const ahead = forwardOf(reader);
    try {
        for (let at = 0; at < reader.size; at += HASH_STEP) {
            const bytes = await readBytes(ahead, at, Math.min(HASH_STEP, reader.size - at));
            const size = bytes.length;
            if (signal.aborted) throw cancelled();
            await hash.add(bytes);
            progress(at + size);
        }
        return await hash.end();
    } finally {
        hash.close();
    }
}

/**
 * Computes both sums of an image, and its survey if requested. Each range goes to a worker of the pool, and then to the SHA-1 worker.
 * `close` must be called at the end.
 */
export class Summing {
    crc = 0;
    done = 0;
    pool; ahead; sha1;

    /** @param progress receives the number of bytes hashed */
    constructor({ pool, parts }: App, readonly reader: Reader, readonly progress: (done: number) => void, needsMd5: boolean = false) {
        this.pool = pool;
        this.ahead = forwardOf(reader);
        this.sha1 = new RunningHash(parts, MOST_WAITING, needsMd5);
    }

    /**
     * Reads all sectors, or the next part of them. Throws what Pool.share throws.
     * @param surveyed receives the survey of each range
     * @param shift how many blocks the address of a sector is ahead of its block, below 0 if behind
     * @param part its number of sectors, and how many precede it
     */
    async read(how: Sharing, surveyed: ((survey: RangeSurvey) => void) | null = null, shift: number = 0,
        part: { before: number, sectors: number } | null = null) {
        const args = { surveys: surveyed !== null, shift, mode2: true };
        const [from, end] = part === null ? [0, this.reader.size] : [part.before, part.before + part.sectors].map(it => it * SECTOR_SIZE);
        await this.pool.share('sums', [sliceOf(this.ahead, from, end)], args, how, async ({ bytes, crc, survey }) => {
            if (surveyed !== null && survey !== null) surveyed(survey);
            await this.add(bytes, crc);
        });
    }

    async add(bytes: Uint8Array, crc: number) {
        this.crc = joinedCrc(this.crc, crc, bytes.length);
        this.done += bytes.length;
        await this.sha1.add(bytes);
        this.progress(this.done);
    }

    /** @returns the sums of the sectors read, and of any bytes after the last whole sector */
    async end(): Promise<Sums & { md5: string }> {
        const rest = this.reader.size % SECTOR_SIZE;
        if (rest > 0) {
            const bytes = await readBytes(this.ahead, this.reader.size - rest, rest);
            await this.add(bytes, crc32(0, bytes));
        }
        const sha1 = await this.sha1.end();
        return { sha1, crc32: this.crc.toString(16).padStart(8, '0'), md5: this.sha1.md5 };
    }

    close() {
        this.sha1.close();
    }
}

/** Computes the SHA-1 and the CRC-32 of an image. Throws what Pool.share throws. `progress` receives the number of bytes hashed. */
export async function sumsOf(app: App, reader: Reader, signal: { aborted: boolean }, progress: (done: number) => void) {
    const sums = new Summing(app, reader, progress);
    try {
        await sums.read({ signal });
        return await sums.end();
    } finally {
        sums.close();
    }
}
