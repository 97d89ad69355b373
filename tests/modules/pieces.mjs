// A client that applies a script to pieces of an image. Their arguments stay in the module's memory from the first call to the last.

import { Lent, same } from './calls.mjs';

/** @typedef {import('./calls.mjs').Calls} Calls */
/** @typedef {{ status: number, text: Uint8Array, out: Uint8Array | null }} Answer */
/** @typedef {{ script: Uint8Array, base: number, flags: number }} Asked */

const SECTOR = 2352;
const [ENTRY_SIZE, INDEX_SIZE, ANSWER_SIZE, JOB_SIZE, PATCH_BYTES_SIZE, LINE_SIZE] = [24, 32, 24, 72, 8192, 96];
const MOST_ANSWERS = 3;
const LAST = 2;
const LINE_FEED = 10;
const [MOST_SECTORS, LAST_SECTORS, FRONT_SECTORS] = [1000000, 999996, 8]; // the last two as in piece_cases.c
const [VALID, INVALID, TOO_LONG] = [0, 1, 2];
const [PIECE, CAPACITY] = [1, 2];
const [DONE, FOUND, FAILED] = [0, 1, 2];
const [LONG_SCRIPT, LONG_IMAGE] = [0, 1];

/** A script that is applied in a module, from its beginning. */
class Job {
    /**
     * @param {Calls} calls
     * @param {Asked} asked
     * @param {number} most sectors of a piece
     */
    constructor(calls, asked, most) {
        this.calls = calls;
        this.asked = asked;
        const lines = asked.script.reduce((count, byte) => count + Number(byte === LINE_FEED), 1);
        this.lent = new Lent(calls, [asked.script, lines * ENTRY_SIZE, INDEX_SIZE, PATCH_BYTES_SIZE, MOST_ANSWERS * ANSWER_SIZE, JOB_SIZE, 8,
            LINE_SIZE, most * SECTOR]);
        [this.script, this.entries, this.index, this.patchBytes, this.answers, this.job, this.doneAt, this.line, this.piece] = this.lent.places;
        this.view = new DataView(this.lent.memory.buffer);
        /** @type {Uint8Array[]} */
        this.log = [];
        this.done = 0;
        this.refused = 0;
        const found = this.calls.exports.cdpatch_index_script(this.script, BigInt(asked.script.length), this.entries, BigInt(lines), this.index);
        this.count = Number(this.view.getBigUint64(this.index, true));
        if (found === INVALID) this.print('fault', this.number(this.index + 16), this.number(this.index + 12));
        if (found === TOO_LONG) this.print('failure', LONG_SCRIPT);
        this.isValid = found === VALID;
        this.given = this.lent.piece(1).slice();
    }

    /** @param {number} at */
    number(at) {
        return this.view.getUint32(at, true);
    }

    /**
     * Prints the line that a call writes.
     * @param {string} call
     * @param {...number} numbers
     */
    print(call, ...numbers) {
        const size = Number(this.calls.exports[`cdpatch_${call}_line`](...numbers, this.line));
        this.log.push(this.lent.memory.slice(this.line, this.line + size));
    }

    /** The first block of the next patch, or Infinity. */
    nextBlock() {
        return this.done < this.count ? this.number(this.entries + this.done * ENTRY_SIZE) : Infinity;
    }

    /** @param {number} first */
    writeJob(first, isLast = false) {
        const { script, base, flags } = this.asked;
        const sizes = [this.script, script.length, this.entries + this.done * ENTRY_SIZE, this.count - this.done, this.patchBytes];
        const numbers = [this.number(this.index + 8), base, first, flags + (isLast ? LAST : 0), 0, 0, 0, 0];
        // The second half of a pointer's place is not read.
        sizes.forEach((size, i) => this.view.setBigUint64(this.job + 8 * i, BigInt(size) + (i % 2 === 0 ? 0x5A5A5A5An << 32n : 0n), true));
        numbers.forEach((number, i) => this.view.setUint32(this.job + 40 + 4 * i, number, true));
    }

    /**
     * Applies the patches that fit to the first sectors of the piece.
     * @param {number} first
     * @param {number} count
     * @param {boolean} isLast
     */
    apply(first, count, isLast) {
        for (let stop = CAPACITY; stop === CAPACITY;) {
            this.writeJob(first, isLast);
            stop = this.calls.exports.cdpatch_apply_entries(this.job, this.piece, BigInt(count), this.answers, BigInt(MOST_ANSWERS), this.doneAt);
            this.lent.seeBetween();
            if (stop > CAPACITY || isLast && stop === PIECE) throw new Error(`a call stopped for reason ${stop}`);
            const done = Number(this.view.getBigUint64(this.doneAt, true));
            for (let at = this.answers; at < this.answers + done * ANSWER_SIZE; at += ANSWER_SIZE) {
                const [line, result, block, offset] = [0, 4, 8, 12].map(field => this.number(at + field));
                this.print('outcome', line, result, block, offset);
                this.refused += Number(result !== 0);
            }
            this.done += done;
        }
    }
}

/**
 * Applies a script to an image in pieces of at most `most` sectors.
 * @param {Calls} calls
 * @param {Asked} asked
 * @param {Uint8Array} image
 * @param {number} most
 * @returns {Answer}
 */
function madeInPieces(calls, asked, image, most) {
    const job = new Job(calls, asked, most);
    if (!job.isValid) return { status: FAILED, text: Buffer.concat(job.log), out: null };
    const whole = image.length - image.length % SECTOR;
    const piece = job.lent.piece(8);
    /** @type {Uint8Array[]} */
    const out = [];
    let [came, held, first] = [0, 0, asked.base];
    for (let isLast = false; !isLast;) {
        const size = Math.min(piece.length - held, whole - came);
        piece.set(image.subarray(came, came + size), held);
        came += size;
        held += size;
        isLast = held < piece.length;
        job.apply(first, held / SECTOR, isLast);
        const sent = Math.min(held, (job.nextBlock() - first) * SECTOR);
        out.push(piece.slice(0, sent));
        piece.copyWithin(0, sent, held);
        held -= sent;
        first += sent / SECTOR;
    }
    job.print('last', job.done - job.refused, job.refused);
    same(job.lent.piece(0), asked.script);
    same(job.lent.piece(1), job.given);
    return { status: job.refused ? FOUND : DONE, text: Buffer.concat(job.log), out: Buffer.concat([...out, image.subarray(whole)]) };
}

/**
 * Returns `due`, and throws an Error if pieces of 3 or 4 sectors, or the whole image, give another result.
 * @param {Calls} calls
 * @param {Asked & { image: Uint8Array }} given
 * @param {Answer} due
 */
export function sameInPieces(calls, { image, ...asked }, due) {
    for (const most of [3, 4, Math.floor(image.length / SECTOR) + 1]) {
        const made = madeInPieces(calls, asked, image, most);
        if (made.status !== due.status || Buffer.compare(made.text, due.text) !== 0) throw new Error('pieces print another log than is due');
        if (due.out && made.out && Buffer.compare(made.out, due.out) !== 0) throw new Error('pieces make another image than is due');
    }
    return due;
}

/**
 * Applies a script to the first sectors and the last ones of a long image. `sectors` has the first four and those from LAST_SECTORS on; all
 * others are blank. Throws an Error if the result is other than `due`, which has the sectors of both pieces.
 * @param {Calls} calls
 * @param {Asked} asked
 * @param {{ sectors: Uint8Array, size: number }} image
 * @param {Answer} due
 */
export function sameOfLong(calls, asked, { sectors, size }, due) {
    const [job, isLong] = [new Job(calls, asked, FRONT_SECTORS), size > MOST_SECTORS * SECTOR];
    const piece = job.lent.piece(8);
    const end = Math.min(MOST_SECTORS, Math.floor(size / SECTOR));
    /** @type {Uint8Array[]} */
    const out = [];
    for (const [from, count, bytes] of /** @type {[number, number, Uint8Array][]} */ ([
        [0, FRONT_SECTORS, sectors.subarray(0, 4 * SECTOR)], [LAST_SECTORS, end - LAST_SECTORS, sectors.subarray(4 * SECTOR)]])) {
        piece.fill(0);
        piece.set(bytes.subarray(0, count * SECTOR));
        job.apply(asked.base + from, count, from > 0 && !isLong);
        out.push(piece.slice(0, count * SECTOR));
    }
    if (isLong) job.print('failure', LONG_IMAGE);
    else job.print('last', job.done - job.refused, job.refused);
    const status = isLong ? FAILED : job.refused ? FOUND : DONE;
    if (status !== due.status || Buffer.compare(Buffer.concat(job.log), due.text) !== 0) throw new Error('pieces print another log than is due');
    if (Buffer.compare(Buffer.concat(out), /** @type {Uint8Array} */ (due.out)) !== 0) throw new Error('pieces make another image than is due');
}
