// The calls of a module of libcdpatch, with bytes of JavaScript.

import { readFileSync } from 'node:fs';

const PAGE = 65536;
/** The bytes at the beginning of the memory that are the stack, and their value before a call: no byte of it is right by luck. */
const [STACK, LEFT] = [1 << 20, 0xFF];
/** The value of guard bytes between the arguments of a call, and the initial value of bytes that it writes. */
export const [KEPT, UNWRITTEN] = [0x5A, 0xA5];

/** Bytes that a call reads and writes; the caller gets them back. */
export class Room {
    /** @param {number | Uint8Array} content its size, or the bytes that it begins with */
    constructor(content) {
        this.bytes = typeof content === 'number' ? new Uint8Array(content).fill(UNWRITTEN) : content.slice();
    }
}

/** A number of the C type size_t. Any other number has at most 32 bits. */
export class Size {
    /** @param {number | bigint} value */
    constructor(value) {
        this.value = BigInt(value);
    }
}

export class Calls {
    /** @param {string} path the module's file */
    constructor(path) {
        const module = new WebAssembly.Module(readFileSync(path));
        this.exports = /** @type {any} */ (new WebAssembly.Instance(module).exports);
        this.start = this.exports.__heap_base.value;
    }

    /** @param {number} size the required memory in bytes */
    grow(size) {
        const missing = Math.ceil((size - this.exports.memory.buffer.byteLength) / PAGE);
        if (missing > 0) this.exports.memory.grow(missing);
    }

    /**
     * Calls a function. Bytes and rooms are copied into the module's memory, and rooms are copied back. A list of bytes is followed by its
     * size.
     * @param {string} name
     * @param {...(Uint8Array | Room | Size | number | boolean)} given
     * @returns {number | bigint | undefined}
     */
    call(name, ...given) {
        const lent = new Lent(this, given.flatMap(it => it instanceof Room ? it.bytes : it instanceof Uint8Array ? [it] : []));
        let next = 0;
        const passed = given.map(it => {
            if (it instanceof Room || it instanceof Uint8Array) return lent.places[next++];
            return it instanceof Size ? it.value : Number(it);
        });
        const result = this.exports[name](...passed);
        lent.seeBetween();
        next = 0;
        for (const it of given) {
            if (it instanceof Room) it.bytes.set(lent.piece(next++));
            else if (it instanceof Uint8Array) same(lent.piece(next++), it);
        }
        return result;
    }
}

/**
 * Throws an Error if bytes have changed.
 * @param {Uint8Array} now
 * @param {Uint8Array} before
 */
export function same(now, before) {
    if (Buffer.compare(now, before) !== 0) throw new Error('bytes changed that were only to be read');
}

/** Memory of a module for one call or many: pieces of these sizes, or with these bytes, with at least sixteen guard bytes between them. */
export class Lent {
    /**
     * @param {Calls} calls
     * @param {(number | Uint8Array)[]} pieces
     */
    constructor(calls, pieces) {
        let at = calls.start;
        /** @type {number[]} */
        this.places = [];
        /** @type {number[]} */
        this.ends = [at];
        for (const piece of pieces) {
            const place = (at + 31) & ~15;
            at = place + (typeof piece === 'number' ? piece : piece.length);
            this.places.push(place);
            this.ends.push(at);
        }
        calls.grow(at + 16);
        this.memory = new Uint8Array(calls.exports.memory.buffer);
        this.memory.fill(LEFT, 0, STACK);
        this.memory.fill(KEPT, calls.start, at + 16);
        pieces.forEach((piece, i) => {
            if (typeof piece !== 'number') this.memory.set(piece, this.places[i]);
        });
    }

    /** @param {number} i */
    piece(i) {
        return this.memory.subarray(this.places[i], this.ends[i + 1]);
    }

    /** Throws an Error if a byte between the pieces, before the first, or after the last has changed. */
    seeBetween() {
        this.ends.forEach((end, i) => {
            const next = this.places[i] ?? end + 16;
            for (let at = end; at < next; at++) if (this.memory[at] !== KEPT) throw new Error('bytes changed between what was lent');
        });
    }
}
