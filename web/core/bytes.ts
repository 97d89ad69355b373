// What a reader and a piece are, and functions on both and on bytes. `readers` has the readers that are made from other readers.

import { Fault, newBytes } from './faults.js';

// Conversion between bytes and hexadecimal digits.

export const PAIRS_OF_DIGITS = Array.from({ length: 256 }, (_, byte) => byte.toString(16).toUpperCase().padStart(2, '0'));

/** Bytes as hexadecimal digits. `between` is the separator between the digits of two bytes. */
export function hexText(bytes: Uint8Array, between: string = '') {
    return Array.from(bytes, byte => PAIRS_OF_DIGITS[byte]).join(between);
}

/** Converts hexadecimal digits to bytes, two digits for each byte. */
export function bytesOfHex(digits: string) {
    return Uint8Array.from(digits.match(/../g) || [], pair => parseInt(pair, 16));
}

// The CRC-32 that DATs list for dumps.

const POLYNOMIAL = 0xEDB88320;
/** The polynomials 1 and x^8. The highest bit is the coefficient of x^0. */
const ONE = 1 << 31;
const X_8 = 1 << 23;
/** How many bytes are added to the sum at a time: two little-endian words, with a table for each byte. */
const TABLES = 8;

/** Table k lists the contribution of each byte value to the sum if k bytes follow it. */
const CRC_TABLES = (() => {
    const tables = Array.from({ length: TABLES }, () => new Int32Array(256));
    for (let byte = 0; byte < 256; byte++) {
        let sum = byte;
        for (let bit = 0; bit < 8; bit++) sum = timesX(sum);
        tables[0][byte] = sum;
    }
    for (let k = 1; k < TABLES; k++) {
        for (let byte = 0; byte < 256; byte++) tables[k][byte] = tables[k - 1][byte] >>> 8 ^ tables[0][tables[k - 1][byte] & 255];
    }
    return tables;
})();

/** @param sum the polynomial that is multiplied by x */
function timesX(sum: number) {
    return sum >>> 1 ^ (sum & 1 ? POLYNOMIAL : 0);
}

/** Continues a CRC-32 with more bytes. `before` is the CRC-32 of the earlier bytes, 0 if there are none. */
export function crc32(before: number, bytes: Uint8Array) {
    const [t0, t1, t2, t3, t4, t5, t6, t7] = CRC_TABLES;
    const { buffer, byteOffset, length } = bytes.byteOffset % 4 === 0 ? bytes : bytes.slice();
    const words = new Int32Array(buffer, byteOffset, length >> 3 << 1);
    let sum = ~before;
    for (let i = 0; i < words.length; i += 2) {
        const near = words[i] ^ sum;
        const far = words[i + 1];
        sum = t7[near & 255] ^ t6[near >>> 8 & 255] ^ t5[near >>> 16 & 255] ^ t4[near >>> 24]
            ^ t3[far & 255] ^ t2[far >>> 8 & 255] ^ t1[far >>> 16 & 255] ^ t0[far >>> 24];
    }
    for (const byte of bytes.subarray(words.length * 4)) sum = sum >>> 8 ^ t0[(sum ^ byte) & 255];
    return ~sum >>> 0;
}

/**
 * The CRC-32 of two adjacent ranges, from the CRC-32 of each. The first one is multiplied by x^(8 * size).
 * @param size of the second range in bytes
 */
export function joinedCrc(before: number, after: number, size: number) {
    let moves = ONE;
    for (let power = X_8, left = size; left > 0; left = Math.floor(left / 2)) {
        if (left % 2 === 1) moves = product(moves, power);
        power = product(power, power);
    }
    return (product(before, moves) ^ after) >>> 0;
}

/** The product of two polynomials, modulo the polynomial of the CRC-32. */
function product(a: number, b: number) {
    let sum = 0;
    for (let bit = ONE, power = b; bit !== 0; bit >>>= 1) {
        if (a & bit) sum ^= power;
        power = timesX(power);
    }
    return sum;
}

/**
 * Reads the bytes of an image. `read` returns at most `length` bytes from `at` on, and none only at the end of the image. It may put them
 * into `room`, which then belongs to the caller. `lent` returns a postable object by which a worker of this interface reads the same bytes.
 * `forward` returns a faster reader of the same bytes for a single caller that reads forward and does not change the bytes it gets.
 */
export type Reader = { size: number, read(at: number, length: number, room?: Uint8Array): Promise<Uint8Array>,
    lent?(at: number, length: number): unknown, forward?(): Reader };

/** A piece of an image that is written: new bytes at a place, or an unchanged range of the source. */
export type Piece = { at: number, bytes: Uint8Array } | { from: number, to: number };

/** The most bytes of a slice that are read at a time. */
export const READ_SIZE = 1 << 22;

/** A reader of the same bytes for a caller that reads forward. */
export function forwardOf(reader: Reader) {
    return reader.forward ? reader.forward() : reader;
}

/**
 * Reads bytes, with further reads after a short one. Throws a Fault, `image-ended`, if the image ends before `least` bytes are read.
 * @param room `length` bytes of memory, which the reader may use for the result
 * @param least how many bytes are enough
 */
export async function readBytes(reader: Reader, at: number, length: number, room?: Uint8Array, least: number =
    length): Promise<Uint8Array> {
    const parts = [];
    for (let done = 0; done < least;) {
        const part = await reader.read(at + done, length - done, room && room.subarray(done));
        if (part.length === 0) throw new Fault('image-ended', { at: at + done });
        parts.push(part);
        done += part.length;
    }
    return parts.length === 1 ? parts[0] : joinedBytes(parts);
}

/** Fills `room` with the bytes of an image. Throws what readBytes throws. */
export async function readInto(reader: Reader, at: number, room: Uint8Array) {
    const bytes = await readBytes(reader, at, room.length, room);
    if (bytes.buffer !== room.buffer) room.set(bytes);
}

/**
 * Yields the bytes of pieces in order. The bytes that one step yields may be overwritten by the next step.
 * @param reader the source of the slices
 * @param room of READ_SIZE bytes
 */
export async function* bytesOfPieces(reader: Reader, pieces: Iterable<Piece> | AsyncIterable<Piece>,
    room?: Uint8Array): AsyncGenerator<Uint8Array> {
    for await (const piece of pieces) {
        if ('bytes' in piece) {
            yield piece.bytes;
            continue;
        }
        for (let at = piece.from; at < piece.to; at += READ_SIZE) {
            yield await readBytes(reader, at, Math.min(READ_SIZE, piece.to - at), room);
        }
    }
}

/** Concatenates byte arrays. */
export function joinedBytes(parts: Uint8Array[]) {
    const whole = newBytes(parts.reduce((size, part) => size + part.length, 0));
    let at = 0;
    for (const part of parts) {
        whole.set(part, at);
        at += part.length;
    }
    return whole;
}

/** @param lines without their ends */
export function bytesOfLines(lines: string[]) {
    return new TextEncoder().encode(lines.map(line => `${line}\n`).join(''));
}

/** Whether two byte arrays of the same length are equal. */
export function sameBytes(a: Uint8Array, b: Uint8Array) {
    return a.every((byte, i) => byte === b[i]);
}

/** The index of the first of ascending numbers that is greater than `number`; their count if none is. */
export function firstAfter(numbers: number[], number: number) {
    let [low, high] = [0, numbers.length];
    while (low < high) {
        const middle = (low + high) >> 1;
        if (numbers[middle] > number) high = middle;
        else low = middle + 1;
    }
    return low;
}

export function wholeOf(reader: Reader) {
    return readBytes(reader, 0, reader.size);
}

/** The range of the image that a piece covers. */
export function extentOf(piece: Piece) {
    return 'bytes' in piece ? { from: piece.at, to: piece.at + piece.bytes.length } : piece;
}

/** The part of a piece that lies in a range, or null if no part does. */
export function pieceWithin<Some extends Piece>(piece: Some, from: number, to: number): Some | null {
    const extent = extentOf(piece);
    const [at, end] = [Math.max(extent.from, from), Math.min(extent.to, to)];
    if (at >= end) return null;
    const bytes = 'bytes' in piece && piece.bytes.subarray(at - extent.from, end - extent.from);
    return (bytes ? { at, bytes } : { from: at, to: end }) as Some;
}

/** The least size in bytes of the memory blocks in which pieces are kept. */
const KEPT_SIZE = 1 << 20;

/**
 * Copies pieces, since the bytes of a piece may be overwritten after it is passed on. The copies share large blocks of memory, because
 * an allocation for each piece takes longer than the copy.
 */
export class PieceKeeper {
    room = new Uint8Array(0);

    kept(piece: Piece): Piece {
        if (!('bytes' in piece)) return piece;
        const { length } = piece.bytes;
        if (this.room.length < length) this.room = newBytes(Math.max(length, KEPT_SIZE));
        const bytes = this.room.subarray(0, length);
        bytes.set(piece.bytes);
        this.room = this.room.subarray(length);
        return { ...piece, bytes };
    }
}

/** Splits a modified image into copied and changed pieces, in order. */
export class PieceCutter {
    end = 0;

    constructor(readonly take: (piece: Piece) => void | Promise<void>) {}

    /** @param end the place up to which the image is unchanged */
    async keep(end: number) {
        if (this.end < end) await this.take({ from: this.end, to: end });
        this.end = end;
    }

    /** @param bytes the new bytes there */
    async put(at: number, bytes: Uint8Array) {
        await this.keep(at);
        await this.take({ at, bytes });
        this.end += bytes.length;
    }
}

/** A growing byte array. */
export class ByteList {
    size = 0;

    /** @param room memory for the bytes, which is replaced if it becomes too small */
    constructor(public room: Uint8Array = new Uint8Array(1 << 12)) {}

    /** @param bytes the bytes to append, which are copied */
    push(bytes: Uint8Array) {
        const at = this.grow(bytes.length);
        this.room.set(bytes, at);
    }

    /** Makes room for more bytes, and returns the place in `room` where they begin. */
    grow(count: number) {
        const at = this.size;
        this.size += count;
        if (this.size > this.room.length) {
            const room = newBytes(Math.max(this.size, 2 * this.room.length));
            room.set(this.room.subarray(0, at));
            this.room = room;
        }
        return at;
    }

    /** The bytes, not copied. They are valid until the list changes. */
    bytes() {
        return this.room.subarray(0, this.size);
    }

    /** @param count how many bytes are removed from the front */
    drop(count: number) {
        this.room.copyWithin(0, count, this.size);
        this.size -= count;
    }
}
