// Reads the standard input of a program in node.

import { readSync } from 'node:fs';

const chunk = Buffer.alloc(1 << 20);

/** The bytes of standard input, in order. */
export class Input {
    constructor() {
        this.bytes = Buffer.alloc(0);
        this.at = 0;
    }

    /** @param {number} size how many bytes are wanted; fewer are left at the end */
    fill(size) {
        const parts = [this.bytes.subarray(this.at)];
        for (let have = parts[0].length, got = 1; have < size && got > 0; have += got) {
            got = readSync(0, chunk, 0, chunk.length, null);
            parts.push(Buffer.from(chunk.subarray(0, got)));
        }
        this.bytes = Buffer.concat(parts);
        this.at = 0;
    }

    ended() {
        if (this.at === this.bytes.length) this.fill(1);
        return this.bytes.length === 0;
    }

    /** @param {number} size */
    take(size) {
        if (this.bytes.length - this.at < size) this.fill(size);
        if (this.bytes.length < size) throw new Error('a record is cut off');
        this.at += size;
        return new Uint8Array(this.bytes.subarray(this.at - size, this.at));
    }

    /** @param {number} size of a number, 1, 4 or 8 bytes */
    number(size) {
        return this.take(size).reduceRight((sum, byte) => sum * 256n + BigInt(byte), 0n);
    }

    /** @param {number} end the byte after the text */
    text(end) {
        while (!this.bytes.includes(end, this.at)) {
            const left = this.bytes.length - this.at;
            this.fill(left + 1);
            if (this.bytes.length === left) throw new Error('a text has no end');
        }
        const text = this.take(this.bytes.indexOf(end, this.at) - this.at);
        this.take(1);
        return Buffer.from(text).toString('latin1');
    }
}
