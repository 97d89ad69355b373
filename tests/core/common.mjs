// Shared by the tests of the core: the core itself (CORE, by default out/web/core), images, readers, and comparisons of bytes.

import assert from 'node:assert/strict';
import { readFileSync } from 'node:fs';
import { join } from 'node:path';
import { fileURLToPath, pathToFileURL } from 'node:url';
import { withAllCalls } from './calls.mjs';

export { diceOf } from '../lib/dice.mjs';

export const top = fileURLToPath(new URL('../..', import.meta.url));
const folder = process.env.CORE ?? join(top, 'out/web/core');

/** @param {string} name a module of the core, where it is imported from */
export const coreFile = name => pathToFileURL(join(folder, name)).href;

/** @param {string} name a module of the core */
export const core = name => import(coreFile(name));

const codes = { ...await core('module/calls.js') };
const Calls = withAllCalls(codes.Calls, codes.sized);
export const module = new WebAssembly.Module(readFileSync(process.env.MODULE ?? join(top, 'library/cdpatch.wasm')));

/**
 * The table of encodings in tests/encodings.json, in the order of their list: the spaces; characters that are split in tests; and for
 * encodings of other languages the Encoding Standard's label, the SHA-256 of its characters beyond ASCII (a line with the bytes and the
 * character for each), the name for iconv and Python, and sample texts.
 */
export const ENCODINGS_KNOWN = JSON.parse(readFileSync(join(top, 'tests/encodings.json'), 'utf8'));

/** Calls with their own memory. */
export const newCalls = () => new Calls(module);
export const calls = newCalls();

const { tableEncoding, tableTextOf } = await core('encodings/index.js');

/** The encoding of a `.tbl` file with these bytes. */
export const tableOf = bytes => tableEncoding(tableTextOf(bytes));

/** @param {string} text */
export const encoded = text => new TextEncoder().encode(text);

/** @param {Uint8Array} bytes */
export const decoded = bytes => new TextDecoder('latin1').decode(bytes);

/** @param {Uint8Array} a */
export function sameBytes(a, b, name) {
    assert.equal(a.length, b.length, `${name}: sizes`);
    assert.equal(Buffer.compare(a, b), 0, `${name}: bytes`);
}

/** Random bytes. */
export const someBytes = (dice, size) => Uint8Array.from({ length: size }, () => dice(256));

/** Sectors from a block on: most of them consistent, some damaged, of another kind, or with a wrong address. A tail follows. */
export function someImage(dice, count, base, tail = 0) {
    const image = new Uint8Array(count * 2352 + tail).fill(7);
    const user = new Uint8Array(2048);
    for (let i = 0; i < count; i++) {
        user.fill(dice(256), dice(2048));
        const sector = calls.encode(calls.address(dice(20) === 0 ? 5 : base + i) ?? Uint8Array.of(1, 2, 3), user);
        if (dice(10) === 0) sector[16 + dice(2336)] ^= 1 + dice(255);
        if (dice(30) === 0) sector[15] = dice(4);
        if (dice(40) === 0) sector[dice(12)] ^= 16;
        image.set(sector, i * 2352);
    }
    return image;
}

/** Joins the surveys of consecutive ranges. */
export function joinSurveys(parts, base) {
    let end = base;
    for (const { block, records } of parts) {
        assert.equal(block, end, 'a range follows the one before it');
        end += records.length / 6;
    }
    return { block: base, records: Uint8Array.from(Buffer.concat(parts.map(part => part.records))) };
}

/** The survey of an image by ranges of `step` sectors. */
export function surveyed(image, base, step) {
    const whole = image.subarray(0, image.length - image.length % 2352);
    const survey = (bytes, block) => ({ block, records: calls.survey(bytes, block) });
    return joinSurveys(cutBy(whole, 2352 * step).map((bytes, i) => survey(bytes, base + i * step)), base);
}

/** A reader of bytes in memory that returns at most `most` bytes per read. */
export function readerOf(bytes, most = Infinity) {
    const reads = [];
    return {
        size: bytes.length,
        reads,
        async read(at, length) {
            reads.push({ at, length });
            return bytes.subarray(at, at + Math.min(length, most));
        },
    };
}

/** The bytes of pieces, each of which must begin where the previous one ends. */
export function joinedPieces(image, pieces) {
    let end = 0;
    const parts = pieces.map(piece => {
        assert.equal(piece.at ?? piece.from, end, 'a piece follows the one before it');
        const bytes = piece.bytes ?? image.subarray(piece.from, piece.to);
        assert.ok(bytes.length > 0, 'no piece is empty');
        end += bytes.length;
        return bytes;
    });
    return Buffer.concat(parts);
}

/** Bytes cut at these places. */
export const cutAt = (bytes, ...places) => [0, ...places].map((from, i) => bytes.subarray(from, places[i] ?? bytes.length));

/** Bytes cut into pieces of one size. */
export const cutBy = (bytes, size) =>
    Array.from({ length: Math.ceil(bytes.length / size) }, (_, i) => bytes.subarray(i * size, (i + 1) * size));
