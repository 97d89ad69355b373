// The hashes of an image, and its survey during hashing: their values, how often the image is read, and how far the survey reads ahead.

import assert from 'node:assert/strict';
import { createHash } from 'node:crypto';
import { test } from 'node:test';
import { gzipSync } from 'node:zlib';
import { calls, imageOf, imageOfBytes, page, parts, summing } from './page.mjs';

const { Summing, sha1Of } = await page('app/hashing.js');
const { bytes: sectors } = imageOf([[1], [2], [3], [4], [5]]);

/** A reader of an image that records its reads. */
function readerOf(bytes) {
    const { reader } = imageOfBytes(bytes);
    const reads = [];
    return { ...reader, reads, read(at, length) {
        reads.push([at, length]);
        return reader.read(at, length);
    } };
}

test('an image is read once for its survey and its hashes, with what comes after its last sector', async () => {
    for (const tail of [[], [7, 8, 9]]) {
        const bytes = Buffer.from([...sectors, ...tail]);
        const [reader, records, reported] = [readerOf(bytes), [], []];
        const sums = new Summing(summing, reader, done => reported.push(done));
        await sums.read({ base: 0, step: 2 }, answer => records.push([answer.block, ...answer.records]));
        const { sha1, crc32 } = await sums.end();
        assert.equal(sha1, createHash('sha1').update(bytes).digest('hex'));
        assert.equal(crc32, gzipSync(bytes).subarray(-8, -4).reverse().toString('hex'));
        assert.deepEqual(reader.reads, [[0, 4704], [4704, 4704], [9408, 2352], ...tail.length ? [[11760, 3]] : []]);
        assert.equal(reported.at(-1), bytes.length);
        const due = [0, 2, 4].map(block => [block, ...calls.survey(sectors.subarray(2352 * block, 2352 * Math.min(block + 2, 5)), block)]);
        assert.deepEqual(records, due);
    }
});

test('the survey goes ahead of the SHA-1, but not through all of a long image', async () => {
    const reader = readerOf(new Uint8Array(2352 * 100));
    const surveyed = [];
    const stuck = { ...parts, newWorker: () => ({ postMessage() {}, terminate() {} }) };
    const sums = new Summing({ ...summing, parts: stuck }, reader, () => {});
    sums.read({ base: 0, step: 1 }, ({ block }) => surveyed.push(block));
    for (let turn = 0; turn < 1000; turn++) await new Promise(setImmediate);
    assert.ok(surveyed.length > 20 && surveyed.length < 40, `${surveyed.length} ranges`);
    assert.ok(reader.reads.length < 40, `${reader.reads.length} reads`);
});

test('while bytes are hashed, the next ones are with the worker, and no more', async () => {
    const posted = [];
    const stuck = { ...parts, newWorker: () => ({ postMessage: ({ sum }) => sum && posted.push(sum.length), terminate() {} }) };
    sha1Of(stuck, readerOf(new Uint8Array(5 << 22)), { aborted: false }, () => {});
    for (let turn = 0; turn < 100; turn++) await new Promise(setImmediate);
    assert.deepEqual(posted, [1 << 22, 1 << 22]);
});

test('a worker that stops while it hashes ends the hashing', async () => {
    const stops = { ...parts, newWorker: () => {
        const worker = { postMessage: ({ module }) => module || setImmediate(() => worker.onerror({ message: 'out of memory' })), terminate() {} };
        return worker;
    } };
    const sums = new Summing({ ...summing, parts: stops }, readerOf(sectors), () => {});
    await sums.read({ base: 0, step: 1 });
    await assert.rejects(sums.end(), { message: /A background task of this page has crashed \(out of memory\)/ });
});
