// Reading a file forward: the bytes read, and the number of slices made for them.

import assert from 'node:assert/strict';
import { createHash } from 'node:crypto';
import { test } from 'node:test';
import { core, page, summing } from './page.mjs';

const { forwardOf } = await core('bytes.js');
const { sumsOf } = await page('app/hashing.js');
const { fileReader, readByWorkers } = await page('open/reading.js');

const MiB = 2 ** 20;
const bytes = Buffer.alloc(72 * MiB + 7, Uint8Array.from({ length: 65537 }, (_, i) => i ^ i >> 9));

/** A file that records the size of each of its slices. */
function fileOf() {
    const file = Object.assign(new Blob([bytes]), { name: 'game.bin', cuts: [] });
    const slice = file.slice.bind(file);
    file.slice = (...given) => {
        const part = slice(...given);
        file.cuts.push(part.size);
        return part;
    };
    return file;
}

/** Reads these places of a file in turn, repeating short reads, and compares the bytes. Returns the sizes of the slices. */
async function cutsFor(places) {
    const file = fileOf();
    const reader = forwardOf(fileReader(file));
    for (const [at, length] of places) {
        const got = [await reader.read(at, length)];
        for (let done = got[0].length; done < Math.min(length, bytes.length - at); done += got[got.length - 1].length) {
            got.push(await reader.read(at + done, length - done));
            assert.ok(got[got.length - 1].length > 0, `none at ${at + done}`);
        }
        assert.ok(Buffer.concat(got).equals(bytes.subarray(at, at + length)), `at ${at}`);
    }
    return file.cuts;
}

/** `count` consecutive reads of a MiB each, the first `cut` bytes of each left out. */
const rowOf = (count, cut = 0) => Array.from({ length: count }, (_, i) => [i * MiB + cut, MiB - cut]);

test('reads in a row are few slices', async () => {
    assert.deepEqual(await cutsFor(rowOf(73)), [MiB, ...Array(4).fill(16 * MiB), 7 * MiB + 7]);
    const cut = 20000;
    assert.deepEqual(await cutsFor(rowOf(72, cut)), [MiB - cut, ...Array(4).fill(16 * MiB), 7 * MiB + 7 - cut]);
    assert.deepEqual(await cutsFor([[0, 5], [5, 34 * MiB], [5 + 34 * MiB, 10 * MiB]]), [5, 34 * MiB, 16 * MiB, 16 * MiB, 6 * MiB + 2]);
});

test('while a slice is used, the next two are asked for, unless reads may end there', async () => {
    assert.deepEqual(await cutsFor(rowOf(17)), [MiB, 16 * MiB]);
    assert.deepEqual(await cutsFor(rowOf(18)), [MiB, ...Array(4).fill(16 * MiB)]);
    assert.deepEqual(await cutsFor(rowOf(33)), [MiB, ...Array(4).fill(16 * MiB)]);
    assert.deepEqual(await cutsFor(rowOf(34)), [MiB, ...Array(4).fill(16 * MiB), 7 * MiB + 7]);
});

test('a slice that can not be read fails the read that comes to it, and none before', async () => {
    const file = fileOf();
    const slice = file.slice.bind(file);
    file.slice = (from, to) => from < 40 * MiB ? slice(from, to) : { arrayBuffer: async () => { throw new DOMException('gone', 'NotFoundError'); } };
    const reader = forwardOf(fileReader(file));
    for (let i = 0; i < 49; i++) {
        assert.equal((await reader.read(i * MiB, MiB)).length, MiB);
        await new Promise(setImmediate);
    }
    await assert.rejects(reader.read(49 * MiB, MiB), { message: /game.bin\. Was it moved/ });
});

test('a read that goes on after a slice is one more', async () => {
    assert.deepEqual(await cutsFor([[0, 7], [7, 9], [16 * MiB, 100], [17 * MiB, 7 * MiB], [40 * MiB, 9]]),
        [7, ...Array(4).fill(16 * MiB), 8 * MiB]);
    assert.deepEqual(await cutsFor([[60 * MiB, 7], [60 * MiB + 7, 9], [72 * MiB + 7, 9]]), [7, 12 * MiB, 0]);
});

test('of reads that are far apart, or go back, no more is read than is asked for', async () => {
    const places = [[0, 9], [5 * MiB, 9], [10 * MiB, 9], [3, 9], [2 * MiB, 9], [2, 5]];
    assert.deepEqual(await cutsFor(places), places.map(([, length]) => length));
});

test('workers that are free read whole slices ahead, and the page all else', async () => {
    const file = fileOf();
    const asked = [];
    const pool = {
        async readLent({ file: { name }, from, size }) {
            asked.push([name, from, size]);
            return asked.length === 2 ? null : new Uint8Array(bytes.subarray(from, from + size));
        },
    };
    const reader = forwardOf(readByWorkers(fileReader(file), pool, { aborted: false }));
    for (const [at, length] of rowOf(73)) assert.ok(Buffer.from(await reader.read(at, length)).equals(bytes.subarray(at, at + length)), `${at}`);
    assert.deepEqual(asked, [1, 17, 33, 49].map(at => ['game.bin', at * MiB, 16 * MiB]));
    assert.deepEqual(file.cuts, [MiB, 16 * MiB, 7 * MiB + 7]);
});

test('Cancel ends a read that no worker answers', async () => {
    const cancelling = new AbortController();
    const pool = {
        readLent: () => {
            setImmediate(() => cancelling.abort());
            return new Promise(() => {});
        },
    };
    for (const when of ['while it waits', 'before it']) {
        const reader = forwardOf(readByWorkers(fileReader(fileOf()), pool, cancelling.signal));
        await reader.read(0, MiB);
        await assert.rejects(reader.read(MiB, MiB), { code: 'cancelled' }, when);
    }
});

test('a file that is gone says so, whichever way it is read', async () => {
    const file = fileOf();
    const reader = forwardOf(fileReader(file));
    await reader.read(0, 5);
    file.slice = () => { throw new DOMException('gone', 'NotFoundError'); };
    for (const at of [5, 9 * MiB]) await assert.rejects(reader.read(at, 5), { message: /game.bin\. Was it moved/ });
});

test('hashes are those of a file that is read in few slices', async () => {
    const file = fileOf();
    const { sha1 } = await sumsOf(summing, fileReader(file), { aborted: false }, () => {});
    assert.equal(sha1, createHash('sha1').update(bytes).digest('hex'));
    assert.ok(file.cuts.length <= 7, `${file.cuts}`);
});
