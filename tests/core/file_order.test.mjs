// The order of a track's sectors by files, and replacements in it.

import assert from 'node:assert/strict';
import { test } from 'node:test';
import { calls, core, decoded, diceOf, readerOf, sameBytes } from './common.mjs';

const { fileOrder } = await core('iso/file_order.js');
const { wholeFile } = await core('iso/files.js');
const { replaceBytes } = await core('tasks/replace.js');
const { SECTOR_SIZE } = await core('module/numbers.js');
const { sectorOf } = await core('sectors/sector.js');

const BASE = 100;
const COUNT = 12;
const sectors = calls.encodeBlocks(BASE, Uint8Array.from({ length: COUNT * 2048 }, (_, at) => Math.floor(at / 2048)));
const track = { name: 'image', reader: readerOf(sectors), base: BASE, sectors: COUNT };

/** An extent of a file: its first sector in the track, its size in bytes, and how many bytes of the file come before it. */
const extent = (path, place, size, before) => ({ path, block: BASE + place, size, before, fault: null });

/** The sectors of the track in the order of files; null if that is the order of the track. */
function orderOf(files) {
    const order = fileOrder(track, files);
    return order ? Array.from({ length: COUNT }, (_, index) => order.blockOf(index) - BASE) : null;
}

/** A file that continues before itself, after an empty extent, and a file that continues after another file. */
const APART = [extent('/a', 6, 4096, 0), extent('/a', 11, 0, 4096), extent('/a', 2, 3000, 4096),
    extent('/b', 4, 2048, 0), extent('/b', 9, 100, 2048)];
const DUE = [0, 1, 4, 9, 5, 6, 7, 2, 3, 8, 10, 11];

test('an extent that lies elsewhere comes after the one before it, and all others as they lie', async () => {
    assert.deepEqual(orderOf(APART), DUE);
    assert.deepEqual(orderOf([extent('/e', 5, 0, 0), ...APART]), DUE);
    const order = fileOrder(track, APART);
    DUE.forEach((place, index) => assert.equal(order.indexOf(BASE + place), index));
    for (const [index, place] of DUE.entries()) {
        sameBytes(await order.reader.read(index * SECTOR_SIZE + 5, 9), sectorOf(sectors, place).subarray(5, 14), `sector ${index}`);
    }
    assert.equal((await order.reader.read(2 * SECTOR_SIZE, 9 * SECTOR_SIZE)).length, SECTOR_SIZE);
});

test('files whose extents follow one another, go on within a sector or share sectors have the order of the sectors', () => {
    for (const files of [[], [extent('/a', 2, 4096, 0), extent('/a', 4, 9, 4096)], [extent('/a', 2, 4095, 0), extent('/a', 7, 9, 4095)],
        [extent('/a', 6, 4096, 0), extent('/a', 2, 8192, 4096), extent('/b', 9, 2048, 0), extent('/b', 3, 2048, 2048)]]) {
        assert.equal(orderOf(files), null);
    }
});

test('an order has each sector of the track once, or there is none', () => {
    // The extents have as many sectors as the track in total, but sector 5 is in none of them.
    const twice = [extent('/a', 6, 4096, 0), extent('/a', 2, 6144, 4096), extent('/b', 8, 4096, 0), extent('/b', 3, 2048, 4096)];
    const beyond = [extent('/a', 2, 2048, 0), extent('/a', 11, 4096, 2048), extent('/b', 5, 2048, 0), extent('/b', 20, 2048, 2048)];
    for (const files of [twice, beyond]) {
        const order = orderOf(files);
        assert.ok(order === null || new Set(order).size === COUNT, `${order}`);
    }
    const dice = diceOf(5);
    for (let i = 0; i < 3000; i++) {
        const files = ['/a', '/b'].flatMap(path => {
            let before = 0;
            return Array.from({ length: 1 + dice(3) }, () => {
                const size = 2048 * (1 + dice(3));
                return extent(path, dice(COUNT), size, (before += size) - size);
            });
        });
        const order = orderOf(files);
        assert.ok(order === null || (new Set(order).size === COUNT && Math.max(...order) < COUNT), `${JSON.stringify(files)}: ${order}`);
    }
});

test('the extents of a file are put together in the order of its bytes', () => {
    const parts = [extent('/a', 2, 3000, 4096), extent('/a', 6, 4096, 0)];
    assert.deepEqual(wholeFile(parts), { path: '/a', size: 7096, extents: [parts[1], parts[0]] });
    assert.throws(() => wholeFile([parts[0]]), { code: 'extents/apart', facts: { path: '/a', count: 1 } });
});

test('a file whose parts lie over each other is refused', () => {
    const over = { code: 'extents/over', facts: { path: '/a' } };
    assert.throws(() => wholeFile([extent('/a', 2, 4096, 0), extent('/a', 2, 4096, 4096)]), over);
    assert.throws(() => wholeFile([extent('/a', 5, 2048, 0), extent('/a', 4, 4096, 2048)]), over);
    assert.equal(wholeFile([extent('/a', 5, 2048, 0), extent('/a', 4, 2048, 2048), extent('/a', 5, 0, 4096)]).size, 4096);
});

test('what is replaced over the end of an extent goes on where the next one begins', async () => {
    const image = { ...track, order: fileOrder(track, APART) };
    const old = Uint8Array.of(7, 7, 7, 2, 2);
    const { text, patches } = await replaceBytes(calls, image, { block: BASE + 7, offset: 2045 }, old, Uint8Array.of(1, 2, 3, 4, 5));
    assert.deepEqual([decoded(text), patches], ['set 107 2045 010203 was 070707\nset 102 0 0405 was 0202\n', 2]);
});
