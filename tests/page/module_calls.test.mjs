// Calls of the module that only the page makes.

import assert from 'node:assert/strict';
import { createHash } from 'node:crypto';
import { test } from 'node:test';
import { calls, imageOf, page } from './page.mjs';

const { crossingsOf } = await page('disc/places.js');
const { Sha1 } = await page('app/hashing.js');

test('one wrong byte lies where a column and a diagonal cross', () => {
    const sector = imageOf([Uint8Array.of(1, 2, 3)]).bytes;
    const place = 12 + 5 + 86 * 7;
    sector[place] ^= 1;
    const { columns, diagonals } = calls.findBroken(sector);
    assert.equal(columns.indexOf(1), 5);
    assert.deepEqual([columns.length, diagonals.length, diagonals.filter(Boolean).length], [86, 52, 1]);
    const counts = { columns: 1, ofColumns: 86, diagonals: 1, ofDiagonals: 52 };
    assert.deepEqual(crossingsOf(calls, sector), { crossings: [place], ...counts });
    assert.throws(() => calls.findBroken(new Uint8Array(2351)), RangeError);
});

test('SHA-1 of bytes as they come', () => {
    const bytes = Uint8Array.from({ length: 1000 }, (_, i) => 7 * i + (i >> 5));
    const sha1 = new Sha1(calls);
    for (const [from, to] of [[0, 0], [0, 1], [1, 64], [64, 700], [700, 1000]]) sha1.add(bytes.subarray(from, to));
    assert.equal(Buffer.from(sha1.digest()).toString('hex'), createHash('sha1').update(bytes).digest('hex'));
});
