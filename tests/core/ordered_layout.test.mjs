// The places of texts that keep their order. All places are even, so those of texts that move are even, too.

import assert from 'node:assert/strict';
import { test } from 'node:test';
import { core } from './common.mjs';

const { laidInOrder } = await core('tasks/moving_order.js');

test('texts in order keep their places if they can, and are directly behind one another if pointers cannot reach otherwise', () => {
    const table = { width: 2, big: false, base: -100, own: false, unit: 1 };
    const piece = (first, size, base = table.base) => ({ first, after: first + 10, bytes: new Uint8Array(size), padding: { at: 0, filler: Uint8Array.of(0x20) },
        pointers: [{ table: { ...table, base }, at: 0, target: first }] });
    const placesOf = pieces => [...laidInOrder(pieces, 40).places.values()];
    assert.deepEqual(placesOf([piece(0, 5), piece(10, 12), piece(20, 5), piece(30, 10)]), [0, 10, 22, 30]);
    assert.deepEqual(placesOf([piece(0, 5), piece(10, 10), piece(20, 10), piece(30, 14)]), [0, 6, 16, 26]);
    const padded = [piece(0, 5), piece(10, 10)];
    laidInOrder(padded, 40);
    assert.deepEqual(padded.map(({ bytes }) => bytes.length), [10, 10]);
    // The pointer of the third piece reaches 20 at most.
    const far = [piece(0, 5), piece(10, 12), piece(20, 5, 20 - 0xFFFF), piece(30, 10)];
    const { missing, places } = laidInOrder(far, 40);
    assert.deepEqual([missing, [...places.values()]], [0, [0, 6, 18, 24]]);
    assert.equal(laidInOrder([piece(0, 25), piece(20, 5, 20 - 0xFFFF)], 40).missing, 8);
    assert.equal(laidInOrder([piece(0, 25), piece(20, 18)], 40).missing, 6);
});
