// The filling of a text: fillers of one and two bytes, the end of the field, and padding before codes.

import assert from 'node:assert/strict';
import { test } from 'node:test';
import { core, encoded, tableOf } from './common.mjs';

const { endOfFilling, sizeBeforeFilling } = await core('encodings/table.js');
const { encodingOf } = await core('encodings/encodings.js');
const { filledUp } = await core('tasks/replace.js');

test('filling ends with its field, also if a wide space begins there', () => {
    const cp932 = encodingOf('CP932');
    const bytes = Uint8Array.of(0x41, 0x20, 0x81, 0x40, 0x20);
    assert.deepEqual([1, 2, 3, 4, 5].map(to => endOfFilling(cp932, bytes, 1, to)), [1, 2, 2, 4, 5]);
    assert.equal(endOfFilling(cp932, bytes, 1, 5, 3), 4);
    assert.deepEqual([2, 3, 4, 5].map(size => sizeBeforeFilling(cp932, bytes.subarray(0, size))), [1, 3, 1, 1]);
});

test('spaces are inserted before the control codes that end a text', () => {
    const [cp932, utf16] = ['CP932', 'UTF-16LE'].map(encodingOf);
    const table = tableOf(encoded('01=A\n02=B\n20= \n'));
    const space = Uint8Array.of(0x20);
    const padded = (bytes, size, fill, encoding) => [...filledUp(Uint8Array.from(bytes), size, fill, encoding)];
    assert.deepEqual(padded([0x61, 2, 3], 5, space, cp932), [0x61, 0x20, 0x20, 2, 3]);
    assert.deepEqual(padded([0x61, 2, 0x62], 5, space, cp932), [0x61, 2, 0x62, 0x20, 0x20]);
    assert.deepEqual(padded([0x61, 0, 2, 0], 6, Uint8Array.of(0x20, 0), utf16), [0x61, 0, 0x20, 0, 2, 0]);
    // Letters of a game's own table, a letter of UTF-16, and a sign that the game draws are not codes.
    assert.deepEqual(padded([1, 2], 4, space, table), [1, 2, 0x20, 0x20]);
    assert.deepEqual(padded([1, 2, 3], 4, space, table), [1, 2, 0x20, 3]);
    assert.deepEqual(padded([2, 1], 4, Uint8Array.of(0x20, 0), utf16), [2, 1, 0x20, 0]);
    assert.deepEqual(padded([0x61, 0xFF], 3, space, cp932), [0x61, 0xFF, 0x20]);
    // Other fillers may end a text.
    for (const fill of [0, 0xFF]) assert.deepEqual(padded([0x61, 2], 3, Uint8Array.of(fill), cp932), [0x61, 2, fill]);
    assert.deepEqual(padded([0x61, 2], 3, space), [0x61, 2, 0x20]);
});
