// The MD5 of the page is that of node, for each length up to three blocks and however the bytes are cut.

import assert from 'node:assert/strict';
import { createHash } from 'node:crypto';
import { test } from 'node:test';
import { page } from './page.mjs';

const { Md5 } = await page('app/hashing.js');

const bytesOf = length => Uint8Array.from({ length }, (_, i) => (i * 37 + (i >> 5)) & 255);

/** The MD5 of bytes that are added in pieces of a size. */
function sumOf(bytes, step) {
    const md5 = new Md5();
    for (let at = 0; at < bytes.length; at += step) md5.add(bytes.subarray(at, at + step));
    return Buffer.from(md5.digest()).toString('hex');
}

test('the MD5 of the page is that of other tools', () => {
    for (const length of [...Array(193).keys(), 2352 * 31]) {
        const bytes = bytesOf(length);
        const due = createHash('md5').update(bytes).digest('hex');
        for (const step of [1000000, 63, 65]) assert.equal(sumOf(bytes, step), due, `${length} bytes by ${step}`);
    }
});
