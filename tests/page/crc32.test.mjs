// The CRC-32 of bytes in parts, against known values and those of gzip.

import assert from 'node:assert/strict';
import test from 'node:test';
import { gzipSync } from 'node:zlib';

import { core } from './page.mjs';

const { crc32, joinedCrc } = await core('bytes.js');

test('the CRC-32 is that of gzip, in whatever parts the bytes come', () => {
    assert.equal(crc32(0, new TextEncoder().encode('123456789')), 0xCBF43926);
    const bytes = Uint8Array.from({ length: 1000 }, (_, i) => i * i >>> 3);
    for (const [from, to, cut] of [[0, 1000, 500], [0, 0, 0], [1, 1000, 7], [3, 20, 9], [4, 1000, 996]]) {
        const part = bytes.subarray(from, to);
        const packed = gzipSync(part);
        const due = packed.readUInt32LE(packed.length - 8);
        assert.equal(crc32(0, part), due, `${from} to ${to}`);
        assert.equal(crc32(crc32(0, part.subarray(0, cut)), part.subarray(cut)), due, `${from} to ${to}, cut at ${cut}`);
    }
});

test('the CRC-32 of parts gives that of all', () => {
    const bytes = Uint8Array.from({ length: 70000 }, (_, i) => i * i >>> 3);
    for (const [size, cut] of [[0, 0], [9, 0], [9, 9], [10, 9], [70000, 1], [70000, 2352], [70000, 4464]]) {
        const part = bytes.subarray(0, size);
        const joined = joinedCrc(crc32(0, part.subarray(0, cut)), crc32(0, part.subarray(cut)), size - cut);
        assert.equal(joined, crc32(0, part), `${size} bytes, cut at ${cut}`);
    }
});
