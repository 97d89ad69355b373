// The places where characters begin, in texts of each encoding.

import assert from 'node:assert/strict';
import { test } from 'node:test';
import { ENCODINGS_KNOWN, core, diceOf, tableOf } from './common.mjs';

const { LOOKED_BACK, bytesInside, charactersFrom } = await core('texts/codes.js');
const { encodingOf } = await core('encodings/encodings.js');
const { encodeText } = await core('encodings/encoding.js');

/** Sample characters of each encoding that has characters. */
const SIGNS = Object.fromEntries(ENCODINGS_KNOWN.filter(({ signs }) => signs).map(({ name, signs }) => [name, signs]));

/** The encodings in which bytes show where characters begin. */
const TOLD = Object.keys(SIGNS).filter(name => !name.startsWith('UTF-16'));

/** A text of these characters, and the place of each in its bytes. */
function someText(name, dice, count) {
    const signs = Array.from({ length: count }, () => [...SIGNS[name]][dice([...SIGNS[name]].length)]);
    const encoded = signs.map(sign => encodeText(encodingOf(name), sign));
    const starts = encoded.map((_, i) => encoded.slice(0, i).reduce((sum, bytes) => sum + bytes.length, 0));
    return { signs, starts, bytes: new Uint8Array(Buffer.concat(encoded)) };
}

test('a place in the middle of a character is known by what is before it', () => {
    for (const name of TOLD) {
        for (let seed = 0; seed < 30; seed++) {
            const { starts, bytes } = someText(name, diceOf(seed), 60);
            for (let at = 0; at < bytes.length; at++) {
                const next = starts.find(start => start >= at) ?? bytes.length;
                assert.equal(bytesInside(encodingOf(name), bytes, at), next - at, `${name} ${seed} ${at}`);
            }
        }
    }
    const [long, euc] = [new Uint8Array(LOOKED_BACK + 2).fill(0xB0), encodingOf('EUC-JP')];
    assert.deepEqual([bytesInside(euc, long, LOOKED_BACK), bytesInside(euc, long, LOOKED_BACK - 1)], [0, 1]);
    const far = new Uint8Array(3 * LOOKED_BACK).fill(0xB0);
    far[LOOKED_BACK] = 0x41;
    assert.deepEqual([2, 3, LOOKED_BACK, LOOKED_BACK + 2].map(after => bytesInside(euc, far, LOOKED_BACK + after)), [1, 0, 1, 0]);
    assert.equal(bytesInside(encodingOf('UTF-16LE'), Uint8Array.of(0x41, 0x30), 1), 0);
});

test('a place in the middle of a character of a game\'s own table is known too', () => {
    const table = tableOf(new TextEncoder().encode('01=a\n0102=b\n05060708=c\n07=d\n'));
    const bytes = Uint8Array.of(0x07, 0x01, 0x02, 0x05, 0x06, 0x07, 0x08, 0x01, 0x99);
    assert.deepEqual(Array.from(bytes, (_, at) => bytesInside(table, bytes, at)), [0, 0, 1, 0, 3, 2, 1, 0, 0]);
});

test('bytes are cut into their characters', () => {
    for (const name of Object.keys(SIGNS)) {
        const { signs, starts, bytes } = someText(name, diceOf(7), 80);
        const found = [...charactersFrom(encodingOf(name), bytes, 0)];
        assert.deepEqual(found, signs.map((text, i) => ({ at: starts[i], size: (starts[i + 1] ?? bytes.length) - starts[i], text })), name);
    }
    const odd = [...charactersFrom(encodingOf('UTF-8'), Uint8Array.of(0x80, 0x41, 0xE5, 0x42), 0)];
    assert.deepEqual(odd.map(({ at, text }) => [at, text]), [[0, '\uFFFD'], [1, 'A'], [2, '\uFFFD'], [3, 'B']]);
});
