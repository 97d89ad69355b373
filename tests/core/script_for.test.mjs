// A script for an image: its faults, its length, its stated base, and its effect on the image.

import assert from 'node:assert/strict';
import { test } from 'node:test';
import { MESSAGES } from '../lib/messages.mjs';
import { calls, core, decoded, encoded, joinedPieces, readerOf } from './common.mjs';

const { applyInMemory, applyScript, assertBase, validScript } = await core('tasks/index.js');
const { MOST_SCRIPT_BYTES } = await core('module/index.js');

const BASE = 150;
const based = encoded('cdpatch 1\n# base 150\nset 151 0 41\n');
const sectors = calls.encodeBlocks(BASE, new Uint8Array(2048 * 3));
const imageFrom = base => ({ reader: readerOf(sectors), base });

test('a script for its base is read, whose pieces may end anywhere', async () => {
    const script = await validScript(calls, [based.subarray(0, 14), based.subarray(14)]);
    assert.deepEqual(script, { bases: [{ line: 2, base: BASE }], text: based });
    assertBase(script, BASE);
    assert.deepEqual((await validScript(calls, [encoded('cdpatch 1\nset 1 0 41\n')])).bases, []);
});

test('a script for another base is refused, with its line', async () => {
    const refused = { name: 'Fault', code: 'script/other-base', facts: { line: 2, base: BASE, begins: 1 } };
    const script = await validScript(calls, [based]);
    assert.throws(() => assertBase(script, 0), { code: 'script/other-base' });
    for (const apply of [applyScript, applyInMemory]) await assert.rejects(apply({ calls }, imageFrom(1), script), refused);
});

test('a script with a fault is refused with the line of cdpatch', async () => {
    const facts = { line: `script line 3: ${MESSAGES.word_count}`, tooLong: false, kind: null };
    const refused = { name: 'Fault', code: 'script/refused', facts };
    await assert.rejects(validScript(calls, [encoded('cdpatch 1\n# base 150\nset\n')]), refused);
});

test('a script that is too long is refused, and is read if it may be', async () => {
    const comment = encoded(`cdpatch 1\n#${' '.repeat(MOST_SCRIPT_BYTES)}\n`);
    await assert.rejects(validScript(calls, [comment]), error => error.code === 'script/refused' && error.facts.tooLong);
    assert.deepEqual((await validScript(calls, [comment], true)).bases, []);
});

test('a script is tried as it is applied, by blocks from the base of the image, with carry as it is asked for', async () => {
    const hurt = sectors.slice();
    hurt[2352 + 100] ^= 1;
    const image = { reader: readerOf(hurt), base: BASE };
    const script = await validScript(calls, [encoded('cdpatch 1\nset 150 0 41\nset 151 0 42\nset 153 0 43\n')]);
    for (const [carry, results] of [[false, [0, 2, 4]], [true, [0, 0, 4]]]) {
        const pieces = [];
        const tried = await applyScript({ calls }, image, script, { carry });
        const made = await applyScript({ calls }, image, script, { carry, take: piece => void pieces.push(structuredClone(piece)) });
        const { pieces: kept, ...same } = await applyInMemory({ calls }, image, script, { carry });
        assert.deepEqual(tried.outcomes.map(it => it.result), results);
        assert.match(decoded(tried.text), carry ? /refused 1\n$/ : /refused 2\n$/);
        assert.deepEqual([made, same], [tried, tried]);
        const patched = joinedPieces(hurt, kept);
        assert.deepEqual(joinedPieces(hurt, pieces), patched);
        assert.deepEqual([16, 2352 + 16].map(at => patched[at]), [0x41, carry ? 0x42 : 0]);
    }
});

test('who watches is told which sector is read, and can cancel', async () => {
    const script = await validScript(calls, [encoded('cdpatch 1\nset 150 0 41\nset 152 0 41\n')]);
    const told = [];
    const signal = { aborted: false };
    await applyScript({ calls }, imageFrom(BASE), script, {}, { signal, progress: (...given) => told.push(given) });
    assert.deepEqual([told[0], told.every(([at, all]) => at < 3 && all === 3)], [[0, 3], true]);
    signal.aborted = true;
    await assert.rejects(applyScript({ calls }, imageFrom(BASE), script, {}, { signal }), { code: 'cancelled' });
});
