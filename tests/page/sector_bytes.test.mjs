// The bytes of a sector after the script was applied.

import assert from 'node:assert/strict';
import { test } from 'node:test';
import { calls, imageOf, page } from './page.mjs';

const { ScriptLines } = await page('app/script_lines.js');
const { sectorBytes } = await page('disc/sector_edit.js');
const image = imageOf(Array.from({ length: 6 }, () => new Uint8Array(4)));

async function userAfter(script, block) {
    const { fresh } = await sectorBytes({ calls, script: new ScriptLines(calls, script) }, image, block);
    return [...fresh.subarray(16, 20)];
}

test('the bytes after the script are shown, though another line has a fault', async () => {
    const script = 'cdpatch 1\nset 3 1 02\nset 3 9 1\nno verb\r\nset 3 1 03\nset 2 2047 0405 was 0000\n';
    assert.deepEqual(await userAfter(script, 3), [5, 3, 0, 0]);
    assert.deepEqual(await userAfter(script, 2), [0, 0, 0, 0]);
    assert.deepEqual(await userAfter('', 3), [0, 0, 0, 0]);
});

test('a long script shows what it does to a sector as a short one does', async () => {
    const many = Array.from({ length: 60000 }, (_, i) => `set ${i + 10} 0 ${'41'.repeat(40)} was ${'42'.repeat(40)}\n`);
    assert.deepEqual(await userAfter(`cdpatch 1\n${many.join('')}set 3 1 07\n`, 3), [0, 7, 0, 0]);
});
