// The lines of a script that replaced a file in an earlier session.

import assert from 'node:assert/strict';
import { test } from 'node:test';
import { calls, imageOf, page } from './page.mjs';

const { ReplacedFiles, linesIn, linesReplacing, writesOf } = await page('app/replaced_files.js');
const { ScriptLines } = await page('app/script_lines.js');

const image = imageOf(Array.from({ length: 9 }, () => []));
/** A file in block 5; block 1 contains its length. */
const PLACES = [{ block: 5, offset: 0, size: 2048 }, { block: 1, offset: 10, size: 8 }];
const OWN = ['set 5 0 41 was 00', 'set 1 10 0100 was 0000', 'set 5 2047 41 was 00'];
const LATER = ['set 5 0 42 was 00', 'set 5 0 43 was 41'];
const OTHERS = ['set 5 30 44 was 01', 'set 5 9 43', 'set 5 2047 4141 was 0000', 'fill 5 20 2 07'];
const TEXT = ['cdpatch 1', '# mine', ...OWN, ...LATER, ...OTHERS, 'set 6 0 41 was 00', 'rebuild 5', ''].join('\n');

/** The script, and the same script with a comment that makes it too long to be shown. */
const scripts = () => ['', '#'.repeat(4000001)].map(comment => {
    const script = new ScriptLines(calls);
    script.take(TEXT + comment, 'mine.txt');
    return script;
});

test('the lines of a file are those that write in it alone and find their old bytes on the disc', async () => {
    for (const script of scripts()) {
        assert.deepEqual((await linesReplacing(script, image, PLACES)).sort(), [...OWN, ...LATER].sort());
        assert.deepEqual(linesIn(script, PLACES).map(({ text }) => text), [...OWN, ...LATER, ...OTHERS]);
    }
});

test('a script writes in a range if one of its lines does', () => {
    const inside = new ScriptLines(calls, 'cdpatch 1\nfill 4 100 30 00\nset 4 105 41\n');
    assert.deepEqual([99, 100, 104, 106, 129, 130].map(offset => writesOf(inside)({ block: 4, offset, size: 1 })), [false, true, true, true, true, false]);
    for (const script of scripts()) {
        const writes = writesOf(script);
        for (const block of [0, 1, 4, 5, 6, 7]) {
            for (const [offset, size] of [[0, 1], [0, 2048], [1, 9], [10, 8], [18, 4], [20, 1], [22, 8], [34, 2000], [2040, 7], [2047, 2]]) {
                const range = { block, offset, size };
                assert.equal(writes(range), linesIn(script, [range]).length > 0, JSON.stringify(range));
            }
        }
    }
});

test('lines of an earlier session go when their file is replaced again', async () => {
    for (const script of scripts()) {
        const earlier = await linesReplacing(script, image, PLACES);
        assert.equal(new ReplacedFiles().replace(script, image.reader, '/A', ['set 5 1 45 was 00'], earlier), 5);
        assert.deepEqual(linesIn(script, PLACES).map(({ text }) => text), [...OTHERS, 'set 5 1 45 was 00']);
    }
});
