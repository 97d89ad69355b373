// The survey of an image when it is opened, and again after hashing: its findings are those of the task.

import assert from 'node:assert/strict';
import { createHash } from 'node:crypto';
import { test } from 'node:test';
import { calls, core, imageOf, page, summing } from './page.mjs';

const { MARK } = await page('app/marks.js');
const { App } = await page('app/state.js');
const { addressWords } = await page('disc/sector_fault.js');
const { imageOfTrack } = await page('open/open.js');
const { readImage } = await page('open/reading.js');
const { openDisc } = await core('disc/index.js');

/** A file of a disc. */
const fileOf = (name, bytes) => ({ name, reader: { size: bytes.length, read: async (at, length) => bytes.slice(at, at + length) } });

/** A track of files as the page opens it. */
async function opened(files, track = null) {
    return imageOfTrack(await openDisc(calls, Object.entries(files).map(([name, bytes]) => fileOf(name, bytes))), track);
}

test('the sectors of an image that begins before block 0 have the addresses that it says', async () => {
    const { bytes } = imageOf(Array.from({ length: 20 }, () => [1]));
    bytes[2352 * 7 + 14] ^= 1; // breaks an address
    const image = await opened({ 'game.bin': Buffer.concat([new Uint8Array(2352 * 150), bytes]) });
    assert.deepEqual([image.base, image.addressed], [0, -150]);
    const app = new App(calls, summing.pool, summing.parts);
    const found = [];
    app.on('surveyed', () => found.push([app.survey.marks.findings(), app.survey.marks.elsewhere]));
    await readImage(app, image);
    assert.notEqual(app.image.sha1, '');
    await readImage(app, app.image);
    assert.deepEqual(found.at(-1), [1, 1]);
    assert.ok(found.length > 1 && found.every(it => it[0] === 1), JSON.stringify(found));
});

test('tracks of one file whose addresses count from different blocks are each judged by their own, before and after hashing', async () => {
    const sectors = (block, count) => Array.from({ length: count }, (_, i) => calls.encode(calls.address(block + i), new Uint8Array(2048)));
    const [first, second] = [sectors(0, 300), sectors(450, 200)];
    second[7] = calls.encode(calls.address(7), new Uint8Array(2048));
    second[9] = new Uint8Array(2352).fill(0x55);
    const sheet = 'FILE "game.bin" BINARY\n TRACK 01 MODE1/2352\n INDEX 01 00:00:00\n TRACK 02 MODE1/2352\n PREGAP 00:02:00\n INDEX 01 00:04:00\n';
    const files = { 'game.cue': new TextEncoder().encode(sheet), 'game.bin': Buffer.concat([...first, ...second]) };
    for (const [track, base] of [[1, 0], [2, 150]]) {
        const image = await opened(files, track);
        const app = new App(calls, summing.pool, summing.parts);
        for (const run of ['with its hash', 'again']) {
            await readImage(app, run === 'again' ? app.image : image);
            const { block, verdict, marks: { marks } } = app.survey;
            assert.deepEqual([block, verdict.findings.map(({ code, count }) => [code, count])], [base, [['lost', 1], ['address', 1]]], run);
            assert.deepEqual([...marks.keys()].filter(i => marks[i] >= MARK.ADDRESS).map(i => [i, marks[i]]),
                [[307, MARK.ADDRESS], [309, MARK.LOST]], run);
            assert.equal(addressWords(app, base + 308), '00:08:08', run);
        }
        assert.equal(app.image.sha1, createHash('sha1').update(files['game.bin']).digest('hex'));
    }
});
