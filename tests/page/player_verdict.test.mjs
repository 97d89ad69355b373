// A patcher's verdict on a player's image, as far as the patches determine it.

import assert from 'node:assert/strict';
import { createHash } from 'node:crypto';
import { test } from 'node:test';
import { calls, imageOf, imageOfBytes, page, parts } from './page.mjs';

const { judgeImage, reasonForPlayer, reasonsOf, refusalForPlayer } = await page('player/verdict.js');
const { openDisc } = await page('../core/disc/disc.js');
const { RESULT } = await page('../core/module/index.js');
const { applyPatches } = await page('../core/script/patches.js');
const { bytesOfPieces } = await page('../core/bytes.js');
const { openTrack, validScript } = await page('../core/tasks/index.js');
const { isPatched } = await page('save/patch_job.js');
const { Pool, localWorker } = await page('../core/pool/pool.js');
const { JOBS } = await page('../core/jobs/jobs.js');

const app = { calls, parts, pool: new Pool([localWorker(calls, JOBS)]) };
const ascii = text => new TextEncoder().encode(text);
const game = imageOf([ascii('hello'), ascii('world'), ascii('again')]);

/** The image that a script produces. */
async function patchedBy(script, image = game) {
    const { pieces, status } = await applyPatches(calls, image.reader, await validScript(calls, [ascii(script)]), { base: 0 });
    assert.equal(status, 0);
    const parts = [];
    for await (const bytes of bytesOfPieces(image.reader, pieces)) parts.push(...bytes);
    return imageOfBytes(Uint8Array.from(parts));
}

/** The image with one changed byte. */
function changed(image, at, sectors = image.sectors) {
    const bytes = image.bytes.slice(0, sectors * 2352);
    bytes[at] ^= 255;
    return imageOfBytes(bytes);
}

/** The data of a patcher for an image, without a cue sheet. */
const dataFor = (image, script, more) => ({ base: 0, carry: false, script, image: { size: image.bytes.length, sha1: '' }, result: '',
    cue: '', name: 'game.bin', ...more });

async function judged(image, script, more = {}) {
    const opened = openTrack(await openDisc(calls, [{ name: image.name, reader: image.reader }]));
    return judgeImage(app, dataFor(image, script, more), opened, { signal: { aborted: false }, progress() {} });
}

const isDone = (image, script) => isPatched(app, { reader: image.reader, base: 0, script });

const sha1 = ({ bytes }) => createHash('sha1').update(bytes).digest('hex');

test('an image is patched already if the script changes nothing in it, whose patches overlap too', async () => {
    for (const script of ['cdpatch 1\nset 0 0 4A was 68\n', 'cdpatch 1\nset 0 0 4142 was 6865\nset 0 1 4344 was 426C\nfill 1 0 3 20\nrebuild 2\n']) {
        const made = await patchedBy(script);
        assert.equal(await isDone(made, script), true);
        assert.equal(await isDone(game, script), false);
        assert.equal(await isDone(changed(made, 16), script), false);
        assert.equal((await judged(made, script, { result: sha1(made) })).verdict, 'patched');
    }
});

test('a verdict says whether other bytes or damage refuse the patches', async () => {
    const script = 'cdpatch 1\nset 0 0 4A was 68\nset 1 0 4A was 77\n';
    const other = imageOf([ascii('hello'), ascii('earth'), ascii('again')]);
    const { verdict, refused, patches, words } = await judged(other, script);
    assert.deepEqual([verdict, refused, patches, words], ['other', [5], 2, 'refused: old bytes differ at block 1 offset 0']);
    assert.deepEqual(await judged(changed(game, 2352 + 400), script).then(it => [it.verdict, it.refused]), ['damaged', [2]]);
    assert.deepEqual(await judged(changed(game, 2352 * 2 - 2, 1), script).then(it => [it.verdict, it.refused]), ['other', [4]]);
    assert.deepEqual(await judged(changed(game, 2352 + 4), script).then(it => [it.verdict, it.refused]), ['other', [1]]);
});

test('each reason that refuses a place has its own words', () => {
    const words = reasonsOf(9, [5, 5, 2, 1, 4]);
    assert.deepEqual(words.map(it => it.split('. ')[0]), ['2 of 9 places to patch contain different bytes', '1 of 9 places to patch is damaged',
        '1 of 9 places to patch is not in a Mode 1 sector here', '1 of 9 places to patch is not in this image']);
    assert.deepEqual(reasonsOf(2, [2]).filter(it => it.includes('release')), []);
});

test('an image with other bytes may have an older version of the patch, if it is as long as the author’s', () => {
    const older = 'Or an older version of this patch has changed it: choose the original image.';
    const words = (refused, size) => refusalForPlayer({ patches: 9, refused, findings: [] }, size, 2352);
    assert.deepEqual(words([5, 5], 2352), [...reasonsOf(9, [5, 5]), older]);
    for (const [refused, size] of [[[5, 5], 4704], [[5, 4], 2352], [[5, 1], 2352], [[2], 2352]]) {
        assert.deepEqual(words(refused, size), reasonsOf(9, refused));
    }
});

globalThis.Node = class {};
globalThis.document = { createElement: () => ({ text: '', append(...more) { this.text += more.join(''); } }) };

/** A verdict and the explanation under it. */
async function said(image, script, more = {}) {
    const it = await judged(image, script, more);
    const reason = reasonForPlayer(it, image.bytes.length, dataFor(image, script, more));
    return [it.verdict, reason && reason.text];
}

test('only the SHA-1 says that an image is right or patched', async () => {
    const script = 'cdpatch 1\nset 3 0 00 was 41\nset 4 0 00 was 42\n';
    const author = imageOf([1, 2, 3, 4, 5].map(() => ascii('A')));
    const zeros = imageOf([1, 2, 3, 4, 5, 6, 7].map(() => new Uint8Array(2)));
    const image = { size: author.bytes.length, sha1: sha1(author) };
    const [verdict, words] = await said(zeros, script, { image });
    assert.equal(verdict, 'changed');
    assert.equal(words, 'There is nothing to patch. But this is not the image that the author made: its SHA-1 does not match. ' +
        'Your image has 16,464 bytes, and the author’s has 11,760.');
    assert.equal((await said(zeros, script, { image, result: sha1(zeros) }))[0], 'patched');
    assert.equal((await said(author, 'cdpatch 1\nset 3 0 42\n', { image }))[0], 'right');
    const without = 'cdpatch 1\nset 3 0 00\n';
    assert.equal((await said(zeros, without, { image }))[0], 'changed');
});

test('an image fits only if it is as long as the author’s and all that is written names its old bytes', async () => {
    const size = game.bytes.length;
    const other = changed(game, 2352 * 2 + 20);
    const image = { size, sha1: '' };
    const set = 'set 0 0 4A was 68\n';
    const rows = [
        [`${set}set 1 0 41 was 77\n`, image, 'hurt', /^All 2 places match\. 1 sector of your image is damaged\. This may stop the game\. Try another dump of this disc, or repair this one with the full cdpatch\.$/],
        [set, image, 'hurt', /^The place matches\./],
        [`${set}set 1 0 41\n`, image, 'unknown', /^1 of 2 places to patch matches\. 1 of 2 patches has no old bytes to compare, so cdpatch cannot tell whether it matches\. 1 sector of your image is damaged\. This may stop the game\. Try another dump of this disc, or repair this one with the full cdpatch\.$/],
        ['set 0 0 41\nfill 1 0 100 00\n', image, 'unknown', /^2 of 2 patches have no old bytes to compare, so cdpatch cannot tell whether they match\. 1 sector/],
        [`${set}fill 1 0 1 41\n`, image, 'unknown', /^1 of 2 places to patch matches\. 1 of 2 patches/],
        [`${set}set 1 0 4A was 77\nrebuild 1\n`, image, 'unknown', /^2 of 3 places to patch match\. 1 of 3 patches has no/],
        [set, { size: size + 2352, sha1: '' }, 'unknown', /^The place matches, but .* Your image has 7,056 bytes, and the author’s has 9,408\. The file is probably incomplete\. 1 sector/],
        [set, { size: size - 2352, sha1: '' }, 'unknown', /the author’s has 4,704\. 1 sector/],
    ];
    for (const [lines, wanted, verdict, words] of rows) {
        const [it, text] = await said(other, `cdpatch 1\n${lines}`, { image: wanted });
        assert.equal(it, verdict, lines);
        assert.match(text, words);
    }
    assert.equal((await said(other, 'cdpatch 2\naddress 1 00:02:05\n', { image }))[0], 'unknown');
});

const SCRIPT = 'cdpatch 1\nset 0 0 4A was 68\n';
/** An image that fits, with a different sector. */
const sound = imageOf([ascii('hello'), ascii('earth'), ascii('again')]);

test('music is perhaps shifted only if the author’s cue sheet lists some in the file of the image', async () => {
    const data = 'FILE "game.bin" BINARY\n  TRACK 01 MODE1/2352\n    INDEX 01 00:00:00\n';
    const audio = '  TRACK 02 AUDIO\n    INDEX 01 00:00:02\n';
    for (const cue of ['', data, `${data}FILE "music.bin" BINARY\n${audio}`]) {
        assert.equal((await said(sound, SCRIPT, { cue }))[1], 'The place matches. The rest of the disc differs from the author’s.');
    }
    assert.match((await said(sound, SCRIPT, { cue: data + audio }))[1], /differs from the author’s: perhaps its music is shifted\.$/);
    assert.doesNotMatch((await said(changed(sound, 2352 + 20), SCRIPT, { cue: data + audio }))[1], /music/);
});

const AFTER = ' This may stop the game. Try another dump of this disc, or repair this one with the full cdpatch.';

test('the damaged, lost, and missing sectors of an image that the patch matches are counted', async () => {
    const words = async bytes => {
        const [verdict, text] = await said(imageOfBytes(bytes), SCRIPT);
        return [verdict, text.replace(/^The place matches[^.]*\. /, '')];
    };
    assert.deepEqual(await words(changed(changed(sound, 2352 + 20), 2 * 2352 + 20).bytes), ['hurt', `2 sectors of your image are damaged.${AFTER}`]);
    assert.deepEqual(await words(sound.bytes.slice().fill(0, 2352, 2 * 2352)), ['hurt', `1 data sector of your image is lost.${AFTER}`]);
    const shifted = Buffer.concat([long.subarray(0, 20 * 2352), long.subarray(23 * 2352), long.subarray(57 * 2352)]);
    assert.deepEqual(await words(shifted), ['hurt', `Sectors are missing or extra in 1 place of your image.${AFTER}`]);
    assert.deepEqual(await words(sound.bytes.subarray(0, 3 * 2352 - 1)), ['hurt', `The file is probably incomplete.${AFTER}`]);
});

const long = imageOf(Array.from({ length: 60 }, (_, i) => ascii(`hello ${i}`))).bytes;

test('missing and lost sectors explain why places do not match, so that no other release or track is suspected', async () => {
    const script = `cdpatch 1\n${[10, 30, 50].map(block => `set ${block} 7 41 was 30\n`).join('')}`;
    const rows = [
        [Buffer.concat([long.subarray(0, 20 * 2352), long.subarray(23 * 2352), long.subarray(57 * 2352)]), 'other',
            ['2 of 3 places to patch contain different bytes.', 'Sectors are missing or extra in 1 place of your image.'], [[20, 20]]],
        [Buffer.concat([long.subarray(0, 25 * 2352), Buffer.alloc(7 * 2352), long.subarray(32 * 2352)]), 'other',
            ['1 of 3 places to patch is not in a Mode 1 sector here.', '7 data sectors of your image are lost.'], [[25, 31]]],
        [changed(changed(imageOfBytes(long), 30 * 2352 + 400), 40 * 2352 + 400).bytes, 'damaged',
            ['1 of 3 places to patch is damaged.', '2 sectors of your image are damaged.'], [[30, 30], [40, 40]]],
        [imageOf(Array.from({ length: 60 }, (_, i) => ascii(`earth ${i + 1}`))).bytes, 'other', ['3 of 3 places to patch contain different bytes. '
            + 'It is probably another release of the game, or a different game.', 'Or an older version of this patch has changed it: choose the original image.'], []],
    ];
    for (const [bytes, verdict, words, runs] of rows) {
        const it = await judged(imageOfBytes(Uint8Array.from(bytes)), script);
        assert.equal(it.verdict, verdict);
        const more = runs.length > 0 ? AFTER.slice(1).split(/(?<=\.) /) : [];
        assert.deepEqual(refusalForPlayer(it, long.length, long.length), [...words, ...more]);
        assert.deepEqual([it.damage.runs.map(({ first, last }) => [first, last]), it.damage.sectors], [runs, 60]);
    }
    assert.deepEqual(refusalForPlayer({ patches: 2, refused: [RESULT.NO_BLOCK], findings: [{ code: 'short', count: 9 }] }, 2352, 4704).slice(0, 2),
        ['1 of 2 places to patch is not in this image.', 'The file is probably incomplete.']);
});
