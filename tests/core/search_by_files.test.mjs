// Searching a track in the order of its files, and replacing the hits.

import assert from 'node:assert/strict';
import { test } from 'node:test';
import { calls, core, decoded, encoded, readerOf } from './common.mjs';
import { localPool } from './pools.mjs';
import { TEXT, openedDisc } from './opened.mjs';
import { recordOf } from './strangers.mjs';

const { findText, findTextAt, replaceHits, untriedLines } = await core('tasks/index.js');
const { contextOf } = await core('texts/all_texts.js');
const { encodingOf } = await core('encodings/encodings.js');
const { Fault } = await core('faults.js');

const USER = 2048;
const UTF8 = encodingOf('UTF-8');
const engine = { calls, pool: localPool() };

const wanted = { text: TEXT, encodings: [UTF8], limit: 10 };
const APART = { block: 31, offset: USER - 5, size: TEXT.length };
const WHOLE = { block: 36, offset: 100, size: TEXT.length };

/** @param {{ script: any }} made */
const linesOf = ({ script }) => decoded(Buffer.concat(script.pieces)).split('\n').slice(1, -1);

test('a text over two extents of a file is found, read and replaced in the order of the file', async () => {
    const { opened } = await openedDisc();
    const { image, best, others, searched } = await findText(engine, opened, wanted);
    assert.deepEqual([best.count, best.hits, others, searched], [2, [APART, WHOLE], [], [UTF8.name]]);
    assert.equal((await contextOf(image, UTF8, APART)).hit, TEXT);
    const made = await replaceHits(engine, opened, { image, encoding: UTF8, hits: [APART], freshFor: () => encoded('PRESS START') });
    assert.deepEqual(made.left, []);
    const due = ['set 31 2043 5052455353 was 7072657373', 'set 20 0 205354415254 was 207374617274'];
    assert.deepEqual(linesOf(made), due);
    const untried = untriedLines(image, { place: APART, old: encoded(TEXT), fresh: encoded('PRESS START') });
    assert.equal(decoded(untried.text), `${due.join('\n')}\n`);
    const moved = await replaceHits(engine, { image: opened.withBase(150).image }, { image: { ...image, base: 150, order: undefined },
        encoding: UTF8, hits: [{ ...WHOLE, block: 186 }], freshFor: () => encoded('PRESS START') });
    assert.deepEqual(linesOf(moved)[0], '# base 150');
    const at = await findTextAt(engine, opened, { ...wanted, place: APART });
    assert.deepEqual([at.hits, at.encoding], [[APART], UTF8]);
});

test('without extents that lie apart a text is found in the order of the sectors, and not at a place where it is not', async () => {
    const { opened } = await openedDisc([recordOf('BIG', 30, 2 * USER, { flags: 0 })]);
    assert.deepEqual((await findText(engine, opened, wanted)).best.hits, [WHOLE]);
    await assert.rejects(findTextAt(engine, opened, { ...wanted, place: APART }), Fault);
    await assert.rejects(findTextAt(engine, opened, { ...wanted, place: { ...WHOLE, block: 40 } }), Fault);
    const moved = (await findText(engine, opened.withBase(150), wanted)).best.hits;
    assert.deepEqual(moved, [{ ...WHOLE, block: 186 }]);
});

test('a search can be cancelled, its progress is told, and an empty text has its code', async () => {
    const { opened } = await openedDisc();
    const told = [];
    await findText(engine, opened, wanted, { progress: (done, all) => void told.push([done, all]) });
    assert.deepEqual(told, [[40, 40]]);
    await assert.rejects(findText(engine, opened, wanted, { signal: { aborted: true } }), { code: 'cancelled' });
    await assert.rejects(findText(engine, opened, { ...wanted, text: '' }), { code: 'find/empty' });
});

const hit = (block, offset, size) => ({ block, offset, size });

/** @param {Uint8Array} user the first bytes of an image of one sector */
function imageOf(user) {
    const sector = new Uint8Array(USER);
    sector.set(user);
    return { name: 'image', reader: readerOf(calls.encodeBlocks(0, sector)), base: 0, sectors: 1, order: undefined };
}

test('hits that are near one another share a read', async () => {
    const { opened } = await openedDisc();
    const { image } = await findText(engine, opened, { ...wanted, text: '0' });
    let reads = 0;
    const read = (...args) => (reads++, image.reader.read(...args));
    const hits = Array.from({ length: 100 }, (_, i) => ({ block: 36 + Math.floor(i / 25), offset: 300 + 2 * i, size: 1 }));
    const counted = { ...image, reader: { size: image.reader.size, read } };
    const made = await replaceHits(engine, opened, { image: counted, encoding: encodingOf('hex'), hits, freshFor: () => Uint8Array.of(9) });
    assert.deepEqual([made.left.length, linesOf(made).length, reads], [0, 100, 1]);
});

test('hits that overlap are not replaced both, and what is left is named', async () => {
    const image = imageOf(Uint8Array.from([7, 7, 7, 0, 7, 7]));
    const places = { image, encoding: encodingOf('hex'), hits: [hit(0, 0, 2), hit(0, 1, 2), hit(0, 4, 2)] };
    const made = await replaceHits(engine, { image }, { ...places, freshFor: () => Uint8Array.of(1, 2) });
    assert.deepEqual(linesOf(made), ['set 0 0 0102 was 0707', 'set 0 4 0102 was 0707']);
    assert.deepEqual(made.left, [{ text: places.hits[1], why: { code: 'replace/overlaps', facts: {} } }]);
    const none = await replaceHits(engine, { image }, { ...places, freshFor() { throw new Fault('replace/no-bytes', {}); } });
    assert.deepEqual([none.script, none.left], [null, places.hits.map(text => ({ text, why: { code: 'replace/no-bytes', facts: {} } }))]);
});

test('replacing hits can be cancelled, and their number is told', async () => {
    const told = [];
    const signal = { aborted: false };
    const progress = (done, all) => { told.push([done, all]); signal.aborted = done === 1; };
    const places = { image: imageOf(new Uint8Array(0)), encoding: encodingOf('hex'), hits: [hit(0, 0, 1), hit(0, 1, 1), hit(0, 2, 1)] };
    const replacing = replaceHits(engine, places, { ...places, freshFor: () => Uint8Array.of(1) }, { signal, progress });
    await assert.rejects(replacing, { code: 'cancelled' });
    assert.deepEqual(told, [[0, 3], [1, 3]]);
});

test('a hit that may begin inside a character is left out, unless it is meant', async () => {
    // In CP932 殻 is 8A6B, so only the second 6B begins a character.
    const image = imageOf(Uint8Array.of(0, 0x8A, 0x6B, 0x7A, 0, 0x6B, 0x7A));
    const places = { image, encoding: encodingOf('CP932'), hits: [hit(0, 2, 2), hit(0, 5, 2)] };
    const freshFor = () => Uint8Array.of(0x78, 0x78);
    const made = await replaceHits(engine, { image }, { ...places, freshFor });
    assert.deepEqual([linesOf(made), made.left], [['set 0 5 7878 was 6B7A'],
        [{ text: places.hits[0], why: { code: 'find/inside', facts: { before: 0x8A } } }]]);
    assert.deepEqual((await replaceHits(engine, { image }, { ...places, freshFor, inside: true })).left, []);
});
