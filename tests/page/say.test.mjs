// The page's messages about errors.

import assert from 'node:assert/strict';
import { test } from 'node:test';
import { calls, core, page } from './page.mjs';

const { messageOf, messageParts, sentence } = await page('ui/notices.js');

const { megabytes } = await page('ui/progress.js');
const { newBytes } = await core('faults.js');
const { serving } = await core('pool/pool.js');
const { JOBS } = await core('jobs/jobs.js');

test('a size is said alike everywhere: in megabytes, below 100 with a tenth', () => {
    const said = { 0: '0', 428064: '0.4', 7321776: '7.3', 99949999: '99.9', 99950000: '100', 734003200: '734', 2147483648: '2,147' };
    for (const [bytes, words] of Object.entries(said)) assert.equal(megabytes(Number(bytes)), words, bytes);
});

test('want of memory is said as that, whichever browser or worker has met it', context => {
    const caught = tried => {
        try {
            return tried();
        } catch (error) {
            return error;
        }
    };
    assert.match(messageOf(caught(() => newBytes(Number.MAX_SAFE_INTEGER))), /does not have enough memory/);
    context.mock.method(WebAssembly.Memory.prototype, 'grow', () => { throw new RangeError('whatever a browser says'); });
    const long = new Uint8Array(2352 * 30000);
    assert.match(messageOf(caught(() => calls.survey(long, 0))), /does not have enough memory/);
    const { fault } = serving(calls, JOBS)({ number: 1, job: 'survey', pieces: [long], first: 0, args: {} });
    assert.equal(fault.code, 'no-memory');
    assert.equal(messageOf(new Error('block 5 is damaged')), 'block 5 is damaged');
    assert.equal(messageOf('a text'), 'a text');
});

const { shownName, shownPaths, stemOf } = await page('ui/notices.js');

/** The text of nodes, with that of elements in angle brackets. */
const textOf = list => list.map(it => typeof it === 'string' ? it : `<${it.text}>`).join('');
globalThis.Node = class {};
globalThis.document = { createElement: () => ({ text: '', append(...parts) { this.text += parts.join(''); } }) };

test('a name at the beginning of a sentence stays as it is, and each name is a part of its own', () => {
    assert.equal(textOf(messageParts(new Error('t.txt is no image'), ['game.bin', 't.txt'])), '<t.txt> is no image');
    assert.equal(textOf(messageParts(new Error('block 5 is damaged'), ['t.txt'])), 'Block 5 is damaged');
    assert.equal(textOf(messageParts(new Error('a.bin and a.bin.bin are alike'), ['a.bin', 'a.bin.bin', ''])), '<a.bin> and <a.bin.bin> are alike');
    assert.equal(textOf(messageParts(new Error('x\u202ey.bin is no image'), ['x\u202ey.bin'])), '<x·y.bin> is no image');
});

test('a message of an error has no character that is not seen, and an end', () => {
    assert.equal(messageOf(new Error('track 1 begins after the end of a\u202e\u001b[31m\n\u2028b')), 'track 1 begins after the end of a··[31m··b');
    assert.equal(sentence(new Error('x\0')), 'X·');
    assert.ok(messageOf(new Error('a'.repeat(100000))).length < 1100);
});

test('a name is shown without characters that are not seen, and without its middle if it is long', () => {
    const shown = { 'game.bin': 'game.bin', 'a\u202enib.exe': 'a·nib.exe', 'a\u200b\u2066\ufeff\u00adb': 'a····b', 'a\nb\tc\u001b]0;x\u0007': 'a·b·c·]0;x·',
        'a\ud800b': 'a·b', '日本語 (1).bin': '日本語 (1).bin', '\u2028\u2029': '··' };
    for (const [name, wanted] of Object.entries(shown)) assert.equal(shownName(name), wanted);
    const long = shownName(`Game ${'x'.repeat(200)} (Track 02).bin`);
    assert.equal([...long].length, 60);
    assert.match(long, /^Game x+…x+ \(Track 02\)\.bin$/);
});

test('of many files at one place some are named', () => {
    const files = ['A', 'B', 'C', 'D', 'E'].map(path => ({ path }));
    assert.equal(shownPaths(files, ' and '), 'A and B and C and 2 more');
    assert.equal(shownPaths(files.slice(0, 1), ' and '), 'A');
});

test('a title gives a name of a file', () => {
    assert.equal(stemOf(' A/B\\c:"d"  \u202e\u0007 e '), 'A B c d e');
});

const { movedWords } = await page('text/pointers_card.js');

test('of many sentences about texts that moved twenty are listed, and the others are counted', () => {
    const said = count => {
        const whys = Array.from({ length: count }, (_, i) => ({ code: 'pointers/no-room', facts: { path: `/F${i}`, missing: 1 } }));
        return movedWords({ left: whys.map(why => ({ why })), few: [], sharing: [], longer: 0 });
    };
    assert.equal(said(20).length, 20);
    assert.deepEqual(said(21).slice(20), ['1 more']);
});
