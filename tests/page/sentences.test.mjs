// The sentences for the core's failures and remarks that are more than a text with facts inserted.

import assert from 'node:assert/strict';
import { test } from 'node:test';
import { page } from './page.mjs';

const { blocksText, sentenceOf } = await page('../sentences/index.js');

test('blocks of runs in words', () => {
    const runs = [{ first: 3, last: 3 }, { first: 5, last: 6 }, { first: 9, last: 20 }];
    assert.deepEqual([1, 2, 3].map(count => blocksText(runs.slice(0, count))), ['block 3', 'blocks 3 and 5 to 6', 'blocks 3, 5 to 6 and 9 to 20']);
    assert.equal(blocksText(runs.slice(1, 2)), 'blocks 5 to 6');
    assert.deepEqual([1, 2, 3].map(most => blocksText(runs, most)), ['blocks 3 and 14 more', 'blocks 3, 5 to 6 and 12 more', 'blocks 3, 5 to 6 and 9 to 20']);
});

test('a code that new texts leave out is named with the first rows', () => {
    const said = facts => sentenceOf({ code: 'list/code-left', facts });
    const first = numbers => numbers.map(number => ({ list: '', unit: 'row', number, place: '' }));
    assert.equal(said({ code: '0D', count: 1, rows: 1, first: first([2]) }), 'translations leave out {0D} once: row 2');
    assert.equal(said({ code: '0A', count: 8, rows: 8, first: first([2, 3, 4, 5, 6]) }), 'translations leave out {0A} 8 times: rows 2, 3, 4, 5, 6, and 3 more');
    const lines = [{ list: '', unit: 'line', number: 2, place: '28+26' }, { list: 'a.po', unit: 'line', number: 9, place: '30+0' }];
    assert.equal(said({ code: '0A', count: 2, rows: 2, first: lines }), 'translations leave out {0A} 2 times: line 2 (28+26), a.po: line 9 (30+0)');
});

test('a remark among the facts of another is said in the same language', () => {
    const other = { list: '', unit: 'row', number: 2, place: '' };
    const row = { code: 'list/row-left', facts: { text: { ...other, number: 3 }, why: { code: 'list/overlaps', facts: { row: other } } } };
    assert.equal(sentenceOf(row), 'row 3: it overlaps the text of row 2');
    const others = { 'list/row-left': ({ why }, said) => `<${said(why)}>`, 'list/overlaps': ({ row: { number } }) => String(number) };
    assert.equal(sentenceOf(row, others), '<2>');
});

test('the first lines of a table that mean nothing here are named, and the others counted', () => {
    const said = lines => sentenceOf({ code: 'text/lines-left-out', facts: { lines } });
    assert.equal(said([2]), 'line 2 of the table has no meaning here, and is ignored');
    assert.equal(said([1, 5]), 'lines 1, 5 of the table have no meaning here, and are ignored');
    assert.match(said(Array.from({ length: 25 }, (_, i) => i + 2)), / 20, 21, and 5 more of the table /);
});

test('a character without bytes is shown, or is a number if nobody would see it', () => {
    const said = character => sentenceOf({ code: 'text/no-character', facts: { name: 'CP932', character, place: 2, at: 1 } });
    assert.equal(said('😀'), "CP932 cannot encode '😀' (U+1F600), character 2 of the text");
    for (const [character, code] of [['\u00A0', 'U+00A0'], ['\u0301', 'U+0301'], ['\uD800', 'U+D800']]) {
        assert.equal(said(character), `CP932 cannot encode ${code}, character 2 of the text`);
    }
});
