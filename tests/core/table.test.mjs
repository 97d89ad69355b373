// The table of a track's texts: export and import.

import assert from 'node:assert/strict';
import { test } from 'node:test';
import { calls, core, decoded, encoded, readerOf } from './common.mjs';
import { localPool } from './pools.mjs';
import { TEXT, openedDisc } from './opened.mjs';

const { exportTable, importTable } = await core('tasks/index.js');
const { linesMade } = await core('script/script_writer.js');
const { encodeText } = await core('encodings/encoding.js');
const { SEARCHED, encodingOf } = await core('encodings/encodings.js');

const engine = { calls, pool: localPool() };

/** The text of an exported table, and its number of rows. */
async function exported(opened, options, watch) {
    const pieces = [];
    for await (const piece of exportTable(engine, opened, options, watch)) pieces.push(piece);
    return { text: pieces.map(({ text }) => text).join(''), count: pieces.reduce((sum, { count }) => sum + count, 0) };
}

/** Imports a table with these rows. */
function imported(opened, rows, options = {}) {
    const text = [['block', 'offset', 'text', 'new'], ...rows].map(cells => `${cells.join('\t')}\n`).join('');
    const lists = [{ name: 'texts.tsv', reader: readerOf(encoded(text)) }];
    return importTable(engine, opened, { lists, encodings: SEARCHED, isAsked: false, partial: true, ...options });
}

const scriptText = ({ script }) => decoded(Buffer.concat(script.pieces));

test('a table has the texts of a track in the order of its files, or those of some files', async () => {
    const known = 'はじめから';
    const { opened } = await openedDisc(undefined, encodeText(encodingOf('CP932'), known));
    const { text, count } = await exported(opened, {});
    const rows = text.split('\n').filter(row => row.includes(known)).map(row => row.split('\t'));
    assert.deepEqual(rows.map(([block, offset, , , , file]) => [block, offset, file]), [['31', '2043', '/BIG+4091'], ['36', '100', '-']]);
    const some = await exported(opened, { paths: ['/BIG'], form: 'csv' });
    assert.deepEqual([some.text.startsWith('\uFEFFblock,offset,'), some.text.split(known).length, some.count < count], [true, 2, true]);
    assert.equal((await exported(opened, { least: known.length + 1 })).text.includes(known), false);
    await assert.rejects(exported(opened, { paths: ['/BIG', '/BIGGER'] }), { code: 'no-file', facts: { path: '/BIGGER' } });
    await assert.rejects(exported(opened, {}, { signal: { aborted: true } }), { code: 'cancelled' });
});

test('other tasks get turns between the new texts of an export, and Cancel ends it', async () => {
    const { opened } = await openedDisc(undefined, encodeText(encodingOf('CP932'), 'はじめから\0つづきから\0スタート'));
    for (const form of ['tsv', 'po']) {
        const [signal, turns] = [{ aborted: false }, { all: 0 }];
        const timer = setInterval(() => { turns.all += 1; }, 1);
        const freshOf = () => {
            for (const end = Date.now() + 60; Date.now() < end;);
            return '';
        };
        const { count } = await exported(opened, { form, freshOf }, { signal });
        clearInterval(timer);
        assert.ok(turns.all >= count - 1, `${turns.all} turns for ${count} texts`);
        const stopping = () => {
            signal.aborted = true;
            return '';
        };
        await assert.rejects(exported(opened, { form, freshOf: stopping }, { signal }), { code: 'cancelled' });
    }
});

test('new texts become a finished script, with a line for each extent', async () => {
    const { opened } = await openedDisc();
    const made = await imported(opened.withBase(150), [[181, 2043, TEXT, 'PRESS START'], [186, 100, TEXT, '']]);
    assert.equal(scriptText(made), 'cdpatch 1\n# base 150\nset 181 2043 5052455353 was 7072657373\nset 170 0 205354415254 was 207374617274\n');
    assert.deepEqual([made.count, made.left, made.codes, made.empty], [1, [], [], []]);
    assert.deepEqual(linesMade(made.script), ['set 181 2043 5052455353 was 7072657373', 'set 170 0 205354415254 was 207374617274']);
});

test('rows that do not fit are left out, or there is no script', async () => {
    const { opened } = await openedDisc();
    const rows = [[36, 100, TEXT, 'PRESS'], [31, 2043, 'press enter', 'enter'], [31, 2043, TEXT, `${TEXT} again`]];
    const made = await imported(opened, rows);
    assert.deepEqual([made.count, made.left.map(({ text, why }) => [text.number, why])], [3, [[3, { code: 'list/other-text', facts: {} }],
        [4, { code: 'replace/no-room', facts: { name: 'CP932', size: 17, room: 11 } }]]]);
    assert.equal(scriptText(made).startsWith('cdpatch 1\nset 36 100 5052455353202020202020 was'), true);
    assert.equal((await imported(opened, rows, { partial: false })).script, null);
    assert.equal((await imported(opened, rows.slice(1))).script, null);
    assert.notEqual((await imported(opened, rows.slice(0, 1), { partial: false })).script, null);
    const asked = await imported(opened, [[36, 100, TEXT, 'PRESS']], { encodings: [encodingOf('UTF-16LE')], isAsked: true });
    assert.deepEqual([asked.script, asked.left.length], [null, 1]);
});

test('rows without a new text that the script writes already have the bytes of their old texts, and codes left out are counted', async () => {
    const { opened } = await openedDisc();
    const made = await imported(opened, [[36, 100, TEXT, ''], [31, 2043, TEXT, '']], { isAlso: ({ block }) => block === 36 });
    assert.deepEqual([made.count, made.script, made.left], [0, null, []]);
    assert.deepEqual(made.empty, [{ block: 36, offset: 100, size: TEXT.length + 36 }]);
    const repeated = await imported(opened, [[36, 100, TEXT, ''], [36, 100, TEXT, 'PRESS']], { isAlso: () => true });
    assert.deepEqual(repeated.empty, []);
    const coded = await imported(opened, [[36, 100, `${TEXT}{00}`, 'PRESS START']]);
    assert.deepEqual(coded.codes, [{ code: '00', count: 1, rows: 1, first: [{ list: '', unit: 'row', number: 2, place: '' }] }]);
});
