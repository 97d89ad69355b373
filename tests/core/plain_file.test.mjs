// Plain files: their texts are listed, found, and replaced as if their bytes were the user data of an image.

import assert from 'node:assert/strict';
import { test } from 'node:test';
import { calls, core, diceOf, encoded, readerOf, sameBytes, someBytes } from './common.mjs';
import { localPool } from './pools.mjs';
import { TEXT, openedDisc } from './opened.mjs';

const { checkLists, exportTable, findText, importIntoFile, importTable, newTextsOf, openPlainFile } = await core('tasks/index.js');
const { sectorsOfFile } = await core('tasks/list_tables.js');
const { contextOf } = await core('texts/all_texts.js');
const { encodingOf } = await core('encodings/encodings.js');
const { encodeText } = await core('encodings/encoding.js');

const [RAW, USER] = [2352, 2048];
const CP932 = encodingOf('CP932');
const engine = { calls, pool: localPool() };

/** Sizes of files around the borders of sectors. */
const SIZES = [0, 1, 15, 2047, 2048, 2049, 4095, 4096, 4097, 6000];

const opened = (bytes, name = 'a.bin') => openPlainFile({ name, reader: readerOf(bytes) });

/** The rows of the table of a file, each as its cells. */
async function rowsOf(bytes, options = {}) {
    const pieces = [];
    for await (const { text } of exportTable(engine, opened(bytes), options)) pieces.push(text);
    return pieces.join('').trimEnd().split('\n').slice(1).map(row => row.split('\t'));
}

/** Imports a list with these rows into a file. */
function imported(file, rows, options = {}) {
    const text = [['block', 'offset', 'room', 'text', 'new'], ...rows].map(cells => `${cells.join('\t')}\n`).join('');
    const list = { name: 'list', reader: readerOf(encoded(text)) };
    return importIntoFile(file, { lists: [list], encodings: [CP932], isAsked: true, partial: true, ...options });
}

test('the sectors of a file have its bytes as user data, from each place and in each length', async () => {
    const dice = diceOf(7);
    for (const size of SIZES) {
        const bytes = someBytes(dice, size);
        const sectors = new Uint8Array(Math.ceil(size / USER) * RAW);
        bytes.forEach((byte, at) => { sectors[Math.floor(at / USER) * RAW + 16 + at % USER] = byte; });
        const reader = sectorsOfFile(readerOf(bytes, 700));
        assert.equal(reader.size, sectors.length);
        for (let i = 0; i < 40; i++) {
            const [at, length] = [dice(sectors.length + 1), dice(3 * RAW)];
            sameBytes(await reader.read(at, length), sectors.subarray(at, at + length), `${length} bytes of ${size} from ${at}`);
        }
        sameBytes(await reader.read(0, sectors.length), sectors, `all of ${size}`);
    }
});

test('a text is found at each place of a file, and not after its end', async () => {
    const dice = diceOf(8);
    for (const size of SIZES) {
        const bytes = Uint8Array.from({ length: size }, () => dice(2));
        for (const text of ['00', '0000', '000100', '01']) {
            const wanted = Buffer.from(text, 'hex');
            const due = Array.from(bytes, (_, at) => at).filter(at => Buffer.from(bytes.subarray(at)).indexOf(wanted) === 0);
            const { best } = await findText(engine, opened(bytes), { text, encodings: [encodingOf('hex')], limit: 10000 });
            const { count, hits } = best || { count: 0, hits: [] };
            assert.deepEqual([count, hits.map(hit => hit.block * USER + hit.offset)], [due.length, due], `${text} in ${size}`);
        }
    }
});

test('nothing is shown after the last byte of a file', async () => {
    const file = opened(encoded('ABCDEF'));
    const { part } = await file.contents();
    assert.deepEqual((await contextOf(part, CP932, { block: 0, offset: 3, size: 2 })).after, ['F']);
    assert.deepEqual((await contextOf(part, CP932, { block: 0, offset: 4, size: 2 })).after, []);
});

test('the rows of a file have offsets from its beginning, and end with it', async () => {
    const text = encodeText(CP932, '勇者は長い旅の果てに城へ着いた');
    for (const [at, zeros, room] of [[0, 0, 30], [2040, 0, 30], [2018, 0, 30], [4000, 1, 30], [4000, 3, 32], [4062, 4, 33]]) {
        const bytes = new Uint8Array(at + text.length + zeros);
        bytes.set(text, at);
        assert.deepEqual((await rowsOf(bytes)).map(row => row.slice(0, 6)), [['-', `${at}`, '30', `${room}`, 'CP932', `a.bin+${at}`]]);
    }
    assert.deepEqual(await rowsOf(new Uint8Array(0)), []);
});

/** A file of 5 GB that is 00 but for a text near its end. */
function largeReader(text) {
    const size = 5e9;
    return { size, read: async (at, length) => {
        const bytes = new Uint8Array(Math.max(Math.min(length, size - at), 0));
        for (let i = 0; i < text.length; i++) if (size - 100 + i >= at && size - 100 + i < at + bytes.length) bytes[size - 100 + i - at] = text[i];
        return bytes;
    } };
}

test('the changes of a file are those of the rows that fit, in the order of their places', async () => {
    const file = opened(encoded(`${'.'.repeat(2040)}press start\0\0\0pot..end`));
    const made = await imported(file, [['-', 2054, '', 'pot', 'urn'], ['-', 2040, 13, 'press start', 'PRESS BUTTON'],
        ['-', 2059, 3, 'end', 'fin'], ['-', 2059, 9, 'end', 'fine'], ['-', 2062, '', '', 'x'], ['0', 2059, '', 'end', 'fin'], ['1', 11, '', 'end', 'fin'],
        ['-', 2054, '', 'pan', 'urn'], ['', 2059, '', 'end', 'fin'], ['-', -1, '', 'end', 'fin'], ['-', 2045, '', ' start', 'x']]);
    assert.deepEqual(made.changes.map(({ at, bytes }) => [at, Buffer.from(bytes).toString()]),
        [[2040, 'PRESS BUTTON'], [2054, 'urn'], [2059, 'fin']]);
    assert.deepEqual(made.left.map(({ text, why: { code } }) => [text.number, code]), [[5, 'list/overlaps'], [6, 'list/after-file'],
        [7, 'list/place-in-image'], [8, 'list/place-in-image'], [9, 'list/overlaps'], [10, 'list/no-place'], [11, 'list/no-place'], [12, 'list/overlaps']]);
    assert.deepEqual([made.count, (await imported(file, [['-', 2054, '', 'pan', 'urn']], { partial: false })).changes], [11, null]);
    const long = await imported(file, [['-', 2059, 9, 'end', 'fine']]);
    assert.deepEqual(long.left[0].why, { code: 'replace/no-room', facts: { name: 'CP932', size: 4, room: 3 } });
    const late = await imported(openPlainFile({ name: 'b', reader: largeReader(encoded('end')) }), [['-', 4999999900, '', 'end', 'fin']]);
    assert.deepEqual(late.changes.map(({ at }) => at), [4999999900]);
});

test('the lists of two files do not overlap, but two rows of one list do', async () => {
    const listOf = (name, ...rows) => ({ name, reader: readerOf(encoded(['block\toffset\troom\ttext\tnew', ...rows, ''].join('\n'))) });
    const first = listOf('a', '-\t2048\t3\tpot\turn', '-\t2050\t3\tpan\tlid');
    const others = [listOf('b', '-\t2048\t3\tcup\tmug'), listOf('c', '1\t0\t3\tcup\tmug')];
    const { left, count } = await checkLists({ lists: [first, ...others], encodings: [CP932], isAsked: true });
    assert.deepEqual([count, left.map(({ text, why }) => [text.list, text.number, why.code])], [4, [['a', 3, 'list/overlaps']]]);
});

test('the new texts of an earlier list of a file are exported again', async () => {
    const text = 'はじめから';
    const bytes = Buffer.concat([Buffer.alloc(2100), encodeText(CP932, text)]);
    const list = { name: 'list', reader: readerOf(encoded(`block\toffset\ttext\tnew\n-\t2100\t${text}\tStart\n`)) };
    const { news } = await newTextsOf([list]);
    assert.deepEqual((await rowsOf(bytes, { freshOf: it => news.of(it) })).map(row => row.slice(6)), [[text, 'Start']]);
    assert.equal(news.unused.size, 0);
});

test('the rows of a file do not fit an image', async () => {
    const { opened: track } = await openedDisc();
    const list = { name: 'list', reader: readerOf(encoded(`block\toffset\ttext\tnew\n-\t100\t${TEXT}\tx\n-\t73828\t${TEXT}\tx\n`)) };
    const made = await importTable(engine, track, { lists: [list], encodings: [CP932], isAsked: true, partial: true });
    assert.deepEqual([made.script, ...made.left.map(({ why }) => why.code)], [null, 'list/place-in-file', 'list/place-in-file']);
});
