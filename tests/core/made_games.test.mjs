// Texts of made games whose places are known: which are listed, how much room they have, and what the game reads after all are replaced.

import assert from 'node:assert/strict';
import { test } from 'node:test';
import { core, diceOf, encoded, readerOf, someBytes } from './common.mjs';
import { localPool } from './pools.mjs';
import { madeGames } from './made_games.mjs';

const { SEARCHED, encodingOf } = await core('encodings/encodings.js');
const { importIntoFile, openPlainFile, exportTable } = await core('tasks/list_tables.js');

/** The rows of the table of a file. */
async function rowsOf(bytes, options) {
    let table = '';
    for await (const { text } of exportTable({ pool: localPool() }, openPlainFile({ name: 'f', reader: readerOf(bytes) }), options)) table += text;
    return table.split('\n').slice(1).filter(Boolean).map(line => {
        const [, offset, size, room, encoding, , text] = line.split('\t');
        return { at: Number(offset), end: Number(offset) + Number(size), room: Number(room), encoding, text };
    });
}

/** A file in which each row has a text as long as its room. */
async function replacedAll(bytes, rows, name) {
    const fresh = rows.map(({ room, encoding }) => 'abcdefghij'.repeat(room).slice(0, encoding.startsWith('UTF-16') ? room / 2 : room));
    const list = `block\toffset\troom\tencoding\ttext\tnew\n${rows.map((row, i) => `-\t${row.at}\t${row.room}\t${row.encoding}\t${row.text}\t${fresh[i]}\n`).join('')}`;
    const options = { lists: [{ name: 'list', reader: readerOf(encoded(list)) }], encodings: SEARCHED, isAsked: false, partial: false };
    const { changes, left } = await importIntoFile(openPlainFile({ name: 'f', reader: readerOf(bytes) }), options);
    assert.deepEqual(left.map(({ why }) => why.code), [], name);
    const after = Buffer.from(bytes);
    for (const { at, bytes: written } of changes) Buffer.from(written).copy(after, at);
    return { after, fresh };
}

for (const game of madeGames(7)) test(`what is listed of ${game.name} is replaced to its whole room, and the game reads all texts`, async () => {
    const { name, bytes, places, encoding } = game;
    const rows = await rowsOf(bytes, game.options ?? {});
    const exact = places.filter(([from, to]) => rows.some(({ at, end }) => at === from && end === to));
    assert.ok(exact.length >= (game.least ?? 0.9) * places.length, `${name}: ${exact.length} of ${places.length} texts are rows`);
    const known = rows.filter(({ at, end }) => places.some(([from, to]) => from === at && to === end));
    const { after, fresh } = await replacedAll(bytes, known, name);
    const read = game.read(after);
    for (const [i, [from, to]] of places.entries()) {
        const row = known.findIndex(({ at }) => at === from);
        const due = row < 0 ? bytes.subarray(from, to) : Buffer.from(fresh[row], encoding.startsWith('UTF-16') ? 'utf16le' : 'latin1');
        assert.deepEqual([read[i][0], after.subarray(...read[i]).toString('hex')], [from, due.toString('hex')], `${name}: text ${i}`);
    }
});

test('the byte that ends texts is found by itself only if it follows most texts, and the given one is used in any case', async () => {
    const game = madeGames(3).find(({ name }) => name === 'words, then 3');
    const found = [];
    const ended = (path, end) => void found.push([path, end]);
    const rows = await rowsOf(game.bytes, { ended });
    assert.deepEqual(found, [['f', 3]]);
    assert.deepEqual(await rowsOf(game.bytes, { end: 3, ended }), rows);
    const joined = await rowsOf(game.bytes, { end: 0, ended });
    assert.deepEqual([found.length, joined.length < rows.length / 2, joined.some(({ text }) => text.includes('{03}'))], [1, true, true]);
});

test('a given byte does not end the texts of a file in which 00 does', async () => {
    const { bytes, options } = madeGames(3).find(({ name }) => name === 'English in Windows-1252');
    assert.deepEqual(await rowsOf(bytes, { ...options, end: 0xFF }), await rowsOf(bytes, options));
});

test('no encoding of Europe finds texts in noise, in whatever order its bytes come', async () => {
    const noise = someBytes(diceOf(12), 100000);
    for (const encoding of ['Windows-1252', 'Windows-1250', 'Windows-1251', 'CP437', 'CP850', 'CP852', 'CP866']) {
        assert.deepEqual(await rowsOf(noise, { encoding }), [], encoding);
        assert.ok(encodingOf(encoding).isSingle);
    }
});

test('a sentence with words in capitals is one row', async () => {
    for (const [encoding, text] of [
        ['Windows-1252', 'la clause ENCODING doit venir avant XML-DECLARATION'],
        ['CP437', 'advertencia: %B: GNU_PROPERTY_TYPE corrupto (%ld) tipo (0x%x) datosz: 0x%x'],
    ]) {
        const rows = await rowsOf(Buffer.from(`\0${text}\0`, 'latin1'), { encoding });
        assert.deepEqual(rows.map(it => it.text), [text]);
    }
});

test('with any, each run of characters of the encoding that ends as texts do is a row, and nothing else is', async () => {
    const words = ['NEW GAME', 'HP', '#', 'Lv. 7', 'xqzj'];
    for (const [encoding, end, broken] of [['Windows-1252', 0, [1, 2]], ['CP932', 0, [0x85, 0]], ['CP932', 3, [0xFD]], ['UTF-16LE', 0, [0, 0xDC]]]) {
        const [mark, ...all] = ['\0', ...words].map(text => Buffer.from(text.replace('\0', String.fromCharCode(end)), encoding === 'UTF-16LE' ? 'utf16le' : 'latin1'));
        const game = Buffer.concat([Buffer.from(broken), mark, ...all.flatMap(text => [Buffer.from(broken), text, mark])]);
        const rows = await rowsOf(game, { encoding, end, any: true, least: 1 });
        assert.deepEqual(rows.map(it => it.text), words, `${encoding}, then ${end}`);
        assert.ok((await rowsOf(game, { encoding, end })).length < words.length);
    }
    const game = madeGames(3).find(({ name }) => name === 'words, then 3');
    const rows = await rowsOf(game.bytes, { encoding: game.encoding, any: true });
    assert.ok(game.places.every(([from, to]) => rows.some(({ at, end }) => at <= from && end === to)), 'the end is found');
});
