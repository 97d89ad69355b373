// The new texts that a script writes, in an exported list.

import assert from 'node:assert/strict';
import { test } from 'node:test';
import { calls, core, decoded, encoded, readerOf } from './common.mjs';
import { localPool } from './pools.mjs';
import { openedDisc } from './opened.mjs';
import { recordOf } from './strangers.mjs';

const { Translation, applyInMemory, changesOfLists, exportRecords, exportTable, generate, importTable, patchedTexts, textLines, validScript } =
    await core('tasks/index.js');
const { PatchedReader, ScriptModel } = await core('script/views.js');
const { pieceReader } = await core('readers/index.js');
const { encodeText, withEnd } = await core('encodings/encoding.js');
const { SEARCHED, encodingOf } = await core('encodings/encodings.js');

const engine = { calls, pool: localPool() };

const TEXT = 'はじめから';
/** A disc with this text in block 36, and over the border of two extents. */
const disc = () => openedDisc(undefined, encodeText(encodingOf('CP932'), TEXT));

/** The pieces of the script of a list. */
async function scriptOf(opened, list) {
    const lists = [{ name: 'list', reader: readerOf(encoded(list)) }];
    const { script, left } = await importTable(engine, opened, { lists, encodings: SEARCHED, isAsked: false, partial: false });
    assert.deepEqual(left, []);
    return script.pieces;
}

/** The lines of a script by the texts that they write. */
function linesOf(opened, pieces) {
    const script = new ScriptModel(calls, decoded(Buffer.concat(pieces)));
    return textLines(opened, script, { pointed: [], listed: [], own: encodingOf('CP932') });
}

/** The list of the texts, with the new texts that a script writes. */
async function exported(opened, pieces, options) {
    const { reader, base } = opened.image;
    const patched = await applyInMemory(engine, { reader, base }, await validScript(calls, pieces));
    const freshOf = await patchedTexts(opened, pieceReader(reader, patched.pieces), { lines: await linesOf(opened, pieces) });
    const texts = [];
    for await (const { text } of exportTable(engine, opened, { ...options, freshOf })) texts.push(text);
    return texts.join('');
}

for (const [name, block, offset, fresh] of [
    ['shorter, filled up with spaces', 36, 100, 'PRESS'],
    ['as long', 36, 100, 'PRESS NEXT'],
    ['over the border of two extents', 31, 2043, 'PRESS NEXT'],
    ['of one letter', 31, 2043, 'P'],
]) {
    test(`an exported list has the new texts of the script, and gives it again: a text ${name}`, async () => {
        const { opened } = await disc();
        const pieces = await scriptOf(opened, `block\toffset\ttext\tnew\n${block}\t${offset}\t${TEXT}\t${fresh}\n`);
        const lines = decoded(Buffer.concat(pieces)).split('\n');
        for (const form of ['tsv', 'csv', 'po']) {
            const again = decoded(Buffer.concat(await scriptOf(opened, await exported(opened, pieces, { form })))).split('\n');
            // An entry of a PO file has all places of a text, so the other one is translated too.
            assert.deepEqual(again.filter(it => form !== 'po' || lines.includes(it)), lines, form);
        }
    });
}

test('texts that the script does not write have no new text', async () => {
    const { opened } = await disc();
    const pieces = await scriptOf(opened, `block\toffset\ttext\tnew\n36\t100\t${TEXT}\tPRESS\n`);
    const list = await exported(opened, pieces, {});
    const rows = list.split('\n').slice(1, -1).map(row => row.split('\t'));
    assert.deepEqual(rows.filter(row => row[7] !== '').map(row => [row[0], row[1], row[7]]), [['36', '100', 'PRESS']]);
});

test('an exported table of records has the new texts of the script without their filling', async () => {
    for (const [filler, end] of [['20', undefined], ['00', undefined], ['FF', undefined], ['FE', 0xFE]]) {
        const names = ['Herb', 'Sword', ''];
        const table = Buffer.concat(names.map(name => Buffer.concat([Buffer.from(name), Buffer.alloc(8 - name.length, Number(`0x${filler}`))])));
        const { opened } = await openedDisc([recordOf('NAMES', 36, 2048, { flags: 0 })], table);
        const { files: entries } = await opened.contents();
        const records = { entries, every: 8, length: 8, skip: 100, limit: 3, encoding: encodingOf('CP932'), end };
        const listed = async freshOf => {
            const pieces = [];
            for await (const { text } of (await exportRecords(opened, { ...records, freshOf })).table) pieces.push(text);
            return pieces.join('');
        };
        const list = (await listed(() => '')).replace('Herb\t', 'Herb\tKraut').replace(`{${filler}}\t`, `{${filler}}\tNew name`);
        const lists = [{ name: 'list', reader: readerOf(encoded(list)) }];
        const { script } = await importTable(engine, opened, { lists, encodings: SEARCHED.map(it => withEnd(it, end)), isAsked: false, partial: false });
        const { reader, base } = opened.image;
        const patched = await applyInMemory(engine, { reader, base }, await validScript(calls, script.pieces));
        const freshOf = await patchedTexts(opened, pieceReader(reader, patched.pieces), { end, lines: await linesOf(opened, script.pieces) });
        assert.equal(await listed(freshOf), list, filler);
    }
});

/** Imports a row for the text `text` at 36, 104, whose room is 8 bytes, into a script. Returns its new lines, and those that are gone. */
async function importedBeside(text, fresh, sets) {
    const { opened } = await openedDisc([recordOf('NAMES', 36, 2048, { flags: 0 })], Buffer.from('\x01\x02\x03SLong sw\0\0\0\0', 'latin1'));
    const script = new ScriptModel(calls, `cdpatch 1\n${sets.join('\n')}\n`);
    const lines = await textLines(opened, script, { pointed: [], listed: [], own: encodingOf('CP932') });
    const how = { encodings: SEARCHED, isAsked: false };
    const translation = new Translation((await opened.contents()).part, how);
    const lists = [{ name: 'list', reader: readerOf(encoded(`block\toffset\troom\ttext\tnew\n36\t104\t8\t${text}\t${fresh}\n`)) }];
    const { changes, left } = await changesOfLists(opened, translation, lists, how);
    assert.deepEqual(left, []);
    await translation.read(script, await patchedTexts(opened, new PatchedReader(calls, opened.image, script), { lines }), {});
    const [[place, row]] = changes;
    const shown = place.fresh;
    translation.change([{ place, fresh: row.fresh }]);
    const { removed, instead, end, made } = await generate(engine, opened, translation, script);
    const why = [...made.values()].flatMap(it => it.why === null ? [] : [it.why.code]);
    return { shown, lines: [...[...instead.values()].flat(), ...end], why, replaced: [...removed].map(number => script.lines[number - 1].text) };
}

for (const [name, text, fresh, sets, due] of [
    ['begins before a text', 'Long', 'pee', ['set 36 103 C97065 was 534C6F'], { why: ['list/line-across'] }],
    ['ends after the room of a text', 'Long', 'Une epee', ['set 36 104 556E6520657065652121 was 4C6F6E67207377000000'], { why: ['list/line-across'] }],
    ['fills the place of a text', 'Long', 'Lame', ['fill 36 104 2 65'], { why: ['list/line-across'] }],
    ['has the new text with a different filler', 'Long sw', 'Lame', ['set 36 104 4C616D65000000 was 4C6F6E67207377'],
        { shown: 'Lame' }],
    ['has an earlier new text', 'Long sw', 'Epee', ['set 36 104 4C616D65000000 was 4C6F6E67207377', 'set 36 110 21 was 00'],
        { shown: 'Lame{00}{00}!', lines: ['set 36 104 45706565202020 was 4C6F6E67207377'],
            replaced: ['set 36 104 4C616D65000000 was 4C6F6E67207377', 'set 36 110 21 was 00'] }],
    ['writes in the room after the new text', 'Long', 'Lame', ['set 36 109 2121 was 7377'],
        { shown: 'Long !!', lines: ['set 36 104 4C616D65 was 4C6F6E67'], replaced: ['set 36 109 2121 was 7377'] }],
]) {
    test(`a list is imported into a script with a line that ${name}`, async () => {
        assert.deepEqual(await importedBeside(text, fresh, sets), { shown: '', lines: [], why: [], replaced: [], ...due });
    });
}
